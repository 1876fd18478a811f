"""Random faults, which take minutes."""
import rows_faults

COUNT = 100


def test_random_faults(world):
    requests, entries = rows_faults.random_faults(world, COUNT, seed=1)
    print(f"replicas: {COUNT} random faults over {requests} requests, {entries} entries, {len(world.deeds)} answers")
