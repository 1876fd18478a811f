"""Operations by chance: whatever a session at secret does, one at public sees the same before and after, and never a
byte or a name of it."""
import random
import time

from world import same

SECONDS, SEED = 60, 1
MARK = "HIGH"
NAMES = ["a", "b", "c", "d", "d/a", "d/b", "d/s", "d/s/a", "s", "s/a", "s/b", "s/t", "s/t/a", "new", "m", "m/a", "m/b",
         "m@public_any", "m@public_any/a", "m@secret_any", "m@secret_any/a"]
HIGH_NAMES = [*NAMES, f"s/{MARK}", MARK, f"d/{MARK}", f"s/t/{MARK}", f"m/{MARK}", f"m@public_any/{MARK}"]
LABELS = [b"secret_any", b"public_any", b"top_any"]
# What is done, how often, and of what it takes: N a name, B bytes, L a label, M a mode, S a size.
DEEDS = [("put", 6, "NB"), ("get", 2, "N"), ("mkdir", 3, "NM"), ("unlink", 2, "N"), ("rmdir", 1, "N"),
         ("rename", 3, "NN"), ("link", 2, "NN"), ("symlink", 1, "NN"), ("truncate", 2, "NS"), ("chmod", 1, "NM"),
         ("listdir", 1, "N"), ("setxattr", 2, "NXB"), ("setxattr", 2, "NYL"), ("removexattr", 1, "NX"),
         ("utime", 1, "N"),
         ("readlink", 1, "N")]
WEIGHTS = [often for _, often, _ in DEEDS]


def arguments_of(chance, kinds, names, mark):
    made = {"N": lambda: chance.choice(names), "B": lambda: (mark * chance.randrange(1, 2000)).encode(),
            "L": lambda: chance.choice(LABELS), "M": lambda: chance.choice([0o777, 0o666, 0o700]),
            "S": lambda: chance.randrange(5000), "X": lambda: "user.x", "Y": lambda: "user.mls"}
    return [made[kind]() for kind in kinds]


def do(chance, session, names, mark, counts):
    name, _, kinds = chance.choices(DEEDS, WEIGHTS)[0]
    arguments = arguments_of(chance, kinds, names, mark)
    came = getattr(session, name)(*arguments)
    counts[came in (None, "put")] += 1
    return name, [it[:20] if isinstance(it, bytes) else it for it in arguments], came


def lay(world, low):
    """Folders at public and at secret, a multilevel one, and nothing else."""
    world.empty()
    world.levels("m", "public_any", "secret_any")
    for folder in ("s", "d", "d/s"):
        low.mkdir(folder, 0o777)
    same([(low, "setxattr", folder, "user.mls", b"secret_any", None) for folder in ("s", "d/s")])


def test_operations_by_chance(world):
    """Rounds of a few operations above, which change nothing below, and then of a few below."""
    chance, low, high = random.Random(SEED), world.session("man"), world.session("games", "secret")
    counts = {"above": [0, 0], "below": [0, 0]}
    end, rounds = time.monotonic() + SECONDS, 0
    while time.monotonic() < end:
        if rounds % 10 == 0:
            lay(world, low)
        rounds += 1
        for _ in range(8):
            do(chance, low, NAMES, "low", counts["below"])
        before = low.view(NAMES)
        done = [do(chance, high, HIGH_NAMES, MARK, counts["above"]) for _ in range(12)]
        after = low.view(NAMES)
        assert before == after, f"seed {SEED}: {done}: {[it for it in zip(before, after) if it[0] != it[1]]}"
        assert MARK not in repr(after), f"seed {SEED}: {done}"
    assert min(counts["above"] + counts["below"]) > 0, counts
    return f"ok: {sum(counts['above'])} operations above, {counts['above'][1]} of them done; " \
           f"{sum(counts['below'])} below, {counts['below'][1]} done"
