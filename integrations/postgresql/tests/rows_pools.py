"""A users file with a pool: each backend of ann has a subject of its own, with a level and accesses of its own."""
import copy
import json
import subprocess
import time

from monitor import Monitor
from server import HERE, SOURCE, database_user


def pooled(world):
    """A monitor whose start has ann-1 and ann-2 in the place of ann."""
    with open(f"{HERE}/office.json", encoding="utf-8") as file:
        start = json.load(file)
    ann = start["subjects"].pop(0)
    start["subjects"] += [{**copy.copy(ann), "name": f"ann-{k}"} for k in (1, 2)]
    with open(f"{world.folder}/pooled-office.json", "w", encoding="utf-8") as file:
        json.dump(start, file)
    with open(f"{world.folder}/pooled.json", "wb") as file:
        subprocess.run([f"{SOURCE}/containers", f"{world.folder}/pooled-office.json"], stdout=file, check=True)
    users = f"pool ann = ann-1 ann-2\n{database_user().pw_uid} = ann bob sec rate=0 clients=400\n"
    return Monitor(world.folder, "pooled", f"{world.folder}/pooled.json", users)


def begun(world):
    """A session of ann's that has a subject, once one is free."""
    ann = world.server.session("ann")
    end = time.monotonic() + 60
    while (found := ann.ask("SELECT count(*) FROM docs;")).startswith("ERROR:  mls: the monitor says busy"):
        assert time.monotonic() < end, "the pool stays busy"
    return ann


def levels(world):
    first, second = begun(world), begun(world)
    assert first.ask("SELECT mls.level('S:A'); SELECT count(*) FROM docs;") == "S:A\n4\n"
    assert second.ask("SELECT count(*) FROM docs; INSERT INTO docs VALUES (90, 'U_hi', 'x');") == "1\n"
    below = first.ask("INSERT INTO docs VALUES (91, 'U_hi', 'x');")
    assert below == "ERROR:  mls: ann may not append container U_hi: no star\n", below
    # (what one holds doesn't keep the other from another level)
    assert first.ask("BEGIN; SELECT id FROM docs WHERE id = 3;") == "3\n"
    assert second.ask("SELECT mls.level('C'); SELECT mls.level('U');") == "C\nU\n"
    none = world.ask("ann", "SELECT * FROM docs;")
    assert none == "ERROR:  mls: the monitor says busy to ann\n", none
    # (and so where that is only asked as a question)
    with world.server.having(preview="on"):
        assert world.ask("ann", "SELECT * FROM docs;") == none
    first.close()
    # (the subject that comes back is at the level of the start)
    third = begun(world)
    assert third.ask("SELECT count(*) FROM docs; SELECT mls.level('S:A');") == "2\nS:A\n"
    # (and so is that of a session which begins anew)
    assert third.ask("SELECT count(*) FROM docs; DISCARD ALL;") == "5\n"
    while (found := third.ask("SELECT count(*) FROM docs;")).startswith("ERROR:  mls: the monitor says busy"):
        pass
    assert found == "2\n", found
    third.close()
    second.close()


def test_each_backend_has_a_subject_of_its_own(world):
    shared, world.monitor = world.monitor, pooled(world)
    shared.stop()
    try:
        world.monitor.start()
        levels(world)
        with open(f"{world.monitor.journal}.sessions", encoding="ascii") as file:
            told = file.read()
        assert "ann-1" in told and "ann-2" in told, told
    finally:
        world.monitor.stop()
        world.monitor = shared
        shared.allow(shared.rules)
        shared.start()
