"""Files and keys that were changed: what is refused, and what mends itself."""
import json
import os
import shutil
import time

from machine import MLS, TOP, comes
from mls_replica_client import Session

CHANGED = "aud get-read #77"
NEWLINE = b"\n"
OTHER_START = f"{TOP}/examples/reused.json"


def is_mended(world, machine):
    machine.begin_replica()
    machine.serves()
    world.are_same()


def checkpoint(machine):
    """What its checkpoint says."""
    with open(f"{machine.journal}.checkpoint", encoding="utf-8") as file:
        return json.load(file)


def has_some_behind(stats):
    return stats["checkpoint"] and 10 < stats["entries"] - stats["checkpoint"] < 250


def ended(world):
    """A machine that has ended, with a checkpoint, and entries behind it."""
    machine = world.machines[1]
    while not has_some_behind(machine.stats()):
        with world.load(clients=3) as load:
            load.goes_on(15)
        world.rests()
    machine.end_replica()
    return machine


def put(name, content):
    with open(name, "wb") as file:
        file.write(content)


def with_forged(journal, number):
    """A journal whose entry of that number, or the next that can be, has another reply."""
    lines = journal.splitlines(keepends=True)
    while not lines[number].endswith(b" yes\n"):
        number += 1
    lines[number] = lines[number].replace(b" yes\n", b" no star\n")
    return number, b"".join(lines)


def test_a_forged_reply_is_refused(world):
    machine = ended(world)
    journal, count = machine.entries(), checkpoint(machine)["entries"]
    put(machine.journal, with_forged(journal, count // 2)[1])
    machine.is_refused(f"differs from its checkpoint within the first {count} entries")
    number, forged = with_forged(journal, count)
    put(machine.journal, forged)
    # (and again: the journal is as it was)
    for _ in range(2):
        machine.is_refused(f"{machine.journal}: differs from the log at entry {number}: it has")
        assert machine.entries() == forged, "a refused start has changed the journal"
    for name in ("", ".checkpoint"):
        os.remove(machine.journal + name)
    is_mended(world, machine)


def test_what_an_earlier_version_had_cut_off(world):
    """JOURNAL.redo is compared too, and goes once all of it has come out again."""
    machine = ended(world)
    journal, count = machine.entries(), checkpoint(machine)["entries"]
    place = sum(map(len, journal.splitlines(keepends=True)[:count]))
    put(f"{machine.journal}.redo", with_forged(journal, count)[1][place:])
    put(machine.journal, journal[: place + 20])
    machine.is_refused("differs from the log at entry")
    put(f"{machine.journal}.redo", journal[place:])
    is_mended(world, machine)
    assert not os.path.exists(f"{machine.journal}.redo") and machine.entries().startswith(journal)


def test_a_cut_journal(world):
    machine = ended(world)
    journal, count = machine.entries(), checkpoint(machine)["entries"]
    lines = journal.splitlines(keepends=True)
    put(machine.journal, b"".join(lines[: count - 1]))
    machine.is_refused(f"has {count - 1} entries, and its checkpoint has {count}")
    with open(f"{machine.journal}.checkpoint", "rb") as file:
        before = file.read()
    for rest in (lines[: count + 3], [*lines, b"17 rubbish"], [*lines[:-1], lines[-1][:5], bytes(50)]):
        # (each start that has made all again has a checkpoint behind it)
        put(f"{machine.journal}.checkpoint", before)
        put(machine.journal, b"".join(rest))
        is_mended(world, machine)
        machine.end_replica()
        # (also where nothing but a torn end stands behind it)
        put(machine.journal, journal + b"17 rubbish")
        is_mended(world, machine)
        machine.end_replica()
        assert not os.path.exists(f"{machine.journal}.again")
    machine.begin_replica()
    machine.serves()


def test_a_journal_with_more_than_the_log(world):
    """It isn't cut, and all machines end: whoever has less may have another history."""
    machine = ended(world)
    journal = machine.entries()
    more = journal + b"%d 1 0 get-read 1 yes\n" % journal.count(b"\n")
    put(machine.journal, more)
    for it in world.machines:
        it.forget_told()
    machine.is_refused(f"the journal has more than the log gives, from entry {journal.count(NEWLINE)} on")
    assert machine.entries() == more, "a refused start has changed the journal"
    for it in world.machines:
        it.has_refused("halted: the journal has more than the log gives")
    put(machine.journal, journal)
    world.etcdctl("del", "mls/halt", check=True)
    world.begin_replicas()
    world.are_same()


def test_a_checkpoint_that_was_changed_is_refused(world):
    """Its sessions too: a count that is raised by one would have the next request skipped."""
    machine = ended(world)
    name = f"{machine.journal}.checkpoint"
    with open(name, encoding="utf-8") as file:
        before = file.read()
    text = json.loads(before)
    number, who, last, answers = text["sessions"]["known"][-1]
    raised = before.replace(f'[{number}, "{who}", {last}, ', f'[{number}, "{who}", {last + 1}, ')
    assert raised != before and answers
    for changed in (raised, before.replace('"next": ', '"next": 1'), before.replace("yes", "no", 1), before[:-9], "{}"):
        put(name, changed.encode())
        machine.is_refused(f"{name}: is no checkpoint")
    put(name, before.encode())
    is_mended(world, machine)


def test_another_start_is_refused(world):
    machine = ended(world)
    machine.is_refused("the log is of another start", start=OTHER_START)
    machine.begin_replica()
    machine.serves()


def test_a_deleted_member_is_fenced_off(world):
    machine = world.machines[2]
    world.etcdctl("del", f"mls/member/{machine.name}", check=True)
    machine.has_refused("fenced off")
    is_mended(world, machine)


def test_a_later_process_of_a_name_fences_the_earlier_off(world):
    """Also where the earlier is paused, and goes on with a batch that it had begun to send."""
    machine = world.machines[2]
    earlier, folder = machine.replica, f"{world.folder}/later"
    os.mkdir(folder)
    machine.pause("replica")
    machine.begin_replica(journal=f"{folder}/journal", socket=f"{folder}/socket")
    comes(lambda: os.path.exists(f"{folder}/socket"))
    later, machine.replica = machine.replica, earlier
    machine.go_on("replica")
    machine.has_refused("fenced off")
    later.terminate()
    later.wait()
    is_mended(world, machine)
    shutil.rmtree(folder)


def wrong_program(folder):
    """A program that asks a line of its own in place of one, and else is mls."""
    name = f"{folder}/mls"
    with open(name, "w", encoding="utf-8") as file:
        file.write(f"""#!/usr/bin/env python3
import os, subprocess, sys
if sys.argv[1] != "serve":
    os.execv({MLS!r}, sys.argv)
core = subprocess.Popen([{MLS!r}, *sys.argv[1:]], stdin=subprocess.PIPE)
for line in sys.stdin.buffer:
    core.stdin.write(line.replace(b" {CHANGED}", b" aud get-execute tool"))
    core.stdin.flush()
core.stdin.close()
sys.exit(core.wait())
""")
    os.chmod(name, 0o755)
    return name


def test_a_machine_that_differs_halts_all(world):
    """At the next thousandth entry; who is right a fresh service says, and the others go on."""
    wrong = world.machines[2]
    wrong.end_replica()
    for it in world.machines:
        it.forget_told()
    wrong.begin_replica(program=wrong_program(world.folder))
    wrong.serves()
    with Session([world.machines[0].socket]) as session:
        assert session.ask(CHANGED).startswith("undefined ")
    flood(world.machines[0], 1_000)
    for it in world.machines:
        it.has_refused("halted: ", "differ in the first", "000 entries")
    world.machines[0].is_refused("halted: ")
    for name in ("", ".checkpoint", ".marks"):
        os.remove(wrong.journal + name)
    for key in ("mls/halt", f"mls/digest/{wrong.name}"):
        world.etcdctl("del", key, check=True)
    world.begin_replicas()
    world.are_same()


def flood(machine, count):
    """So many requests at once, whose answers nobody reads."""
    with machine.connected() as sock:
        sock.sendall(b"hello flood\n")
        session = sock.makefile().readline().split()[2]
        sock.sendall(b"".join(b"%s %d aud get-read plans\n" % (session.encode(), k) for k in range(1, count + 1)))
        try:
            sock.recv(1)
        except OSError:
            pass


def test_a_log_that_is_cut_off(world):
    """Compacted up to the checkpoint of another machine: who was behind needs its files."""
    machine, other = ended(world), world.machines[0]
    with world.load(clients=6) as load:
        while checkpoint(other)["number"] <= checkpoint(machine)["number"]:
            load.goes_on()
    revision = checkpoint(other)["revision"]
    world.etcdctl("compact", str(revision), check=True)
    machine.is_refused("the log is cut off before this machine's place")
    for name in (".checkpoint", ".marks", ""):
        shutil.copy(other.journal + name, machine.journal + name)
    is_mended(world, machine)
    other.end_replica()
    is_mended(world, other)


def test_another_log_is_refused(world):
    """The log is deleted: replicas that run end, and go on with no other."""
    for it in world.machines:
        if it.replica.poll() is not None:
            it.begin_replica()
        it.forget_told()
    time.sleep(0.5)
    world.etcdctl("del", "--prefix", "mls/", check=True)
    for it in world.machines:
        it.replica.wait(60)
    world.machines[0].is_refused("is of another log")
