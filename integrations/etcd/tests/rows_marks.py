"""Marks: each machine has its own, over the same journal; and no fault takes one that was noted."""
import hashlib
import json
import os

import faults
from oracle import verified
from rows_rest import checkpoint, ended, is_mended, put

NOTHING = "0" * 64


def marks_of(machine):
    with open(f"{machine.journal}.marks", "rb") as file:
        return file.read()


def older_marks_of(machine):
    """Those that were put aside, where some were."""
    name = f"{machine.journal}.marks.1"
    if not os.path.exists(name):
        return b""
    with open(name, "rb") as file:
        return file.read()


def noted(machine):
    """The digest that somebody notes."""
    return verified(machine)["last"]


def known(machine):
    """How many bytes of its marks the checkpoint of a machine knows, behind the older ones, which count before them."""
    if not os.path.exists(f"{machine.journal}.checkpoint"):
        return 0
    return max(0, checkpoint(machine)["marks"] - len(older_marks_of(machine)))


def ended_with_marks(world):
    """A machine that has ended, whose checkpoint knows of marks; some stand behind these."""
    machine = world.machines[1]
    while not known(machine):
        with world.load(clients=3) as load:
            load.goes_on(50)
    machine = ended(world)
    marks, size = marks_of(machine), known(machine)
    assert 0 < size < len(marks) and marks[size - 1 : size] == b"\n", f"{size} of {len(marks)} bytes"
    return machine, marks, size


def test_what_was_noted_is_found_after_faults(world):
    """Each machine's marks are at their place after kills, with their times; what came meanwhile has a mark."""
    with world.load(pause=0.1) as load:
        load.goes_on()
        before = [(it, noted(it), marks_of(it)) for it in world.machines]
        for it in world.machines:
            load.goes_on()
            faults.kill_both(it)
            load.goes_on()
            faults.restart_both(it)
    world.are_same()
    for it, digest, marks in before:
        assert digest != NOTHING and verified(it, "--digest", digest)["entries"], it.name
        assert marks_of(it).startswith(marks), f"{it.name}: its marks are others than they were"
        assert "unmarked" not in verified(it), it.name


def test_marks_survive_their_journal(world):
    """A machine that makes its journal again from the log still has its marks, and their times."""
    machine = ended(world)
    digest, marks = noted(machine), marks_of(machine)
    for name in ("", ".checkpoint"):
        os.remove(machine.journal + name)
    is_mended(world, machine)
    assert marks_of(machine).startswith(marks) and verified(machine, "--digest", digest)


def test_marks_that_were_changed_are_refused(world):
    """At rest: a time or a digest within what the checkpoint knows, or less than that; a digest behind it."""
    machine, marks, size = ended_with_marks(world)
    name = f"{machine.journal}.marks"
    head, first = marks.splitlines(keepends=True)[:2]
    late = first.replace(first.split(b" ")[1], b"2019-01-01T00:00:00.000000Z")
    for changed in (marks.replace(first, late, 1), marks[len(head) :], marks[:size][: -len(first)], b"x" + marks[1:], b""):
        put(name, changed)
        machine.is_refused(f"{name}: differs from its checkpoint within the first {size} bytes")
    os.remove(name)
    machine.is_refused(f"{name}: differs from its checkpoint")
    last = marks[size:].splitlines(keepends=True)[-1]
    forged = last[:-65] + b"0" * 64 + b"\n"
    put(name, marks[: -len(last)] + forged)
    machine.is_refused("the core ended with status 3", f"{name}: differs at entry {int(last.split()[0])}")
    put(name, marks)
    is_mended(world, machine)


def sum_of(text):
    return hashlib.sha256(text).hexdigest()


def with_older_marks(machine, marks):
    """A machine that an earlier version has left: its marks have no head, and no time in their digests, and its
    checkpoint is of them. Returns them."""
    with open(machine.journal, "rb") as file:
        lines = file.read().splitlines(keepends=True)
    digest, first, older = bytes(32), 0, b""
    for line in marks.splitlines()[1:]:
        number, time = line.split(b" ")[:2]
        digest = hashlib.sha256(digest + b"".join(lines[first : int(number) + 1])).digest()
        older += b"%s %s %s\n" % (number, time, digest.hex().encode())
        first = int(number) + 1
    fields = {**checkpoint(machine), "marks": len(older), "marks_digest": sum_of(older)}
    del fields["sum"]
    text = json.dumps(fields)
    put(f"{machine.journal}.checkpoint", f'{text[:-1]}, "sum": "{sum_of(text.encode())}"}}'.encode())
    put(f"{machine.journal}.marks", older)
    return older


def test_older_marks_are_gone_on_from(world):
    """Their checkpoint is still that of their front, and later ones are of both files; a digest of theirs is found."""
    machine, marks, _ = ended_with_marks(world)
    older = with_older_marks(machine, marks)
    noted = older.splitlines()[-1].split(b" ")[2].decode()
    is_mended(world, machine)
    with open(f"{machine.journal}.marks.1", "rb") as file:
        assert file.read() == older
    assert marks_of(machine).startswith(b"marks 2 ") and noted.encode() in marks_of(machine).splitlines()[0]
    assert verified(machine, "--digest", noted) and "unmarked" not in verified(machine)
    while checkpoint(machine)["marks"] <= len(older):
        with world.load(clients=3) as load:
            load.goes_on(50)
    for _ in range(2):
        machine.end_replica()
        is_mended(world, machine)
    machine.end_replica()
    put(f"{machine.journal}.marks.1", older.replace(b"T", b"t", 1))
    machine.is_refused(f"{machine.journal}.marks: differs from its checkpoint")
    put(f"{machine.journal}.marks.1", older)
    is_mended(world, machine)
    assert verified(machine, "--digest", noted)


def test_torn_marks_are_made_again(world):
    """What a crash leaves behind the checkpoint's: fewer, half a mark, or zeros. What they covered is marked anew."""
    machine, marks, size = ended_with_marks(world)
    for changed in (marks[:size], marks[:-7], marks[:-20] + bytes(20), marks[:size] + bytes(100)):
        put(f"{machine.journal}.marks", changed)
        is_mended(world, machine)
        assert marks_of(machine).startswith(marks[:size]) and "unmarked" not in verified(machine)
        machine.end_replica()
    machine.begin_replica()
    machine.serves()


def test_all_answers_are_those_of_the_log_still(world):
    """Of all that was asked, also in these checks."""
    world.is_right()
