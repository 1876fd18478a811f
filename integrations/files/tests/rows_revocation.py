"""Accesses that are taken away: open descriptors and mappings stop before the answer of the request that took them."""
import os
import time

from rows_names import laid
from world import same


def taken(world, *lines):
    """Asks as the administrator; what takes is answered yes."""
    answers = world.ask("admin get-write root", *lines)
    assert answers[1:] == ["yes"] * len(lines), answers


def test_reads_that_are_taken_away(world):
    """A descriptor and a mapped page stop at once, and go on once the right is given again."""
    high, low, _ = laid(world)
    fd, mapped, path = high.open("s/y", os.O_RDONLY), high.open("s/y", os.O_RDONLY), high.open("s/y", os.O_PATH)
    same([(high, "pread", fd, 6, 0, b"attack"), (high, "map", mapped, mapped), (high, "touch", mapped, b"a")])
    begun = time.monotonic()
    taken(world, "admin rescind read games secret_any")
    took = time.monotonic() - begun
    same([(high, "touch", mapped, "killed"), (high, "pread", fd, 6, 0, "EACCES"), (high, "fstat", path, "EACCES"),
          (high, "listed", ["d", "f"]), (high, "get", "s/y", "ENOENT"), (high, "get", "f", b"public")])
    taken(world, "admin give read games secret_any")
    time.sleep(1.1)
    same([(high, "pread", fd, 6, 0, b"attack"), (high, "touch", mapped, b"a")])
    return f"ok: {took * 1000:.0f} ms for {world.pool('games')} subjects"


def test_writes_that_are_taken_away(world):
    """A descriptor that was open to write writes no more."""
    _, low, _ = laid(world)
    fd, mapped = low.open("f", os.O_RDWR), low.open("f", os.O_RDWR)
    same([(low, "pwrite", fd, b"x", 0, 1), (low, "map", mapped, True, mapped)])
    taken(world, "admin rescind append man public_any")
    same([(low, "pwrite", fd, b"y", 0, "EACCES"), (low, "put", "new", b"z", "EACCES"), (low, "get", "f", b"xublic")])
    taken(world, "admin give append man public_any")
    time.sleep(1.1)
    same([(low, "pwrite", fd, b"y", 0, 1), (low, "put", "new", b"z", "put")])


def test_how_soon(world):
    """The time from the request to its answer, by when all has stopped, for one subject."""
    high, _, _ = laid(world)
    subject = world.leased("games")
    fd = high.open("s/y", os.O_RDONLY)
    times = []
    for _ in range(5):
        same([(high, "pread", fd, 6, 0, b"attack"), (high, "map", fd, fd), (high, "touch", fd, b"a"), ])
        begun = time.monotonic()
        taken(world, f"admin rescind read {subject} secret_any")
        times.append(time.monotonic() - begun)
        same([(high, "pread", fd, 6, 0, "EACCES"), (high, "touch", fd, "killed"), (high, "unmap", fd, fd)])
        taken(world, f"admin give read {subject} secret_any")
        time.sleep(1.1)
    return f"ok: {sorted(times)[2] * 1000:.1f} ms with its entry"
