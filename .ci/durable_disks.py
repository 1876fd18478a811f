"""What mls serve and mls run leave on a disk that is full: a small file system of its own, which root mounts."""
import os
from errno import ENOSPC

from durable_crashes import recovered
from durable_marks import is_marked
from outside import put, ran, same
from serving import IN_SESSIONS, LINES, REQUESTS, STANDARD, Due, Serving, SmallDisk, content, failed, is_kept, ready, served

SIZE = 65_536
LARGER = 1_048_576


def fill_up(name):
    """Writes to a file until the disk has no room left."""
    with open(name, "wb", buffering=0) as file:
        try:
            while True:
                file.write(bytes(4_096))
        except OSError as error:
            same(error.errno, ENOSPC)


def disk_that_fills():
    """The service ends with status 5 and says why. All that was answered is in the journal, and once there is room a service goes on."""
    with SmallDisk("small", SIZE) as disk:
        due = Due(2_000 * REQUESTS)
        with Serving("small/j") as run:
            run.says(ready(0))
            run.feed(due.asked, 500)
            written = run.run.stdout.read()
            same(run.end(), (5, b"", failed("small/j", "append", ENOSPC)))
        assert 0 < len(written) < len(due.answers) and written.endswith(b"\n"), "the disk isn't full"
        is_kept(content("small/j"), b"", due, written)
        disk.grow(LARGER)
        journal = recovered("small/j", b"", due, written)
        same(served(b"ann get-read plans\n", "small/j")[:2], (0, ready(journal.count(b"\n")) + b"yes\n"))


def disk_that_fills_with_marks():
    """One of both files can't be written: all that was answered is in the journal, and has its mark. Once there is room a service goes on."""
    with SmallDisk("packed", SIZE) as disk:
        due = Due(600 * IN_SESSIONS)
        with Serving("packed/j", "--sessions", "--marks", "packed/m") as run:
            run.says(ready(0))
            run.feed(due.asked, 100)
            written = run.run.stdout.read()
            status, rest, error = run.end()
        same((status, rest), (5, b""))
        assert error in [failed(f"packed/{it}", "append", ENOSPC) for it in "jm"], error
        is_kept(content("packed/j"), b"", due, written)
        disk.grow(LARGER)
        status, output, error = served(LINES[0].asked, "packed/j", "--recover", "--marks", "packed/m")
        journal = content("packed/j")
        count = journal.count(b"\n")
        same((status, output), (0, ready(count - 1) + LINES[0].answer))
        is_kept(b"".join(journal.splitlines(keepends=True)[:-1]), b"", due, written)
        is_marked("packed/j", "packed/m")


def torn_end_on_a_full_disk():
    """It can't be kept: the journal stays, and no part of what was to be kept."""
    whole = Due(REQUESTS).journal
    with SmallDisk("tight", SIZE) as disk:
        put("tight/j", whole + b"6 0")
        fill_up("tight/filler")
        same(served(b"", "tight/j", "--recover"), (5, b"", failed("tight/j.torn", "append", ENOSPC)))
        same((content("tight/j"), sorted(os.listdir("tight"))), (whole + b"6 0", ["filler", "j"]))
        disk.grow(LARGER)
        same(served(b"", "tight/j", "--recover"), (0, ready(6), b"mls: tight/j: cut after entry 5\n"))
        same((content("tight/j"), content("tight/j.torn")), (whole, b"6 0"))


def run_on_a_full_disk():
    """Nothing is printed of a run whose journal couldn't be written."""
    put("many", 5_000 * b"ann get-read plans\n")
    with SmallDisk("brim", SIZE):
        wanted = (1, b"", b"mls: brim/j: file\n")
        same(ran(words=["run", "--journal", "brim/j", STANDARD, "many"]), wanted)
        fill_up("brim/filler")
        same(ran(words=["run", "--journal", "brim/k", STANDARD, "many"]), (1, b"", b"mls: brim/k: file\n"))


CHECKS = [disk_that_fills, disk_that_fills_with_marks, torn_end_on_a_full_disk, run_on_a_full_disk]
