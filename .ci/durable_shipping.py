"""What bin/ship-journal sends of a journal that a service writes, through cuts and kills, and how a service goes on with the copy."""
import os
import signal
import subprocess
import time

from crashing import cut_line
from outside import SECONDS, TOP, put, same
from serving import LINES, REQUESTS, Due, Serving, content, is_refused, mode_of, ready, served

TOOL = f"{TOP}/bin/ship-journal"


def is_content(name, wanted):
    """Whether a file is there, which is renamed now and then, and has these bytes."""
    try:
        return content(name) == wanted
    except FileNotFoundError:
        return False


class Shipping:
    """The tool, in a loop as SERVICE.md has it."""

    def __init__(self, journal, copy):
        loop = f"while :; do '{TOOL}' --pause 0.02 {journal} -- '{TOOL}' --take {copy}; sleep 0.1; done"
        self.said_in = f"{copy}.said"
        with open(self.said_in, "wb") as said:
            streams = {"stdout": said, "stderr": subprocess.PIPE}
            self.loop = subprocess.Popen(["sh", "-c", loop], start_new_session=True, **streams)

    def __enter__(self):
        return self

    def __exit__(self, *_):
        os.killpg(self.loop.pid, signal.SIGKILL)
        self.told = self.loop.communicate()[1]
        self.said = content(self.said_in)

    def until(self, copy, wanted):
        """Waits until the copy has these bytes, and the tool has said so."""
        ends, line = time.monotonic() + SECONDS, b"entries %d\n" % wanted.count(b"\n")
        while not (is_content(copy, wanted) and content(self.said_in).endswith(line)):
            assert time.monotonic() < ends, "it isn't shipped"
            time.sleep(0.02)


def asked(run, count, first):
    """Asks lines, and returns what is due to them once they are answered."""
    due = Due(count * LINES, first)
    run.ask(due.asked)
    run.says(due.answers)
    return due


def failover():
    """The copy grows while the service runs. When the first machine is dead, a service on the second goes on."""
    for folder in ("one", "two"):
        os.mkdir(folder)
    put("one/j", b"")
    with Shipping("one/j", "two/j") as shipping:
        with Serving("one/j") as run:
            run.says(ready(0))
            due = asked(run, 300, 0)
            shipping.until("two/j", due.journal)
            is_refused(b"two/j: in use", "two/j")
            run.run.kill()
    same((mode_of("two/j"), shipping.told), (0o600, b""))
    counts = [int(line.split()[1]) for line in shipping.said.splitlines()]
    assert counts == sorted(counts) and counts[0] == 0 and counts[-1] == due.next, counts
    same(served(b"ann get-read plans\n", "two/j", "--recover"), (0, ready(due.next) + b"yes\n", b""))
    same(content("two/j"), due.journal + b"%d 0 0 get-read 1 yes\n" % due.next)


def copies_that_are_wrong():
    """Half a line at the end of a copy is cut off; an altered copy shows."""
    due = Due(50 * LINES)
    put("part", due.journal + b"%d 0 0 get-r" % due.next)
    put("altered", due.journal.replace(b"1 get-read 2 no star", b"1 get-read 2 yes", 1))
    same(served(b"", "part", "--recover"), (0, ready(due.next), cut_line("part", due.next)))
    is_refused(b"altered: replay 2 Differs at 2 expected no star", "altered", "--recover", status=3)


# What a crash may leave behind the entries: a part of a line, lines behind a hole, and a line with a hole.
TORN = [b"%d 0 0 get-r", bytes(40) + b"\n%d 0 0 get-read 1 yes\n", b"%d 0 0 get-\0ead 1 yes\n"]


def cut_in_mid_shipping():
    """What is torn isn't shipped, and a cut of it harms no copy."""
    put("a", b"")
    due, whole = None, b""
    with Shipping("a", "b") as shipping:
        for torn in [b"", *TORN, b""]:
            first = whole.count(b"\n")
            with Serving("a", "--recover") as run:
                run.says(ready(first))
                due = asked(run, 20, first)
                run.run.kill()
            whole += due.journal
            shipping.until("b", whole)
            with open("a", "ab") as file:
                file.write(torn % due.next if torn else b"")
            time.sleep(0.2)
            same(content("b"), whole)
    same((content("a"), shipping.told, os.path.exists("b.old")), (whole, b"", False))
    same(shipping.said.splitlines()[-1], b"entries %d" % whole.count(b"\n"))
    same(served(b"", "b"), (0, ready(due.next), b""))


def journal_that_lost_what_was_shipped():
    """The copy, which has more, is kept under another name, and a new one begins; each time so."""
    first, front, other = Due(20 * REQUESTS).journal, Due(REQUESTS).journal, Due(5 * REQUESTS[::-1]).journal
    put("lost", first)
    with Shipping("lost", "kept") as shipping:
        shipping.until("kept", first)
        os.truncate("lost", len(front))
        shipping.until("kept", front)
        # (it is longer than what was sent, and begins otherwise)
        with open("lost", "r+b") as file:
            file.write(other)
        shipping.until("kept", other)
    # (lines that were written between the look at what was sent and the next lines may have been sent, too, by then)
    assert content("kept.old.1") in (front, front + other[len(front):])
    same((content("kept.old"), os.path.exists("kept.old.2")), (first, False))
    same(shipping.told, 2 * b"ship-journal: lost: what was sent isn't there any more\n")


def taker_that_is_killed():
    """The half line that it left is mended from the first machine."""
    due = Due(200 * REQUESTS)
    put("from", due.journal)
    put("to", due.journal[:1_000])
    with Shipping("from", "to") as shipping:
        shipping.until("to", due.journal)
    same((shipping.told, os.path.exists("to.old")), (b"", False))


CHECKS = [failover, copies_that_are_wrong, cut_in_mid_shipping, journal_that_lost_what_was_shipped, taker_that_is_killed]
