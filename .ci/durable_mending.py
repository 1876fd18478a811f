"""What a crash leaves undone in the folder of a journal in segments, and the next start of mls serve does."""
import os

from durable_segments import CUT, drawn, filled, goes_on, run_over_a_disk
from outside import IS_PROVED, in_its_folder, put, same
from segments import is_linked, numbered, segment, state
from serving import mode_of, ready, served

UNFINISHED = ("new", "state.new", "start.new")


def is_mended(journal):
    """Nobody may write a closed segment, the live file is the service's, and nothing is left that was being made. A crash
    may leave the live file as the last segment too, which isn't closed then."""
    closed = [it for number in numbered(journal) if not os.path.samefile(it := segment(journal, number), journal)]
    same([mode_of(it) for it in closed], [0o400] * len(closed))
    same(mode_of(journal), 0o600)
    same([name for name in os.listdir(".") if name.endswith(".new")], [])


def modes_of_closed_segments():
    """Each start lets nobody write a closed segment that somebody may write; who was let read one still may."""
    due = filled("c", 700)
    closed = numbered("c")
    assert len(closed) >= 3, closed
    for number, mode in zip(closed, (0o600, 0o640, 0o440)):
        os.chmod(segment("c", number), mode)
    same(served(b"", "c", *CUT), (0, ready(due.next), b""))
    same([mode_of(segment("c", number)) for number in closed[:3]], [0o400, 0o400, 0o440])
    os.chmod(segment("c", closed[2]), 0o400)
    is_mended("c")


def live_file_that_is_linked():
    """Where a crash has left the live file as the last segment too, it may be written until it is closed."""
    due = filled("l", 600)
    os.link("l", segment("l", numbered("l", "state.")[-1]))
    same(served(b"", "l", *CUT), (0, ready(due.next), b""))
    same(mode_of("l"), 0o600)
    more = drawn(300, due.next)
    same(served(more.asked, "l", *CUT), (0, ready(due.next) + more.answers, b""))
    is_mended("l")


def files_that_were_being_made():
    """They go at the next start that isn't refused; one that is refused leaves all as it was."""
    due = filled("n", 300)
    for word in UNFINISHED:
        put(f"n.{word}", b"half")
    other = state("n", due.next + 9)
    os.link(state("n", numbered("n", "state.")[-1]), other)
    number = numbered("n")[0]
    os.chmod(segment("n", number), 0o600)
    same(served(b"", "n", *CUT)[0], 3)
    same([os.path.exists(f"n.{word}") for word in UNFINISHED], [True] * 3)
    same(mode_of(segment("n", number)), 0o600)
    os.remove(other)
    same(served(b"", "n", *CUT), (0, ready(due.next), b""))
    is_mended("n")


def kills_between_the_steps():
    """A kill before each call by which a segment is closed, also between its new name and its mode."""
    _, status, _, _, _, calls = run_over_a_disk()
    same(status, 0)
    steps = [(call, name) for call, name, *_ in calls]
    place = next(at for at, (call, _) in enumerate(steps) if call == "link")
    for number in range(place - 2, place + 8) if IS_PROVED else (place + 1, place + 5, place + 6):
        due, _, _, written, _, _ = run_over_a_disk(kill=number)
        goes_on("d", b"", due, written)
        is_mended("d")


CHECKS = [*map(in_its_folder, [modes_of_closed_segments, live_file_that_is_linked, files_that_were_being_made])]
OVER_THE_SHIM = [*map(in_its_folder, [kills_between_the_steps])]
