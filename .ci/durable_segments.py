"""What mls serve --segment leaves in the folder of its journal, from where it goes on, and how all else reads the segments."""
import os
import random
import shutil
import signal
from errno import EIO, ENOSPC

import crashing
from crashing import CALLS, KILLS_OF_A_JOURNAL, count_of, killed_once, kills, run_of_lines
from outside import IS_PROVED, in_its_folder, needs_proof, put, ran_program, same, some
from segments import joined, numbered, remove, segment, state
from serving import LINES, STANDARD, Due, content, is_kept, is_refused, mode_of, ready, served, status_of

SEGMENT = 4_096
CUT = ("--segment", str(SEGMENT))


def drawn(count, first=0, seed=52):
    return Due(random.Random(seed + first).choices(LINES, k=count), first)


def asked(journal, due, *flags):
    """Serves lines to their end, with all answers that are due, and returns the error text."""
    status, output, error = served(due.asked, journal, *CUT, *flags)
    same((status, output), (0, ready(due.next - due.journal.count(b"\n")) + due.answers))
    return error


def filled(journal, count=1_500 if IS_PROVED else 1_100):
    """A journal in segments, anew, of so many lines; returns what is due."""
    remove(journal)
    due = drawn(count)
    same(asked(journal, due), b"")
    return due


def is_cut_well(journal, whole):
    """The files put together are the journal; none is too long, each goes on where the one before it ends and has the number of its first
    entry; before each there is the state that the entries before lead to; and the start is kept."""
    same(joined(journal), whole)
    closed = numbered(journal)
    for number in closed:
        part = content(segment(journal, number))
        assert part.startswith(b"%d " % number) and part.endswith(b"\n") and len(part) <= SEGMENT, (number, len(part))
        same(mode_of(segment(journal, number)) & 0o077, 0)
    assert len(content(journal)) <= SEGMENT
    put("whole", whole)
    states = numbered(journal, "state.")
    same(set(closed[1:]) - set(states), set())
    for number in states:
        same(ran_program(["state", "--at", str(number), STANDARD, "whole"])[:2], (0, content(state(journal, number))))
    same(content(f"{journal}.start"), content(STANDARD))


def journal_that_is_cut():
    """The files together are what a service without segments has, each file is within its bytes, and was closed where the longest line might
    have no room; and each state is that of its entry."""
    due = filled("c")
    is_cut_well("c", due.journal)
    closed, states = numbered("c"), numbered("c", "state.")
    assert len(closed) > 5 and closed[0] == 0, closed
    assert all(SEGMENT - 2_265 < len(content(segment("c", number))) for number in closed), closed
    assert states[:-1] == closed[1:] and states[-1] == due.next - content("c").count(b"\n"), (closed, states)
    same(sorted(name for name in os.listdir(".") if name.endswith(".new")), [])


def service_that_goes_on():
    """A service goes on from the last state, with the numbers of its entries, and so does one after it; objects keep their numbers."""
    first = filled("g")
    second = drawn(700, first.next)
    same(asked("g", second), b"")
    is_cut_well("g", first.journal + second.journal)
    same(served(b"", "g", *CUT, "--from-start"), (0, ready(second.next), b""))


def objects_that_keep_their_numbers():
    """What was made before a segment was closed is #N behind it."""
    remove("o")
    made = b"sec get-write root\nsec create root C hi\nsec give read ann #4\n" + 400 * b"ann get-read plans\n"
    status, output, _ = served(made, "o", *CUT)
    same((status, output.split(b"\n")[2]), (0, b"created 4"))
    status, output, _ = served(b"ann get-read #4\nsec delete #4\nann get-read #4\n", "o", *CUT)
    same((status, output.split(b"\n")[1:-1]), (0, [b"yes", b"yes", b"undefined"]))


def readers_of_segments():
    """replay, verify, journal, state, explain, held, usage, about and compare say of the files what they say of the one journal, and a reader while
    the service is at it reads what was there at some moment."""
    whole = put("all", filled("r").journal)
    marks = put("no.marks", b"")
    questions = [
        ["replay", STANDARD, "J"], ["journal", "--summary", STANDARD, "J"], ["journal", "--reply", "no", STANDARD, "J"],
        ["state", STANDARD, "J"], ["state", "--at", "500", STANDARD, "J"], ["held", STANDARD, "J"], ["usage", STANDARD, "J"],
        ["about", "--journal", "J", STANDARD, "sec"], ["about", "--journal", "J", "--at", "500", STANDARD, "plans"],
        ["explain", "--journal", "J", "--at", "2", STANDARD], ["compare", STANDARD, STANDARD, "J"], ["verify", STANDARD, "J", marks],
    ]
    for words in questions:
        of = [ran_program([name if word == "J" else word for word in words]) for name in ("r", whole)]
        same((words, of[0]), (words, of[1]))
    same(ran_program(["replay", STANDARD, "r"])[0], 0)


def service_without_segments():
    """A journal in segments is refused by a service that isn't told of them, and left as it was."""
    filled("w")
    before = {name: content(name) for name in os.listdir(".") if name.startswith("w")}
    is_refused(b"w: in segments", "w")
    same({name: content(name) for name in before}, before)


def other_start():
    """Another start, by one byte, is refused, and any where the copy that was kept isn't there."""
    filled("s")
    put("other.json", content(STANDARD) + b"\n")
    is_refused(b"other.json: differs from s.start", "s", *CUT, status=3, start="other.json")
    os.remove("s.start")
    is_refused(b"s.start: file", "s", *CUT)


def segments_elsewhere():
    """Segments before the last state may be moved away: a service goes on, and --from-start, replay and journal are refused."""
    due = filled("m")
    closed, last = numbered("m"), numbered("m", "state.")[-1]

    def lacks_its_first_entries(first):
        same(served(b"", "m", *CUT), (0, ready(due.next), b""))
        same(served(b"", "m", *CUT, "--from-start"), (3, b"", b"mls: %s: replay 1 Number at 0\n" % first.encode()))
        number = (numbered("m") or [last])[0]
        for words in (["replay", STANDARD, "m"], ["journal", STANDARD, "m"]):
            same((words, ran_program(words)), (words, (1, b"", b"mls: m: entries before %d are not here\n" % number)))

    os.remove(segment("m", closed[0]))
    lacks_its_first_entries(segment("m", closed[1]))
    for number in closed[1:]:
        if number < last:
            os.remove(segment("m", number))
    lacks_its_first_entries("m")


def segment_that_is_missing():
    """Where the last state is gone too, a start begins from the one before it, and a gap is refused."""
    due = filled("p")
    states, closed = numbered("p", "state."), numbered("p")
    os.remove(state("p", states[-1]))
    same(served(b"", "p", *CUT), (0, ready(due.next), b""))
    os.remove(segment("p", closed[-1]))
    status, output, error = served(b"", "p", *CUT)
    same((status, output), (3, b""))
    assert error.startswith(b"mls: p: "), error


def segment_that_is_forged():
    """A reply that was changed in a closed segment is found by --from-start and by replay, and not by a start that begins behind it."""
    due = filled("f")
    number = numbered("f")[2]
    path = segment("f", number)
    os.chmod(path, 0o600)
    put(path, content(path).replace(b"no star", b"yes", 1))
    same(served(b"", "f", *CUT), (0, ready(due.next), b""))
    status, output, error = served(b"", "f", *CUT, "--from-start")
    same((status, output), (3, b""))
    assert error.startswith(b"mls: " + path.encode() + b": replay "), error
    same(ran_program(["replay", STANDARD, "f"])[0], 3)


def state_that_is_forged():
    """A secure state that is another one is found by --from-start and not by a plain start; one that isn't written as states are, isn't of
    START or isn't secure is refused by both."""
    due = filled("t")
    last = state("t", numbered("t", "state.")[-1])
    told, true = b"mls: " + last.encode(), content(last)
    forged = true.replace(b"permit aud read plans\n", b"", 1)
    assert forged != true
    put(last, forged)
    same(served(b"", "t", *CUT)[:2], (0, ready(due.next)))
    same(served(b"", "t", *CUT, "--from-start"), (3, b"", told + b": differs\n"))
    same(ran_program(["replay", STANDARD, "t"]), (3, b"", told + b": differs\n"))
    for text, said in ((true + b"\n", b"not of a state"), (true[:-1], b"not of a state"), (b"", b"not of a state"),
                       (true.replace(b" trusted", b"", 1), b"a state of another start"),
                       (true + b"access bob write memo\n", b"")):
        put(last, text)
        status, output, error = served(b"", "t", *CUT)
        same((status, output), (3, b""))
        assert error.startswith(told) and said in error, error
    put(last, true)
    same(served(b"", "t", *CUT, "--from-start"), (0, ready(due.next), b""))


def file_that_is_missing():
    """Where the live file is gone and segments are there, a service with --segment and one without refuse it, and make none."""
    filled("h")
    os.remove("h")
    for flags in (CUT, ()):
        is_refused(b"h: missing, but its segments are there", "h", *flags, status=3)
        assert not os.path.exists("h")


def file_that_is_empty():
    """An empty live file begins where the segments end, and where no segment is there with the last state. A state behind the entries that
    are there is refused: entries are missing, and no number may be given twice."""
    due = filled("i")
    held, last = content("i"), numbered("i", "state.")[-1]
    put("i", b"")
    same(served(b"", "i", *CUT), (0, ready(last), b""))
    shutil.copy(state("i", last), state("i", last + 900))
    refused = (3, b"", b"mls: " + state("i", last + 900).encode() + b": behind the last entry\n")
    for flags in ((), ("--from-start",)):
        same(served(b"", "i", *CUT, *flags), refused)
    os.remove(state("i", last + 900))
    closed = numbered("i")
    put("moved", content(segment("i", closed[-1])))
    os.remove(segment("i", closed[-1]))
    refused = (3, b"", b"mls: " + state("i", last).encode() + b": behind the last entry\n")
    for flags in ((), ("--from-start",)):
        same(served(b"", "i", *CUT, *flags), refused)
    for number in closed[:-1]:
        os.remove(segment("i", number))
    same(served(b"", "i", *CUT), (0, ready(last), b""))
    for words in (served(b"", "i", *CUT, "--from-start"), ran_program(["replay", STANDARD, "i"])):
        same(words, refused)
    put("i", held)
    same(served(b"", "i", *CUT), (0, ready(due.next), b""))


def is_behind(journal, number, *flags, before=b""):
    """A service tells that this state is behind the last entry, behind what it told before, and answers nothing."""
    told = before + b"mls: " + state(journal, number).encode() + b": behind the last entry\n"
    asked = b"ann get-read plans\n"
    same((number, flags, served(asked, journal, *CUT, *flags)), (number, flags, (3, b"", told)))


def is_left_behind(journal, number, *flags):
    """The same of a plain service and of --from-start, which leave all as it was, and of replay."""
    before = {name: content(name) for name in os.listdir(".")}
    for more in ((), ("--from-start",), ("--recover",)):
        is_behind(journal, number, *flags, *more)
    told = b"mls: " + state(journal, number).encode() + b": behind the last entry\n"
    same(ran_program(["replay", STANDARD, journal]), (3, b"", told))
    same({name: content(name) for name in os.listdir(".")}, before)


def state_behind_the_entries():
    """Where the live file has entries, too, a state behind the last of them is refused by a service and by replay. One before the entry that
    is next is what a crash leaves."""
    due = filled("v", 1_050)
    held, first, last = content("v"), numbered("v", "state.")[-1], due.next
    put("whole", due.journal)
    put(state("v", last), ran_program(["state", STANDARD, "whole"])[1])
    for flags in ((), ("--from-start",), ("--recover", "--cut-damage")):
        same(served(b"", "v", *CUT, *flags), (0, ready(last), b""))
    same(ran_program(["replay", STANDARD, "v"]), ran_program(["replay", STANDARD, "whole"]))
    os.rename(state("v", last), state("v", last + 1))
    is_left_behind("v", last + 1)
    os.link("v", segment("v", first))
    is_left_behind("v", last + 1)
    os.remove(segment("v", first))
    # an older copy of the live file, from before the state was named, and one of its first entry alone
    os.rename(state("v", last + 1), state("v", last))
    lines = held.splitlines(True)
    assert len(lines) > 5, len(lines)
    for count in (len(lines) - 1, 1):
        put("v", b"".join(lines[:count]))
        is_left_behind("v", last)
    # what is refused before: a fault of the journal
    put("v", b"".join(lines[:-1]).replace(b" yes\n", b" no star\n", 1))
    for status, output, error in (served(b"", "v", *CUT), ran_program(["replay", STANDARD, "v"])):
        same((status, output), (3, b""))
        assert error.startswith(b"mls: v: replay "), error


def state_behind_a_cut():
    """A torn end, and damage, is cut off before; once the state is taken away the service goes on."""
    due = filled("y", 1_050)
    whole, lines, last = content("y"), content("y").splitlines(True), due.next
    shutil.copy(state("y", numbered("y", "state.")[-1]), state("y", last))
    torn = b"".join(lines[:-1]) + lines[-1][:-1]
    damaged = b"".join([*lines[:3], b"damaged\n", *lines[4:]])
    for text, count, flags in ((torn, len(lines) - 1, ("--recover",)), (damaged, 3, ("--recover", "--cut-damage"))):
        for more in ((), ("--from-start",)):
            put("y", text)
            next_number = last - len(lines) + count
            assert served(b"", "y", *CUT, *more)[:2] == (1, b"")
            is_behind("y", last, *flags, *more, before=b"mls: y: cut after entry %d\n" % (next_number - 1))
            same(content("y"), b"".join(lines[:count]))
    is_left_behind("y", last)
    os.remove(state("y", last))
    same(served(b"", "y", *CUT, "--from-start"), (0, ready(next_number), b""))
    put("y", whole)
    same(served(b"", "y", *CUT, "--from-start"), (0, ready(last), b""))


def state_behind_the_marks():
    """The same with --marks."""
    flags, due = ("--marks", "m"), drawn(700)
    same(asked("u", due, *flags), b"")
    text = content(state("u", numbered("u", "state.")[-1]))
    put(state("u", due.next + 1), text)
    is_left_behind("u", due.next + 1, *flags)
    os.remove(state("u", due.next + 1))
    same(asked("u", drawn(50, due.next), *flags), b"")


def file_whose_first_line_is_damaged():
    """It begins where the segments end; where none is there, with the last state."""
    filled("l")
    held, last = content("l"), numbered("l", "state.")[-1]
    put("l", b"\0" + held[1:])
    told = b"mls: l: torn after entry %d\n" % (last - 1)
    same(served(b"", "l", *CUT), (1, b"", told))
    for number in numbered("l"):
        os.remove(segment("l", number))
    same(served(b"", "l", *CUT), (1, b"", told))


def folder_with_other_names():
    """Names beside the journal that aren't its files, also ones that aren't UTF-8, change nothing."""
    due = filled("n")
    for name in (b"n.0000", b"n.state.", b"n.00000000000000000001.old", b"\xff"):
        put(name, b"no entry\n")
    same(served(b"", "n", *CUT, "--from-start"), (0, ready(due.next), b""))
    same(ran_program(["replay", STANDARD, "n"])[0], 0)
    same(served(b"", "nn"), (0, ready(0), b""))
    os.remove(b"\xff")


def moments_between_the_steps():
    """Whatever of the steps was done when a crash came, the next service goes on: the state beside, the state named, the live file linked,
    the new file beside, and the same once more."""
    due = filled("e", 600)
    whole, states, live = joined("e"), numbered("e", "state."), content("e")
    more = drawn(300, due.next)
    first = states[-1]

    def again(prepare):
        for name in [name for name in os.listdir(".") if name.startswith("x")]:
            os.remove(name)
        for name in [name for name in os.listdir(".") if name == "e" or name.startswith("e.")]:
            shutil.copy(name, "x" + name[1:])
        put("whole", whole)
        text = ran_program(["state", STANDARD, "whole"])[1]
        prepare(text)
        same(joined("x"), whole)
        same(served(b"", "x", *CUT, "--from-start"), (0, ready(due.next), b""))
        same(asked("x", more), b"")
        is_cut_well("x", whole + more.journal)

    def beside(text):
        put("x.state.new", text[: len(text) // 2])

    def named(text):
        put(state("x", due.next), text)

    def linked(text):
        named(text)
        os.link("x", segment("x", first))

    def made(text):
        linked(text)
        put("x.new", b"")

    def begun(text):
        made(text)
        os.rename("x.new", "x")

    assert live
    for prepare in some((lambda _: None, beside, named, linked, made, begun), 2):
        again(prepare)


def run_over_a_disk(**words):
    """Serves lines over a journal in segments, anew, and over the shim. Returns what is due, and what run_of_lines does."""
    remove("d")
    due = drawn(400)
    return due, *run_of_lines("d", due, *CUT, **words)


@needs_proof
def step_that_fails():
    """Each write, sync, rename and link of a run fails in turn: it is told, nothing is answered that isn't in the files, and the next service
    goes on. The sync of the state comes before its renaming, that of the folder before the link, and all of them before the new file is
    asked."""
    due, status, said, written, error, calls = run_over_a_disk()
    same((status, said, written, error), (0, ready(0), due.answers, b""))
    steps = [f"{call} {name[:8]}" for call, name, *_ in calls]
    place = steps.index("link d.000000")
    folder = os.path.basename(os.getcwd())[:8]
    same(steps[place - 4 : place], ["write d.state.", "sync d.state.", "rename d.state.", f"sync {folder}"])
    same(steps[place + 1 : place + 5], [f"sync {folder}", "sync d.new", "rename d", f"sync {folder}"])
    for number, (call, name, *_) in enumerate(calls[: place + 12], 1):
        for errno in (ENOSPC, EIO):
            _, status, said, written, error, noted = run_over_a_disk(fail=number, errno=errno)
            same((number, call, name, status), (number, call, name, status_of(CALLS[call])))
            same((number, len(noted), noted[-1][3]), (number, number, False))
            assert CALLS[call].encode() in error and os.strerror(errno).encode() in error, error
            if said:
                is_kept(joined("d"), b"", due, written)
            goes_on("d", b"", due, written)


def goes_on(journal, before, due, written):
    """The next service goes on from what is left, and replays the whole to the same."""
    status, output, error = served(b"", journal, *CUT, "--recover", "--from-start")
    same(status, 0)
    now = joined(journal)
    is_kept(now, before, due, written)
    same(output, ready(count_of(now)))
    return now


@needs_proof
def kills_between_segments():
    """300 times: every answer that the client had got is in the files, which together are one legal journal, and each state is that of its
    entry."""
    # (the first may be killed before it has made the file)
    left = lambda: joined("k") if os.path.exists("k") or numbered("k") else b""
    once = lambda rnd, before: killed_once(rnd, "k", CUT, rnd.choices(LINES, k=1_500), before, left, lambda *it: goes_on("k", *it))
    kills(52, crashing.KILLS, KILLS_OF_A_JOURNAL, lambda: remove("k"), once, lambda before: is_cut_well("k", before))


@needs_proof
def kill_before_each_step():
    """A kill before each call on a file, in turn, loses nothing that was answered."""
    _, _, _, _, _, calls = run_over_a_disk()
    for number in range(1, min(len(calls), 60)):
        due, status, _, written, _, _ = run_over_a_disk(kill=number)
        same(status, -signal.SIGKILL)
        goes_on("d", b"", due, written)


def bytes_of_a_segment():
    """From 4,096 to 268,435,456 bytes; and --from-start without --segment isn't understood."""
    for words in (("--segment", "4095"), ("--segment", "268435457"), ("--segment", "x"), ("--from-start",)):
        status, output, _ = served(b"", "b", *words)
        same((words, status, output, os.path.exists("b")), (words, 2, b"", False))


CHECKS = [*map(in_its_folder, [journal_that_is_cut, service_that_goes_on, objects_that_keep_their_numbers,
               readers_of_segments, service_without_segments, other_start, segments_elsewhere, segment_that_is_missing,
               segment_that_is_forged, state_that_is_forged, file_that_is_missing, file_that_is_empty,
               state_behind_the_entries, state_behind_a_cut, state_behind_the_marks, file_whose_first_line_is_damaged,
               folder_with_other_names, moments_between_the_steps, kills_between_segments, bytes_of_a_segment])]
OVER_THE_SHIM = [*map(in_its_folder, [step_that_fails, kill_before_each_step])]
