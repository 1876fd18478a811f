"""Marks beside segments: one chain over all files of a journal, no mark of two, and MARKS synced before a file is closed; what a start
compares, what it refuses, and what only mls verify finds."""
import os
import signal
from errno import EIO, ENOENT, ENOSPC

import crashing
import marks
from crashing import CALLS, KILLS_OF_A_JOURNAL, count_of, killed_once, kills, run_of_lines
from durable_marks import HEAD, flip, verified, verify
from durable_segments import CUT, SEGMENT, drawn, is_cut_well
from outside import in_its_folder, needs_proof, put, ran_program, same
from segments import joined, numbered, remove, segment, state
from serving import LINES, STANDARD, Serving, content, failed, is_kept, ready, served

BOTH = (*CUT, "--marks", "m")


def emptied(journal):
    """Takes a journal and its marks away."""
    for name in (journal, "m", "m.1"):
        remove(name)


def asked(journal, due, *flags):
    """Serves lines to their end, with all answers that are due."""
    wanted = (0, ready(due.next - due.journal.count(b"\n")) + due.answers, b"")
    same(served(due.asked, journal, *BOTH, *flags), wanted)


def filled(journal, count=1_500):
    """A journal in segments with marks, anew, of so many lines; returns what is due."""
    emptied(journal)
    due = drawn(count)
    asked(journal, due)
    return due


def in_small_batches(journal, count=500):
    """The same, where each line is a batch: there are more marks than a start looks through one by one."""
    emptied(journal)
    due = drawn(count)
    with Serving(journal, *BOTH) as run:
        run.says(ready(0))
        for line in due.lines:
            run.ask(line.asked)
            run.says(line.answer)
        same(run.end(), (0, b"", b""))
    assert len(content("m")) > 6 * SEGMENT and len(numbered(journal)) > 1
    return due


def is_marked(journal):
    """The marks agree with all files together and cover all of them, and each closed one ends with a mark; returns them, with older ones."""
    whole, text = joined(journal), content("m")
    older = content("m.1") if marks.after_of(text) else b""
    found, count = marks.read(older) + marks.read(text), whole.count(b"\n")
    same(marks.checked(whole, text, older), count)
    firsts = {*numbered(journal), *([first_of(journal)] if content(journal) else [])}
    same({number - 1 for number in firsts if number} - {it.number for it in found}, set())
    last = marks.begin_of(text) if not marks.read(text) else None
    same(verify(journal), (0, verified(count, found, last=last), b""))
    return found


def first_of(journal):
    """The number of the live file's first entry."""
    return int(content(journal).split(b" ", 1)[0])


def marks_of_a_journal_that_is_cut():
    """The files are those that there are without marks; the chain goes on over files and over starts, and questions read all files by it."""
    due = filled("c")
    is_cut_well("c", due.journal)
    assert len(numbered("c")) > 5
    is_marked("c")
    more = drawn(700, due.next)
    asked("c", more, "--recover")
    is_cut_well("c", due.journal + more.journal)
    found = is_marked("c")
    same(served(b"", "c", *BOTH, "--from-start"), (0, ready(more.next), b""))
    same(marks.read(content("m")), found)
    whole, middle = put("whole", joined("c")), found[len(found) // 2]
    for words in (["journal"], ["journal", "--since", middle.time.decode()], ["journal", "--json", "--until", middle.time.decode()],
                  ["state", "--when", middle.time.decode()]):
        of = [ran_program([*words, "--marks", "m", STANDARD, name]) for name in ("c", whole)]
        same((words, of[0]), (words, of[1]))


def put_marks(found):
    put("m", marks.text_of(found, HEAD))


def content_of(found):
    """The lines of marks, without the head's."""
    return marks.text_of(found).splitlines(keepends=True)


def start_over_marks():
    """A start compares the marks of its own file from the first on, and none before; mls verify compares all."""
    for fill in (filled, in_small_batches):
        starts_over_marks(fill("s"))


def starts_over_marks(due):
    while not content("s"):
        due = drawn(10, due.next)
        asked("s", due)
    count, first, true = joined("s").count(b"\n"), first_of("s"), is_marked("s")
    border = next(place for place, it in enumerate(true) if it.number == first - 1)
    assert border > 3 and border + 1 < len(true), (border, len(true))

    def differing(place):
        it = true[place]
        return [*true[:place], it._replace(digest=bytes.fromhex(flip(it.digest.hex().encode()).decode())), *true[place + 1 :]]

    for place, status in ((0, 0), (border // 2, 0), (border - 1, 0), (border + 1, 3), (len(true) - 1, 3)):
        put_marks(differing(place))
        noted, told = content("m"), b"mls: m: differs at entry %d\n" % true[place].number
        same((place, verify("s")), (place, (3, b"", told)))
        same((place, served(b"", "s", *BOTH)), (place, (0, ready(count), b"") if status == 0 else (3, b"", told)))
        same(content("m"), noted)
    # (the digest at the border decides over those behind it)
    put_marks(differing(border))
    same(served(b"", "s", *BOTH), (3, b"", b"mls: m: differs at entry %d\n" % true[border + 1].number))
    # (lines that are no marks: those of the live file's marks are counted from its first on)
    for place in (0, border // 2, border - 1):
        lines = content_of(true)
        lines[place] = b"x" + lines[place]
        put("m", HEAD + b"".join(lines))
        same(served(b"", "s", *BOTH), (0, ready(count), b""))
        same(verify("s"), (1, b"", b"mls: m: line %d: mark\n" % (place + 2)))
    for place in (border + 1, len(true) - 1):
        lines = content_of(true)
        lines[place] = b"x" + lines[place]
        put("m", HEAD + b"".join(lines))
        same(served(b"", "s", *BOTH), (1, b"", b"mls: m: line %d: mark\n" % (place - border)))
    # (a torn end is that of the live file's marks)
    put("m", marks.text_of(true[:-1], HEAD) + marks.text_of(true[-1:])[:30])
    last = true[-2].number
    same(served(b"", "s", *BOTH), (1, b"", b"mls: m: torn after entry %d\n" % last))
    same(served(b"", "s", *BOTH, "--recover"), (0, ready(count), b"mls: m: cut after entry %d\n" % last))
    is_marked("s")
    put_marks(true)
    same(served(b"", "s", *BOTH), (0, ready(count), b""))


def marks_that_are_no_end_of_a_segment():
    """Where no mark has the number of the entry before the live file, MARKS is refused, and stays as it was."""
    for fill in (filled, in_small_batches):
        fill("e")
        are_no_end()


def are_no_end():
    count, last = joined("e").count(b"\n"), (first_of("e") if content("e") else joined("e").count(b"\n")) - 1
    true = is_marked("e")
    border = next(place for place, it in enumerate(true) if it.number == last)
    after = true[border + 1].number if border + 1 < len(true) else last
    whole, times = joined("e"), [it.time for it in true]
    ends = [it.number + 1 for place, it in enumerate(true) if place != border]
    rows = [([], last), (true[:border], last), (true[: border // 2], last), (true[:border] + true[border + 1 :], after)]
    if after != last:
        # (one that spans it)
        rows.append((marks.headed(whole, ends, times[: len(ends)], HEAD), after))
    for found, entry in rows:
        put_marks(found)
        for flags in ((), ("--recover",)):
            same((entry, served(b"", "e", *BOTH, *flags)), (entry, (3, b"", b"mls: m: differs at entry %d\n" % entry)))
        same(content("m"), marks.text_of(found, HEAD))
    for text in (b"", HEAD[:30]):
        put("m", text)
        same((text, served(b"", "e", *BOTH, "--recover")), (text, (3, b"", b"mls: m: differs at entry %d\n" % last)))
        same(content("m"), text)
    put_marks(true)
    same(served(b"", "e", *BOTH), (0, ready(count), b""))


def marks_begun_later():
    """A journal whose closed files have no marks is refused with them; one whose only file has none yet gets them."""
    emptied("l")
    due = drawn(1_500)
    same(served(due.asked, "l", *CUT)[0], 0)
    last = (first_of("l") if content("l") else due.next) - 1
    same(served(b"", "l", *BOTH), (3, b"", b"mls: m: differs at entry %d\n" % last))
    emptied("l")
    due = drawn(40)
    same(served(due.asked, "l", *CUT)[0], 0)
    asked("l", drawn(900, due.next))
    is_marked("l")


def segment_that_is_forged_with_its_marks():
    """An entry of a closed file that is another session's replays, and the states after it are the same. With the marks as they were it
    differs there; with marks made anew only yesterday's digest finds it. A start, which compares its own file, goes on."""
    due = filled("f")
    whole, found = joined("f"), is_marked("f")
    yesterday = found[-1].digest.hex()
    more = drawn(100, due.next)
    asked("f", more)
    found = is_marked("f")
    same(verify("f", "m", "--digest", yesterday)[0], 0)
    number = numbered("f")[2]
    path, told = segment("f", number), b"%d 0 " % number
    os.chmod(path, 0o600)
    text = content(path)
    assert text.startswith(told)
    put(path, b"%d 7 " % number + text[len(told):])
    forged = joined("f")
    assert forged != whole and len(forged) == len(whole) + len(more.journal)
    same(ran_program(["replay", STANDARD, "f"])[0], 0)
    differs = next(it.number for it in found if it.number >= number)
    refused = (3, b"", b"mls: m: differs at entry %d\n" % differs)
    same((verify("f"), verify("f", "m", "--digest", yesterday)), (refused, refused))
    same(served(b"", "f", *BOTH), (0, ready(more.next), b""))
    anew = marks.headed(forged, [it.number + 1 for it in found], [it.time for it in found], HEAD)
    put_marks(anew)
    same(verify("f"), (0, verified(more.next, anew), b""))
    same(verify("f", "m", "--digest", yesterday), (3, b"", b"mls: m: no such digest\n"))
    same(served(b"", "f", *BOTH), (0, ready(more.next), b""))


def marks_of_an_archive():
    """Once the first file is moved away a start goes on, which compares the marks of its own; a question that needs all entries says which are
    not here. So does mls verify, which can't tell whether they were moved or removed: it verifies the others only with the digest that the
    missing ones ended with, whether their marks are in the file or not."""
    due = filled("a")
    found = is_marked("a")
    os.remove(segment("a", numbered("a")[0]))
    first = numbered("a")[0]
    lacking = b"mls: a: entries before %d are not here\n" % first
    same(served(b"", "a", *BOTH), (0, ready(due.next), b""))
    same(ran_program(["journal", "--marks", "m", STANDARD, "a"]), (1, b"", lacking))
    same(verify("a"), (3, b"", lacking))
    gone = [it for it in found if it.number < first]
    ended = gone[-1].digest.hex()
    (status, output, error) = verify("a", "m", "--from", ended)
    same((status, error), (0, lacking))
    lines = output.splitlines()
    same(lines[:2], [b"entries %d" % due.next, b"last %s" % found[-1].digest.hex().encode()])
    same(lines[2].split()[1], found[len(gone)].time)
    for other in ("0" * 64, found[len(gone)].digest.hex()):
        same(verify("a", "m", "--from", other), (3, b"", lacking + b"mls: m: differs at entry %d\n" % gone[-1].number))
    # an entry that is here is another one
    path = segment("a", first)
    text = content(path)
    os.chmod(path, 0o600)
    put(path, text.replace(b" yes\n", b" no star\n", 1))
    same(verify("a", "m", "--from", ended)[0], 3)
    put(path, text)
    # the marks of the missing entries were moved away with them
    put_marks(found[len(gone):])
    same(verify("a", "m", "--from", ended), (0, output, lacking))
    same(verify("a", "m", "--from", "0" * 64)[0], 3)


def older(found):
    """The text of marks with the same numbers and times, of the journal o, whose digests are of the entries alone."""
    return marks.text_of(marks.made(joined("o"), [it.number + 1 for it in found], [it.time for it in found]))


def older_marks_in_segments():
    """A start goes on from older marks, behind the mark of the entry before its own file, and mls verify compares both files. Where that mark is
    in the own file the older one isn't looked at; else it must be there, and end as is told."""
    for fill in (filled, in_small_batches):
        are_older(fill("o"))


def are_older(due):
    while not content("o"):
        due = drawn(10, due.next)
        asked("o", due)
    count, true = joined("o").count(b"\n"), is_marked("o")
    text = older(true)
    put("m", text)
    same(served(b"", "o", *BOTH), (0, ready(count), b""))
    same((content("m.1"), marks.read(content("m"))), (text, []))
    is_marked("o")
    # (the next start, whose own file begins before the older marks end)
    same(served(b"", "o", *BOTH), (0, ready(count), b""))
    before, first = len(numbered("o")), first_of("o")
    more = drawn(20, count)
    asked("o", more)
    same(len(numbered("o")), before)
    count, both = more.next, content("m")
    is_marked("o")
    place = next(place for place, it in enumerate(marks.read(text)) if it.number == first - 1)
    lines = text.splitlines(keepends=True)
    torn = b"torn after entry %d" % marks.read(text)[-2].number
    rows = [(b"".join(lines[:-1]), b"another end", 3), (b"".join(lines[:place]), b"differs at entry %d" % (first - 1), 3), (text[:-1], torn, 1)]
    for changed, told, status in rows:
        put("m.1", changed)
        same((told, served(b"", "o", *BOTH, "--recover")), (told, (status, b"", b"mls: m.1: " + told + b"\n")))
        assert verify("o")[0] == status and content("m") == both
    remove("m.1")
    same(served(b"", "o", *BOTH), (1, b"", failed("m.1", "open", ENOENT)))
    same(verify("o"), (1, b"", b"mls: m.1: file\n"))
    put("m.1", text)
    # (a file that begins behind them)
    more = drawn(1_500, count)
    asked("o", more)
    count = more.next
    found = is_marked("o")
    for digest in (found[0].digest, found[place].digest, marks.read(text)[-1].digest, marks.begin_of(content("m")), found[-1].digest):
        same((digest, verify("o", "m", "--digest", digest.hex())[0]), (digest, 0))
    put("m.1", b"x\n")
    same(served(b"", "o", *BOTH), (0, ready(count), b""))
    same(verify("o"), (1, b"", b"mls: m.1: line 1: mark\n"))
    put("m.1", text)
    # (the first files moved away: fewer than the older marks cover, as many, and more)
    last = marks.read(text)[-1].number
    for number in numbered("o")[:-1]:
        os.remove(segment("o", number))
        here = numbered("o")[0]
        gone = [it for it in found if it.number < here]
        lacking = b"mls: o: entries before %d are not here\n" % here
        (status, output, error) = verify("o", "m", "--from", gone[-1].digest.hex())
        same((here, status, error, output.splitlines()[1]), (here, 0, lacking, b"last %s" % found[-1].digest.hex().encode()))
        same((here, verify("o", "m", "--from", gone[0].digest.hex())[0]), (here, 3 if gone[1:] else 0))
        if here > last + 1:
            remove("m.1")
            same((here, verify("o", "m", "--from", gone[-1].digest.hex())), (here, (0, output, lacking)))
            put("m.1", text)
    assert numbered("o")[0] > last


def state_that_is_forged_under_marks():
    """mls verify compares the states, as mls replay does."""
    filled("t")
    last = state("t", numbered("t", "state.")[-1])
    forged = content(last).replace(b"permit aud read plans\n", b"", 1)
    assert forged != content(last)
    put(last, forged)
    same(verify("t"), (3, b"", b"mls: " + last.encode() + b": differs\n"))


# crashes, and calls that fail


def goes_on(journal, before, due, written):
    """The next service goes on from what is left, and all that is there then is marked."""
    status, output, _ = served(b"", journal, *BOTH, "--recover", "--from-start")
    same(status, 0)
    now = joined(journal)
    is_kept(now, before, due, written)
    same(output, ready(count_of(now)))
    is_marked(journal)
    return now


@needs_proof
def kills_between_segments_that_are_marked():
    """Every answer that the client had got is in the files, with its mark, and the next service goes on."""
    once = lambda rnd, before: killed_once(rnd, "k", BOTH, rnd.choices(LINES, k=1_500), before, lambda: joined("k"), lambda *it: goes_on("k", *it), True)
    kills(5250, crashing.KILLS, KILLS_OF_A_JOURNAL, lambda: emptied("k"), once, lambda before: is_cut_well("k", before))


def run_over_a_disk(**words):
    """Serves lines over a journal in segments with marks, anew, and over the shim. Returns what is due, and what run_of_lines does."""
    emptied("d")
    due = drawn(400)
    return due, *run_of_lines("d", due, *BOTH, **words)


def sync_of_marks_before_a_segment_is_closed():
    """MARKS is synced behind the last mark of a file and before anything is written to close it. Where that fails no file is closed, and no
    state is kept; so it is where the mark can't be appended. It is told, with status 5, and the next service goes on."""
    due, status, said, written, error, calls = run_over_a_disk()
    same((status, said, written, error), (0, ready(0), due.answers, b""))
    steps = [f"{call} {name[:8]}" for call, name, *_ in calls]
    closings = [place for place, step in enumerate(steps) if step == "write d.state."]
    assert len(closings) > 1, steps
    for place in closings:
        same(steps[place - 1], "sync m")
    # (where the machine is slow MARKS is synced once more before, since a second has passed)
    same(next(step for step in reversed(steps[: closings[0]]) if step != "sync m"), "write m")
    # (of the syncs those that are always there: before the head, behind it, and before each file is closed)
    counts = {"write": steps[: closings[1]].count("write m"), "sync": steps[: steps.index("write m")].count("sync m") + 3}
    for call, place in [(it, count) for it, most in counts.items() for count in range(1, most + 1)]:
        for errno in (ENOSPC, EIO):
            due, status, said, written, error, _ = run_over_a_disk(of="m", call=call, fail=place, errno=errno)
            what = (call, place, errno)
            same((what, status, error), (what, 5, failed("m", CALLS[call], errno)))
            done = [number for number in numbered("d", "state.")]
            assert len(done) < 2, (what, done)
            same((what, bool(numbered("d"))), (what, bool(done)))
            if said:
                is_kept(joined("d"), b"", due, written)
            goes_on("d", b"", due, written)


def kill_before_each_call_on_marks():
    """A kill before each call on MARKS, and before each call that closes a file, loses nothing that was answered."""
    _, _, _, _, _, calls = run_over_a_disk()
    for call in ("write", "sync"):
        for place in range(1, min(sum(note[:2] == (call, "m") for note in calls), 12) + 1):
            due, status, _, written, _, noted = run_over_a_disk(of="m", call=call, kill=place)
            # (MARKS is synced once more after a second: so a run on a slow machine has calls that another hasn't)
            is_there = status != 0 or sum(note[:2] == (call, "m") for note in noted) >= place
            same((call, place, status), (call, place, -signal.SIGKILL if is_there else 0))
            goes_on("d", b"", due, written)


CHECKS = [*map(in_its_folder, [marks_of_a_journal_that_is_cut, start_over_marks, marks_that_are_no_end_of_a_segment,
           marks_begun_later, segment_that_is_forged_with_its_marks, marks_of_an_archive, older_marks_in_segments,
           state_that_is_forged_under_marks, kills_between_segments_that_are_marked])]
OVER_THE_SHIM = [*map(in_its_folder, [sync_of_marks_before_a_segment_is_closed, kill_before_each_call_on_marks])]
