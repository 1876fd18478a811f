"""What mls serve --marks keeps beside a journal: which marks it makes, which it goes on with, which it refuses, and what it does with a
torn end. What is expected was worked out from docs/FORMATS.md ("Marks") by marks.py."""
import errno
import glob
import os
import resource
import time

import marks
from outside import EXAMPLES, SECONDS, in_its_folder, needs_proof, put, ran_program, same, some
from serving import IN_SESSIONS, LINES, REQUESTS, STANDARD, Due, Serving, asked_in, content, failed, mode_of, ready, served, status_of

MARKED = ("--marks", "m")
TIMES = [b"2026-11-26T08:00:01.203944Z", b"2026-11-26T08:00:01.203999Z", b"2026-11-26T17:30:00.000000Z"]
# A journal of three entries, and its marks: one of the first entry, and one of the two others. They stand behind the head; the older ones have
# none.
FRONT = Due(REQUESTS[:3]).journal
HEAD = marks.head(content(STANDARD))
ONE, TWO = (marks.text_of([it]) for it in marks.headed(FRONT, [1, 3], TIMES[:2], HEAD))
OLD_ONE, OLD_TWO = (marks.text_of([it]) for it in marks.made(FRONT, [1, 3], TIMES[:2]))
# Behind them entries, and the mark of these, of each form.
FORMS = [(HEAD, ONE, TWO), (b"", OLD_ONE, OLD_TWO)]
# A part of a mark that a crash has torn.
TORN_MARK = b"2 2026-11-26T08:0"
TORN_ENTRY = b"3 0 0 get-re"


def put_pair(journal, noted):
    """Makes the files f and m, each of which isn't there where it is None, and takes away what was kept of torn ends."""
    for name in ("f", "m", "m.1", "m.new", *glob.glob("[fm].torn*")):
        if os.path.lexists(name):
            os.remove(name)
    for name, it in (("f", journal), ("m", noted)):
        if it is not None:
            put(name, it)


def pair():
    """What f and m hold."""
    return content("f"), content("m")


def now():
    """The clock, as a mark has it."""
    return marks.time_text(marks.instant(b"1970-01-01T00:00:00.000000Z") + time.time_ns())


def marked(*flags, asked=b"", journal="f", noted="m", **how):
    """Serves lines over a journal with marks."""
    return served(asked, journal, *flags, "--marks", noted, **how)


def is_marked(journal="f", noted="m"):
    """Marks agree with a journal and cover all of it, by marks.py and by mls verify; returns those of the file."""
    text, of_journal = content(noted), content(journal)
    older = content(f"{noted}.1") if marks.after_of(text) else b""
    found, count = marks.read(text), of_journal.count(b"\n")
    same(marks.checked(of_journal, text, older), count)
    last = found[-1].digest if found else marks.begin_of(text)
    same(verify(journal, noted), (0, verified(count, marks.read(older) + found, last=last), b""))
    return found


def all_marks():
    """The marks of m, and before them those of m.1 where it goes on from that."""
    text = content("m")
    return (marks.read(content("m.1")) if marks.after_of(text) else []) + marks.read(text)


def verify(journal="f", noted="m", *words):
    return ran_program(["verify", *words, STANDARD, journal, noted])


def verified(count, found, unmarked=0, begins=marks.ZEROS, last=None):
    """What mls verify prints of marks that agree with a journal of so many entries. The last digest is that of the last mark, or another one
    behind it."""
    last = last or (found[-1].digest if found else begins)
    times = b"from %s to %s\n" % (found[0].time, found[-1].time) if found else b""
    back = b"back %d\n" % marks.count_back(found) if marks.count_back(found) else b""
    behind = b"unmarked %d\n" % unmarked if unmarked else b""
    return b"entries %d\nlast %s\n" % (count, last.hex().encode()) + times + back + behind


def a_mark_for_each_batch():
    """Each batch with entries has one, with the time at which it was answered; the journal is the one that there is without."""
    for flags, lines in (((), LINES), (("--sessions",), IN_SESSIONS)):
        put_pair(None, None)
        batches, due, ends = [lines[:2], lines[2:3], lines[6:9], lines[3:6], lines], Due([]), []
        with Serving("f", *flags, *MARKED) as run:
            run.says(ready(0))
            same(pair(), (b"", HEAD))
            bounds = [now()]
            for batch in batches:
                due = Due(batch, due.next)
                run.ask(due.asked)
                run.says(due.answers)
                ends += [due.next] if due.journal else []
                bounds += [now()] if due.journal else []
                found = marks.read(content("m"))
                same(([it.number + 1 for it in found], marks.checked(content("f"), content("m"))), (ends, due.next))
            same(run.end(), (0, b"", b""))
        assert all(a <= it.time <= b for a, it, b in zip(bounds, found, bounds[1:])), (bounds, found)
        same(content("f"), Due([line for batch in batches for line in batch]).journal)
        same((is_marked(), mode_of("m")), (found, 0o600))


def marks_that_a_service_goes_on_with():
    """The chain goes on over starts of the service; what has no entry has no mark, and neither has a service that is asked nothing."""
    put_pair(None, None)
    first = 0
    for flags, lines in (((), LINES[:3]), (("--sessions",), IN_SESSIONS[2:]), ((), LINES[6:]), ((), LINES)):
        due, before = Due(lines, first), content("m") if first else b""
        status, output, error = marked(*flags, asked=due.asked)
        same((status, output, error), (0, ready(first) + due.answers, b""))
        assert content("m").startswith(before)
        same(len(is_marked()), len(marks.read(before)) + bool(due.journal))
        first = due.next
        before = content("m")
        same((marked("--recover"), content("m")), ((0, ready(first), b""), before))


def entries_that_have_no_mark():
    """They get one before `ready N`, with the time of that moment."""
    for noted in (None, b"", HEAD, HEAD + ONE):
        for flags in ((), ("--recover", "--sessions")):
            put_pair(FRONT, noted)
            begun = now()
            with Serving("f", *flags, *MARKED) as run:
                run.says(ready(3))
                found = marks.read(content("m"))
                assert begun <= found[-1].time <= now(), found
                same(([it.number for it in found], content("m").startswith(noted or b"")), ([0, 2] if ONE in (noted or b"") else [2], True))
                same(run.end(), (0, b"", b""))
        is_marked()
    # (a torn end of the journal has none: it is cut off before)
    put_pair(FRONT + TORN_ENTRY, HEAD + ONE)
    same(marked("--recover"), (0, ready(3), b"mls: f: cut after entry 2\n"))
    same((content("f"), [it.number for it in is_marked()]), (FRONT, [0, 2]))


def words_of_marks():
    for words in (["--marks"], ["--marks", "m", "--marks", "n"], ["--marks=m", "--session=1", "--sessions"]):
        put_pair(None, None)
        status, output, error = ran_program(["serve", "--journal", "f", STANDARD, *words])
        same((words, status, output), (words, 2, b""))
        assert error.endswith(b"\n") and not os.path.exists("f") and not os.path.exists("m")


def changed(line, place, by):
    """A mark's line with another part: number, time or digest."""
    parts = line.split(b" ")
    parts[place] = by(parts[place])
    return b" ".join(parts)


BAD_TIMES = [
    b"2026-13-26T08:00:01.203944Z", b"2026-00-26T08:00:01.203944Z", b"2026-11-00T08:00:01.203944Z", b"2026-11-32T08:00:01.203944Z",
    b"2026-11-26T24:00:01.203944Z", b"2026-11-26T08:60:01.203944Z", b"2026-11-26T08:00:60.203944Z", b"2026-11-26t08:00:01.203944Z",
    b"2026-11-26T08:00:01.203944z", b"2026-11-26T08:00:01,203944Z", b"2026-11-26T08:00:01.20394Z", b"2026-11-26T08:00:01.2039441Z",
    b"2026-02-29T08:00:01.203944Z", b"2031-02-31T08:00:01.203944Z", b"2026-04-31T08:00:01.203944Z", b"1900-02-29T08:00:01.203944Z",
    b"2026-11-26T08:00:01.203944+00:00", b"2026-11-26 08:00:01.203944Z", b"2026-11-26T08:00:01.20394xZ", b"-026-11-26T08:00:01.203944Z",
]
NO_MARKS = [b"\n", b"x\n", b"0\n", ONE[1:], ONE[:-1] + b"\r\n", b" " + ONE, ONE[:-1] + b" \n",
            ONE.replace(b" ", b"  ", 1), ONE.replace(b"Z ", b"Z  "), b"0" + ONE, b"+" + ONE, b"-" + ONE, b"x" + ONE,
            b"18446744073709551616" + ONE[1:], ONE.replace(b" ", b"\t"), ONE.upper().replace(b"z", b"Z"),
            ONE[:-2] + b"\n", ONE[:-1] + b"0\n", ONE[:-2] + b"g\n", 200_000 * b"x" + b"\n", ONE[:-1] + ONE, b"\xff\n", HEAD,
            *(changed(ONE, 1, lambda _, text=text: text) for text in BAD_TIMES)]


def flip(digest):
    return (b"1" if digest[:1] == b"0" else b"0") + digest[1:]


# Marks that don't agree with the journal of three entries, and the entry that is told.
OTHER_MARKS = [
    (TWO, 2), (ONE + ONE, 0), (ONE + TWO + TWO, 2), (TWO + ONE, 2), (changed(ONE, 2, flip), 0), (ONE + changed(TWO, 2, flip), 2),
    (changed(ONE, 1, lambda _: TIMES[1]), 0), (ONE + changed(TWO, 1, lambda _: TIMES[2]), 2), (OLD_ONE, 0), (OLD_ONE + OLD_TWO, 0),
    (ONE + OLD_TWO, 2),
    (changed(ONE, 0, lambda _: b"1"), 1), (ONE + changed(TWO, 0, lambda _: b"1"), 1), (ONE + changed(TWO, 0, lambda _: b"0"), 0),
    (ONE + TWO + changed(TWO, 0, lambda _: b"3"), 3), (ONE + changed(TWO, 0, lambda _: b"3"), 3),
    (ONE + changed(TWO, 0, lambda _: b"18446744073709551615"), 2**64 - 1), (changed(ONE, 0, lambda _: b"18446744073709551614"), 2**64 - 2),
    (marks.text_of(marks.made(FRONT, [1], TIMES[:1], marks.after(marks.ZEROS, b""), True)), 0),
    (marks.text_of(marks.headed(FRONT.replace(b" 0 1 ", b" 1 1 "), [3], TIMES[:1], HEAD)), 2),
]


def not_served(journal, noted, told, status):
    """The service refuses marks, and both files stay as they were."""
    put_pair(journal, noted)
    for words in ((), ("--recover", "--cut-damage")):
        wanted = (noted[-200:], (status, b"", b"mls: m: " + told + b"\n"))
        same((noted[-200:], marked(*words, asked=b"ann get-read plans\n")), wanted)
        same(pair(), (journal, noted))
    same(glob.glob("[fm].torn*"), [])


def not_verified(journal, noted, told, status):
    """So does mls verify."""
    put_pair(journal, noted)
    same((noted[-200:], verify()), (noted[-200:], (status, b"", b"mls: m: " + told + b"\n")))
    same(pair(), (journal, noted))


def lines_that_are_no_marks():
    """The first that is none decides, whatever stands behind it."""
    rows = []
    for place, line in enumerate(NO_MARKS):
        begins, one, two = FORMS[place // 4 % 2]
        front, tail = ((begins, b""), (begins + one, b""), (begins + one, two), (begins + one + two, b"\0"))[place % 4]
        rows.append((FRONT, front + line + tail, b"line %d: mark" % (front.count(b"\n") + 1), 1))
    for row in some(rows, 2):
        not_verified(*row)
    for row in some(rows, 7):
        not_served(*row)


def marks_of_another_journal():
    rows = []
    for place, (noted, entry) in enumerate(OTHER_MARKS):
        tail = (b"", b"x\n", TORN_MARK)[place % 3]
        rows.append((FRONT, HEAD + noted + tail, b"differs at entry %d" % entry, 3))
    for row in some(rows, 2):
        not_verified(*row)
    # (the journal lost entries that marks cover: they differ before the journal's own end is looked at)
    lost = [(b"", 0), (FRONT[:-1], 2), (FRONT[:-30] + bytes(30), 2), (bytes(len(FRONT)), 0)]
    for row in some(rows[1:], 7) + [(journal, HEAD + ONE + TWO, b"differs at entry %d" % entry, 3) for journal, entry in lost]:
        not_served(*row)


def torn_end_that_marks_cover():
    """Marks of bytes of which a torn end would be cut off: nothing is cut."""
    torn = FRONT.replace(b"2 0 1 get", b"2 0 1 g\0t")
    assert torn != FRONT
    noted = marks.text_of(marks.headed(torn, [1, 3], TIMES[:2], HEAD), HEAD)
    for flags, wanted in ((("--recover",), (3, b"", b"mls: m: differs at entry 2\n")), ((), (1, b"", b"mls: f: torn after entry 1\n"))):
        put_pair(torn, noted)
        same((flags, marked(*flags)), (flags, wanted))
        same(pair(), (torn, noted))


# What stands behind marks and is cut off, since a crash may have left it: from the first line on that has a zero byte or no newline.
TORN_MARKS = [
    b"2", TORN_MARK, TWO[:-1], b"\0", b"\0\n", bytes(5_000), TWO[:9] + b"\0" + TWO[10:], TWO[:9] + b"\0" + TWO[10:] + TWO, bytes(len(TWO)) + TWO,
    bytes(len(TWO) - 1) + b"\n" + ONE, TWO[:-1] + b"\0", TWO[:40] + bytes(4_096) + b"x\n", b"x", 70_000 * b"x", b"\0" + 70_000 * b"\n", b"2\0\nx\n",
]


def ends_of_marks_that_are_torn():
    """They are refused without --recover. With it they are kept and cut off, and what has no mark then gets one."""
    fronts = [(HEAD + ONE, b"after entry 0"), (HEAD, b"before entry 0"), (HEAD + ONE + TWO, b"after entry 2")]
    for place, tail in some([*enumerate(TORN_MARKS)], 4):
        front, after = fronts[place % 3]
        put_pair(FRONT, front + tail)
        wanted = (1, b"", b"mls: m: torn " + after + b"\n")
        same((tail[:99], marked(), pair()), (tail[:99], wanted, (FRONT, front + tail)))
        same((tail[:99], verify()), (tail[:99], wanted))
        same(glob.glob("[fm].torn*"), [])
        due = Due(LINES[:1], 3)
        same(marked("--recover", asked=due.asked), (0, ready(3) + due.answers, b"mls: m: cut " + after + b"\n"))
        same((tail[:99], content("m.torn"), mode_of("m.torn")), (tail[:99], tail, 0o600))
        same((content("f"), content("m").startswith(front)), (FRONT + due.journal, True))
        same(len(is_marked()), len(marks.read(front)) + (TWO not in front) + 1)


def both_ends_torn():
    """Both are kept and cut off, that of the marks before that of the journal; where the journal is refused then, the marks are cut all the
    same."""
    for number in range(3):
        if number == 0:
            put_pair(FRONT, HEAD + ONE)
        journal, noted = pair()
        put("f", FRONT + TORN_ENTRY)
        put("m", noted + TORN_MARK)
        last = b"after entry 0" if number == 0 else b"after entry 2"
        told = b"mls: m: cut " + last + b"\nmls: f: cut after entry 2\n"
        same((journal, marked("--recover")), (FRONT, (0, ready(3), told)))
        kept = ["", ".1", ".2"][: number + 1]
        same([(content("f.torn" + it), content("m.torn" + it)) for it in kept], len(kept) * [(TORN_ENTRY, TORN_MARK)])
        is_marked()
    os.symlink("elsewhere", "m.torn.3")
    put("m", content("m") + TORN_MARK)
    same(marked("--recover")[0], 0)
    same((content("m.torn.4"), os.path.lexists("elsewhere")), (TORN_MARK, False))
    for tail, told, status in ((b"x\n", b"line 4: entry 1 BadForm", 1), (b"4 0 0 get-read 1 yes\n", b"replay 1 Number at 3", 3)):
        put_pair(FRONT + tail, HEAD + ONE + TORN_MARK)
        same(marked("--recover"), (status, b"", b"mls: m: cut after entry 0\nmls: f: " + told + b"\n"))
        same((*pair(), content("m.torn")), (FRONT + tail, HEAD + ONE, TORN_MARK))
        same(marked("--recover"), (status, b"", b"mls: f: " + told + b"\n"))


def marks_that_are_no_file():
    os.mkdir("folder")
    os.mkfifo("fifo")
    rows = [("folder", "open", errno.EISDIR), ("fifo", "sync", errno.EINVAL), ("no/folder", "open", errno.ENOENT)]
    rows += [("/dev/null", "sync", errno.EINVAL), ("", "open", errno.ENOENT), (f"{STANDARD}/m", "open", errno.ENOTDIR)]
    for noted, call, number in rows:
        put_pair(FRONT, None)
        same((noted, marked("--recover", noted=noted)), (noted, (status_of(call), b"", failed(noted, call, number))))
        same(content("f"), FRONT)


def marks_that_are_in_use():
    """Also by a run that would write its journal there. Both files stay; a front is to try again."""
    put_pair(FRONT, HEAD + ONE + TWO)
    put("g", FRONT)
    script = f"{EXAMPLES}/standard.script"
    with Serving("f", *MARKED) as first:
        first.says(ready(3))
        os.link("m", "hard")
        os.symlink("m", "link")
        for noted in ("m", "hard", "link", "./m"):
            told = b"mls: %s: in use\n" % noted.encode()
            same(marked("--recover", journal="g", noted=noted), (1, b"", told))
            same(marked("--names", journal="g", noted=noted), (75, b"", told))
            same(ran_program(["run", "--journal", noted, STANDARD, script]), (1, b"", told))
        same(marked(journal="m", noted="n"), (1, b"", b"mls: m: in use\n"))
        first.ask(b"ann get-read plans\n")
        first.says(b"yes\n")
        same(first.end(), (0, b"", b""))
    same((content("g"), content("f").count(b"\n"), os.path.exists("n")), (FRONT, 4, False))
    is_marked()


def marks_that_are_another_file():
    """The journal itself and the start file, by whatever name, are in use. They stay as they were."""
    put_pair(FRONT, None)
    os.link("f", "twin")
    os.symlink("f", "way")
    os.symlink("s.json", "start")
    for flags in ((), ("--recover",), ("--recover", "--cut-damage")):
        for noted in ("f", "./f", "twin", "way"):
            same(marked(*flags, noted=noted), (1, b"", b"mls: %s: in use\n" % noted.encode()))
        for start in (content(STANDARD), content(STANDARD).replace(b"\n", b"")):
            put("s.json", start)
            for noted in ("s.json", "start"):
                same(marked(*flags, noted=noted, start="s.json"), (1, b"", b"mls: %s: in use\n" % noted.encode()))
                same((content("f"), content("s.json")), (FRONT, start))
        # (marks and journal exchanged)
        put("m", HEAD + ONE + TWO)
        same(marked(*flags, journal="m", noted="f"), (1, b"", b"mls: f: line 1: mark\n"))
        same(pair(), (FRONT, HEAD + ONE + TWO))
    same(glob.glob("*.torn*"), [])


def modes_of_marks_that_are_made():
    """The owner alone reads and writes them, or less; marks that are there keep their mode, and a link is followed."""
    for umask, mode in ((0, 0o600), (0o077, 0o600), (0o277, 0o400)):
        put_pair(None, None)
        same(marked(asked=b"ann get-read plans\n", preexec_fn=lambda: os.umask(umask))[0], 0)
        same((umask, mode_of("m")), (umask, mode))
    os.chmod("m", 0o644)
    same((marked(asked=b"ann get-read plans\n")[0], mode_of("m")), (0, 0o644))
    os.mkdir("there")
    os.symlink("there/m", "marks")
    put_pair(FRONT, None)
    same(marked(noted="marks"), (0, ready(3), b""))
    is_marked(noted="there/m")


def faults_before_the_marks():
    """What is wrong with START, and a FILE that can't be opened, is told before MARKS is made; MARKS comes before what FILE holds."""
    put_pair(None, None)
    put("bad.json", content(STANDARD).replace(b'"T:A,B"', b'"T:A,A"'))
    same(marked(start="bad.json"), (1, b"", b"mls: bad.json: start 5 Label\n"))
    same(marked(journal="no/f"), (1, b"", failed("no/f", "open", errno.ENOENT)))
    with Serving("f") as first:
        first.says(ready(0))
        same(marked("--recover"), (1, b"", b"mls: f: in use\n"))
        same(marked("--names"), (75, b"", b"mls: f: in use\n"))
    assert not os.path.exists("m"), "marks were made"
    put_pair(b"not a journal\n", b"no marks\n")
    same(marked("--recover"), (1, b"", b"mls: m: line 1: mark\n"))
    put_pair(b"not a journal\n", b"")
    same(marked("--recover"), (1, b"", b"mls: f: line 1: entry 1 BadForm\n"))
    same(content("m"), HEAD)
    put_pair(FRONT + TORN_ENTRY, HEAD + ONE + TWO)
    same((marked(), pair()), ((1, b"", b"mls: f: torn after entry 2\n"), (FRONT + TORN_ENTRY, HEAD + ONE + TWO)))


def input_that_ends_otherwise():
    """Half a line, and a client that is gone: what was asked is marked, and the marks are whole."""
    due = Due(IN_SESSIONS)
    put_pair(None, None)
    told = (1, ready(0) + due.answers, b"mls: input: unfinished line\n")
    same(marked("--sessions", asked=due.asked + b"7 ann get-read plans"), told)
    same((content("f"), len(is_marked())), (due.journal, 1))
    put_pair(None, None)
    with Serving("f", *MARKED) as run:
        run.says(ready(0))
        run.run.stdout.close()
        run.ask(LINES[0].asked)
        same((run.run.wait(SECONDS), run.run.stderr.read()), (1, b"mls: output: write\n"))
    same(len(is_marked()), 1)


def marks_of_more_than_a_piece():
    """They are read in pieces of 65,536 bytes, and the lines that lie across two are as all others."""
    due = Due(120 * REQUESTS)
    found = marks.headed(due.journal, range(1, due.next + 1), due.next * TIMES[:1], HEAD)
    text = marks.text_of(found, HEAD)
    place = text[:65_536].count(b"\n") - 1
    assert 0 < place < due.next - 1 and text[65_535:65_536] != b"\n", "no mark lies across two pieces"
    put_pair(due.journal, text)
    same(marked("--recover"), (0, ready(due.next), b""))
    same(verify("f", "m", "--digest", found[place].digest.hex()), (0, verified(due.next, found), b""))
    line = marks.text_of([found[place]])
    before, behind = text[: text.index(line)], text[text.index(line) + len(line) :]
    for other, told, status in (
        (line[:50] + b"\0" + line[51:], b"torn after entry %d" % (place - 1), 1),
        (changed(line, 2, flip), b"differs at entry %d" % place, 3),
        (b"x" + line, b"line %d: mark" % (place + 2), 1),
    ):
        put("m", before + other + behind)
        same(verify(), (status, b"", b"mls: m: " + told + b"\n"))


# heads, and older marks

# First lines that are no heads: of the kinds of a torn end, and of those that are no marks either.
TORN_HEADS = [HEAD[:1], HEAD[:7], HEAD[:8], HEAD[:40], HEAD[:-1], HEAD[:-1] + b" after ", bytes(len(HEAD)), HEAD[:9] + b"\0" + HEAD[10:],
              HEAD[:-1] + b"\0", bytes(len(HEAD)) + ONE, HEAD[:20] + bytes(53) + ONE]
NO_HEADS = [HEAD[1:], b" " + HEAD, HEAD.replace(b"2", b"1", 1), HEAD.replace(b"2", b"3", 1), HEAD.replace(b" ", b"  ", 1), HEAD[:-2] + b"\n",
            HEAD[:-1] + b"0\n", HEAD[:-1] + b" \n", HEAD[:-1] + b"\r\n", HEAD.upper(), HEAD[:-1] + b" after \n", HEAD[:-1] + b" after 5f0c\n",
            HEAD[:-1] + b" before " + 32 * b"5f" + b"\n", HEAD[:-1] + b" after " + 33 * b"5f" + b"\n", HEAD[:-1] + b" after " + 32 * b"5F" + b"\n"]


def heads_that_are_torn():
    """A first line that isn't whole is a torn end, before the first mark: it is refused, or kept and cut off, and there is a head then."""
    for torn in some(TORN_HEADS, 4):
        put_pair(FRONT, torn)
        wanted = (1, b"", b"mls: m: torn before entry 0\n")
        same((torn, marked(), verify(), pair()), (torn, wanted, wanted, (FRONT, torn)))
        same((torn, marked("--recover")), (torn, (0, ready(3), b"mls: m: cut before entry 0\n")))
        same((torn, content("m.torn"), content("m").startswith(HEAD), len(is_marked())), (torn, torn, True, 1))


def lines_that_are_no_heads():
    rows = [(FRONT, line + ONE, b"line 1: mark", 1) for line in NO_HEADS]
    for row in some(rows, 3):
        not_verified(*row)
        not_served(*row)


def marks_of_another_start():
    """A start of the same meaning whose file has other bytes is another one, of each command that reads marks."""
    other = content(STANDARD).replace(b"\n", b"\n\n", 1)
    assert other != content(STANDARD)
    put("other.json", other)
    told = (3, b"", b"mls: m: of another start\n")
    for noted in (HEAD, HEAD + ONE, HEAD + ONE + TWO, HEAD + TORN_MARK, marks.head(content(STANDARD), marks.ZEROS) + ONE):
        put_pair(FRONT, noted)
        same((noted, marked("--recover", start="other.json"), pair()), (noted, told, (FRONT, noted)))
        same((noted, ran_program(["verify", "other.json", "f", "m"])), (noted, told))
    put_pair(FRONT, HEAD + ONE)
    for words in (["journal"], ["held"], ["usage"], ["report"], ["state"]):
        same((words, ran_program([*words, "--marks", "m", "other.json", "f"])), (words, told))
    # (the journal replays over it, and its own marks are made)
    put_pair(FRONT, None)
    same(marked(start="other.json"), (0, ready(3), b""))
    same(marks.cut(content("m"))[0], marks.head(other))
    same(ran_program(["verify", "other.json", "f", "m"])[0], 0)
    # (older marks say nothing of their start: they are gone on from under any)
    put_pair(FRONT, OLD_ONE)
    same(marked(start="other.json"), (0, ready(3), b""))


def is_put_aside(older, journal):
    """Older marks are in m.1 as they were, m goes on from their last digest, and each of their digests is found."""
    found = marks.read(older)
    same((content("m.1"), marks.cut(content("m"))[0]), (older, marks.head(content(STANDARD), found[-1].digest)))
    is_marked()
    for digest in [marks.ZEROS, *(it.digest for it in all_marks()), marks.begin_of(content("m"))]:
        same((digest, verify("f", "m", "--digest", digest.hex())[0]), (digest, 0))
    same((content("f"), os.path.exists("m.new")), (journal, False))


def older_marks_that_are_gone_on_from():
    """They are put aside, once; times and digests of theirs are those that questions and mls verify find."""
    for older in some([OLD_ONE, OLD_ONE + OLD_TWO], 2):
        for flags, lines in (((), LINES[:3]), (("--recover", "--sessions"), IN_SESSIONS)):
            put_pair(FRONT, older)
            os.chmod("m", 0o640)
            due = Due(lines, 3)
            same(marked(*flags, asked=due.asked), (0, ready(3) + due.answers, b""))
            is_put_aside(older, FRONT + due.journal)
            same((mode_of("m"), mode_of("m.1")), (0o640, 0o640))
            both = pair()
            same((marked(*flags), pair(), content("m.1")), ((0, ready(due.next), b""), both, older))
            # (the same as one file of each form)
            whole = all_marks()
            put("one", marks.text_of(marks.made(content("f"), [it.number + 1 for it in whole], [it.time for it in whole])))
            for words in (["journal"], ["journal", "--until", whole[0].time.decode()], ["state", "--when", whole[-1].time.decode()], ["held"]):
                of = [ran_program([*words, "--marks", noted, STANDARD, "f"]) for noted in ("m", "one")]
                same((words, of[0]), (words, of[1]))
    # (through a link, beside the file that it leads to)
    put_pair(FRONT, None)
    os.mkdir("there")
    put("there/m", OLD_ONE)
    os.symlink("there/m", "m")
    same(marked(), (0, ready(3), b""))
    same((content("there/m.1"), os.path.islink("m"), os.path.exists("m.1")), (OLD_ONE, True, False))
    same(verify()[0], 0)


def older_marks_with_a_torn_end():
    """It is refused, or cut off before they are put aside; where none is left of them there is nothing to go on from."""
    for torn in some([TORN_MARK, OLD_TWO[:-1], bytes(40)], 3):
        put_pair(FRONT, OLD_ONE + torn)
        same((torn, marked(), pair()), (torn, (1, b"", b"mls: m: torn after entry 0\n"), (FRONT, OLD_ONE + torn)))
        same((torn, marked("--recover")), (torn, (0, ready(3), b"mls: m: cut after entry 0\n")))
        same((torn, content("m.torn")), (torn, torn))
        is_put_aside(OLD_ONE, FRONT)
        put_pair(FRONT, torn)
        same((torn, marked("--recover")), (torn, (0, ready(3), b"mls: m: cut before entry 0\n")))
        same((torn, os.path.exists("m.1"), marks.cut(content("m"))[0]), (torn, False, HEAD))
        is_marked()


def what_a_crash_leaves_of_putting_aside():
    """The older file has both names, or the new one its own still: the next start goes on. Another file of the name stays, and is told."""
    for leave in (lambda: None, lambda: os.link("m", "m.1"), lambda: put("m.new", HEAD[:30]), lambda: (os.link("m", "m.1"), put("m.new", b"x"))):
        put_pair(FRONT, OLD_ONE)
        leave()
        same(marked("--recover"), (0, ready(3), b""))
        is_put_aside(OLD_ONE, FRONT)
    for other in (lambda: put("m.1", OLD_ONE), lambda: os.symlink("elsewhere", "m.1"), lambda: os.mkdir("m.1")):
        put_pair(FRONT, OLD_ONE)
        other()
        same((marked("--recover"), pair()), ((1, b"", failed("m.1", "link", errno.EEXIST)), (FRONT, OLD_ONE)))
        os.rmdir("m.1") if os.path.isdir("m.1") and not os.path.islink("m.1") else os.remove("m.1")


def older_marks_that_are_gone_or_changed():
    """They are needed as long as entries that they cover are those of the file that is served, or are asked for."""
    last = marks.read(OLD_TWO)[0].digest.hex()
    for ones, digest in ((OLD_ONE, marks.read(OLD_ONE)[0].digest.hex()), (OLD_ONE + OLD_TWO, last)):
        put_pair(FRONT, ones)
        same(marked(asked=b"ann get-read plans\n")[0], 0)
        journal, noted = pair()
        lines = ones.splitlines(keepends=True)
        os.remove("m.1")
        same((marked(), pair()), ((1, b"", failed("m.1", "open", errno.ENOENT)), (journal, noted)))
        gone = (1, b"", b"mls: m.1: file\n")
        same((verify(), ran_program(["journal", "--marks", "m", STANDARD, "f"])), (gone, gone))
        rows = [(b"", 3, b"another end"), (b"".join(lines[:-1]), 3, b"another end"), (b"x\n" + ones, 1, b"line 1: mark"),
                (ones[:-1], 1, b"torn %s" % (b"after entry 0" if len(lines) > 1 else b"before entry 0")),
                (changed(ones, 2, flip), 3, b"differs at entry 0"), (lines[0].replace(b"2026", b"2025", 1) + b"".join(lines[1:]), 0, b"")]
        for older, status, told in rows:
            put("m.1", older)
            wanted = (status, b"", b"mls: m.1: " + told + b"\n")
            if status:
                same((older, verify(), marked("--recover"), pair()), (older, wanted, wanted, (journal, noted)))
            else:
                # (their times are in no digest)
                same((older, verify()[0], marked()), (older, 0, (0, ready(4), b"")))
        put("m.1", ones)
        same(verify("f", "m", "--from", digest)[0], 3)
        same(verify("f", "m", "--digest", digest)[0], 0)


@needs_proof
def thread_that_cannot_be_started():
    """Where there is no room for its stack nothing is answered, and both files stay."""
    mebibyte, step = 1 << 20, 1 << 18

    def within(room, *flags):
        def narrow():
            resource.setrlimit(resource.RLIMIT_STACK, (8 * mebibyte, resource.getrlimit(resource.RLIMIT_STACK)[1]))
            resource.setrlimit(resource.RLIMIT_AS, (room, room))

        return served(b"", "f", *flags, preexec_fn=narrow)

    put_pair(FRONT, HEAD + ONE)
    least = next(room for room in range(step, 256 * step, step) if within(room)[0] == 0)
    for more in range(2, 7):
        same((more, within(least + more * mebibyte, *MARKED)), (more, (1, b"", b"mls: thread\n")))
        same(pair(), (FRONT, HEAD + ONE))


CHECKS = [*map(in_its_folder, [a_mark_for_each_batch, marks_that_a_service_goes_on_with, entries_that_have_no_mark,
               words_of_marks, lines_that_are_no_marks, marks_of_another_journal, torn_end_that_marks_cover,
               ends_of_marks_that_are_torn, both_ends_torn, marks_that_are_no_file, marks_that_are_in_use,
               marks_that_are_another_file, modes_of_marks_that_are_made, faults_before_the_marks,
               input_that_ends_otherwise, marks_of_more_than_a_piece, heads_that_are_torn, lines_that_are_no_heads,
               marks_of_another_start, older_marks_that_are_gone_on_from, older_marks_with_a_torn_end,
               what_a_crash_leaves_of_putting_aside, older_marks_that_are_gone_or_changed, thread_that_cannot_be_started])]
