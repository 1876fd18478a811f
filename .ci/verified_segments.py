"""mls verify over a journal in segments, one of whose files is in memory at a time: what it says is what it says of the files put together."""
import itertools
import os
import subprocess
import threading

import marks
from durable_marks import HEAD, flip, verified, verify
from marked_segments import BOTH, filled, in_small_batches, is_marked, put_marks
from outside import IS_PROVED, PROGRAM, SECONDS, in_its_folder, needs_proof, put, ran_program, same, some
from segments import joined, numbered, remove, segment, state
from serving import IN_SESSIONS, STANDARD, Due, Serving, content, ready

JOURNAL_LIMIT = 268_435_456
# How many lines a journal has: over a trial, which takes seconds for each run, just enough for a few files.
LINES = 1_500 if IS_PROVED else 450


def is_alike(journal, *words, start=STANDARD):
    """It says of a journal in segments what it says of its files put together; returns the status and the error text."""
    put("whole", joined(journal))
    of = [ran_program(["verify", *words, start, name, "m"]) for name in (journal, "whole")]
    same((words, of[0]), (words, (*of[1][:2], of[1][2].replace(b"mls: whole: ", b"mls: %s: " % journal.encode()))))
    return of[0][0], of[0][2]


def ends_of(journal):
    """Behind how many entries each file ends."""
    counts = [content(segment(journal, number)).count(b"\n") for number in numbered(journal)] + [content(journal).count(b"\n")]
    return [*itertools.accumulate(it for it in counts if it)]


def times_of(count):
    return [b"2026-11-26T08:00:%02d.000000Z" % (place % 60) for place in range(count)]


def made(journal, ends):
    """The marks of all files as one, whose batches end there."""
    return marks.headed(joined(journal), ends, times_of(len(ends)), HEAD)


def marks_of_each_file():
    """One mark or line that is another, in each file; marks that end in each."""
    for fill, count in some([(filled, LINES), (in_small_batches, 500)], 2):
        fill("s", count)
        true = is_marked("s")
        text = marks.text_of(true).splitlines(keepends=True)
        places = sorted({place for end in ends_of("s") for place, it in enumerate(true) if abs(it.number + 1 - end) < 2} | {0, 1, len(true) - 1})
        for place in places if IS_PROVED else [0, places[-1]]:
            last = b"after entry %d" % true[place - 1].number if place else b"before entry 0"
            line = text[place]
            digest = line.split()[2]
            for other, status, told in some([
                (line.replace(digest, flip(digest)), 3, b"differs at entry %d" % true[place].number),
                (b"x" + line, 1, b"line %d: mark" % (place + 2)),
                (b"\n" + line, 1, b"line %d: mark" % (place + 2)),
                (line[:40] + b"\0" + line[41:], 1, b"torn " + last),
                (70_000 * b"y" + b"\n" + line, 1, b"line %d: mark" % (place + 2)),
                (70_000 * b"y" + b"\0\n" + line, 1, b"torn " + last),
                (line + line, 3, b"differs at entry %d" % true[place].number),
            ], 3):
                put("m", HEAD + b"".join([*text[:place], other, *text[place + 1 :]]))
                same((place, other[:20], is_alike("s")), (place, other[:20], (status, b"mls: m: " + told + b"\n")))
            put("m", HEAD + b"".join(text[:place]))
            same((place, is_alike("s")), (place, (0, b"")))
            for end in some([line[:-1], line[:30], 70_000 * b"z"], 3):
                put("m", HEAD + b"".join(text[:place]) + end)
                same((place, is_alike("s")), (place, (1, b"mls: m: torn " + last + b"\n")))


def marks_over_files():
    """Marks that cover entries of two files or more agree as they do with the one journal, and so do those that begin later: they differ."""
    filled("o", LINES)
    ends, count = ends_of("o"), joined("o").count(b"\n")
    first, second, third = ends[:3]
    for chosen in some([[count], [first - 1, first + 1, count], [first, third], [third, count - 1], [2, second - 1, third + 1], ends[1:], ends[::2],
                       [end + 3 for end in ends[:-1]], [end - 3 for end in ends]], 3):
        put_marks(found := made("o", chosen))
        same((chosen, is_alike("o")), (chosen, (0, b"")))
        for place in sorted({0, len(found) - 1}):
            for it in some([found[place]._replace(digest=bytes(32)), found[place]._replace(number=found[place].number - 1)], 2):
                put_marks([*found[:place], it, *found[place + 1 :]])
                same((chosen, is_alike("o")[0]), (chosen, 3))
    # (of the files from the second on alone)
    later = joined("o").splitlines(keepends=True)[first:]
    begun = [it._replace(number=it.number + first) for it in marks.headed(b"".join(later), [second - first, count - first], times_of(2), HEAD)]
    for found in (begun, begun[1:]):
        put_marks(found)
        same(is_alike("o"), (3, b"mls: m: differs at entry %d\n" % found[0].number))
    # (of entries that no file has)
    put_marks([*made("o", ends), begun[0]._replace(number=count)])
    same(is_alike("o"), (3, b"mls: m: differs at entry %d\n" % count))


def digests_of_each_file():
    """A digest is found in whichever file it is, and the chain may begin elsewhere."""
    filled("d", LINES)
    ends = ends_of("d")
    other = marks.after(marks.ZEROS, b"another journal\n")
    next_head = marks.head(content(STANDARD), other)
    # (what is told without --from: a chain that begins elsewhere differs at its first mark, and one that goes on from older marks needs them)
    differs = (3, b"mls: m: differs at entry %d\n" % (ends[0] - 1))
    rows = [(marks.ZEROS, b"", marks.ZEROS, (0, b"")), (other, b"", other, differs),
            (marks.digest(HEAD), HEAD, marks.digest(HEAD), (0, b"")), (other, next_head, marks.digest(next_head), (1, b"mls: m.1: file\n"))]
    for begins, head, first, told in rows:
        found = marks.made(joined("d"), ends, times_of(len(ends)), first, bool(head))
        put("m", marks.text_of(found, head))
        of = ["--from", begins.hex()]
        for digest in (begins, first, *some([it.digest for it in found], 3)):
            same((digest, is_alike("d", *of, "--digest", digest.hex())), (digest, (0, b"")))
        same(is_alike("d", *of, "--digest", "5f0c" * 16), (3, b"mls: m: no such digest\n"))
        same((head, is_alike("d")), (head, told))
    put("m", b"")
    same(is_alike("d", *of, "--digest", begins.hex()), (0, b""))


def faults_of_files():
    """A fault of a later file is told before that of a mark of an earlier one, and a file that can't be read before a start that is refused."""
    filled("f", LINES)
    true, closed = is_marked("f"), numbered("f")
    put("bad.json", content(STANDARD).replace(b'"T:A,B"', b'"T:A,A"'))
    lines = marks.text_of(true).splitlines(keepends=True)
    put("m", HEAD + b"x" + b"".join(lines))
    same(is_alike("f", "--digest", "5f0c" * 16), (1, b"mls: m: line 2: mark\n"))
    for number in (closed[1], closed[-1]):
        path = segment("f", number)
        os.chmod(path, 0o600)
        text = content(path)
        for changed, status in ((text.replace(b" yes\n", b" no star\n", 1), 3), (text.replace(b"\n", b"\r\n", 1), 1)):
            put(path, changed)
            same((number, is_alike("f")[0]), (number, status))
            assert b"mls: f: " in is_alike("f")[1]
        put(path, text)
    last = state("f", numbered("f", "state.")[-1])
    text = content(last)
    put(last, text.replace(b"permit aud read plans\n", b"", 1))
    same(verify("f"), (3, b"", b"mls: " + last.encode() + b": differs\n"))
    put(last, text)
    same(is_alike("f", start="bad.json"), (1, b"mls: bad.json: start 5 Label\n"))
    for path in (segment("f", closed[0]), segment("f", closed[-1]), "f"):
        text = content(path)
        os.remove(path)
        os.mkdir(path)
        same((path, ran_program(["verify", "bad.json", "f", "m"])), (path, (1, b"", b"mls: f: file\n")))
        os.rmdir(path)
        put(path, text)
    same(ran_program(["verify", "bad.json", "f", "no"]), (1, b"", b"mls: no: file\n"))
    os.mkdir("folder")
    same(verify("f", "folder"), (1, b"", b"mls: folder: file\n"))
    put_marks(true)
    words = f"'{PROGRAM}' verify '{STANDARD}' f /dev/stdin"
    done = subprocess.run(["sh", "-c", f"cat m | {words}"], capture_output=True, timeout=SECONDS)
    same((done.returncode, done.stdout, done.stderr), (0, verified(joined("f").count(b"\n"), true), b""))


def verification_while_segments_are_closed():
    """It looks at as many marks as there were when it began, whichever files are closed meanwhile."""
    said, first, stop = [], 0, threading.Event()
    remove("b")
    with Serving("b", "--sessions", *BOTH) as run:
        run.says(ready(0))

        def verify_again():
            while not stop.is_set():
                said.append(verify("b"))

        beside = threading.Thread(target=verify_again)
        beside.start()
        for _ in range(60 if IS_PROVED else 40):
            due = Due(IN_SESSIONS, first)
            run.ask(due.asked)
            run.says(due.answers)
            first = due.next
        stop.set()
        beside.join()
        same(run.end(), (0, b"", b""))
    assert numbered("b") and said
    for status, output, error in said:
        # (a last line may be half there while a service writes it)
        assert status == 0 or error.startswith(b"mls: b: line "), error
        if status == 0:
            same(verify("b", "m", "--digest", output.split()[3].decode())[0], 0)


def written(journal, files, bytes_of_each):
    """A journal in so many files of long lines, with a mark for each thousand entries; returns how many entries it has, and the marks."""
    label = b"15:" + b",".join(b"%d" % number for number in range(256))
    entry = b"0 0 create 0 " + label + b" " + label + b" undefined\n"
    number, digest, found = 0, marks.digest(HEAD), []
    for place in range(files):
        with open(journal if place + 1 == files else segment(journal, number), "wb") as file:
            while file.tell() < bytes_of_each:
                batch = b"".join(b"%d " % it + entry for it in range(number, number + 1_000))
                file.write(batch)
                number += 1_000
                digest = marks.after(digest, batch, marks.stamp(number - 1, times_of(1)[0]))
                found.append(marks.Mark(number - 1, times_of(1)[0], digest))
    put(f"{journal}.start", content(STANDARD))
    return number, found


def peak(words):
    """What a run says, and the most bytes that it had in memory."""
    run = subprocess.Popen([PROGRAM, *words], stdout=subprocess.PIPE, stderr=subprocess.PIPE)
    output, error = run.stdout.read(), run.stderr.read()
    _, status, usage = os.wait4(run.pid, 0)
    run.returncode = os.waitstatus_to_exitcode(status)
    return (run.returncode, output, error), usage.ru_maxrss * 1024


@needs_proof
def journal_longer_than_a_file_may_be():
    """All files together have more bytes than one may have, and memory has one of them at a time."""
    each = JOURNAL_LIMIT // 16
    count, found = written("l", 18, each)
    put_marks(found)
    assert sum(os.path.getsize(it) for it in [*(segment("l", number) for number in numbered("l")), "l"]) > JOURNAL_LIMIT
    said, most = peak(["verify", "--digest", found[0].digest.hex(), STANDARD, "l", "m"])
    same(said, (0, verified(count, found), b""))
    assert most < 5 * each, f"{most} bytes"
    # (a mark that covers more bytes than a file may have differs)
    put_marks([found[0], found[-1]])
    same(verify("l"), (3, b"", b"mls: m: differs at entry %d\n" % found[-1].number))
    remove("l")


CHECKS = [*map(in_its_folder, [marks_of_each_file, marks_over_files, digests_of_each_file, faults_of_files,
           verification_while_segments_are_closed, journal_longer_than_a_file_may_be])]
