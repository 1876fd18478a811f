"""What mls verify prints and refuses, and what it finds of journals that were forged, with yesterday's digest and without it. What is
expected was worked out from docs/FORMATS.md ("Marks", "mls verify") by marks.py and the policy in Python."""
import copy
import os
import subprocess
import threading
from errno import EIO

import marks
from durable_marks import FORMS, FRONT, HEAD, MARKED, ONE, TIMES, TORN_MARK, TWO, pair, put_pair, verified, verify
from outside import PROGRAM, SECONDS, in_its_folder, put, ran_program, same, some
from policy import State, entry_text
from question_texts import entry_of
from serving import IN_SESSIONS, STANDARD, Due, Serving, content, failed, ready, shim

NOTED = "5f0c" * 16
ZERO = "0" * 64


def of(digest):
    return digest.hex() if isinstance(digest, bytes) else digest


def refused(told, status, *words, journal="f", noted="m", start=STANDARD):
    """Marks are refused with a line, nothing is printed, and the files stay."""
    before = pair()
    same((words, ran_program(["verify", *words, start, journal, noted])), (words, (status, b"", b"mls: " + told + b"\n")))
    same(pair(), before)


def what_is_printed():
    """Of each front of marks, with none too."""
    for head, one, two in FORMS:
        found, begins = marks.read(one + two), marks.begin_of(head)
        for count in range(3):
            put_pair(FRONT, marks.text_of(found[:count], head))
            same(verify(), (0, verified(3, found[:count], (3, 2, 0)[count], begins), b""))
        put_pair(b"", head)
        same(verify(), (0, verified(0, [], begins=begins), b""))
        # (the times needn't ascend: the lines are those of the first mark and of the last, and how many are earlier than the one before)
        for times, back in (((2, 0, 1), 1), ((2, 1, 0), 2), ((0, 0, 0), 0), ((0, 1, 2), 0), ((1, 2, 1), 1)):
            found = marks.made(FRONT, [1, 2, 3], [TIMES[it] for it in times], begins, bool(head))
            put_pair(FRONT, marks.text_of(found, head))
            status, output, error = verify()
            same((times, status, output, error), (times, 0, verified(3, found), b""))
            same((times, b"back %d\n" % back in output, b"back" in output), (times, back > 0, back > 0))
    # (from one file to the other too)
    for late, back in ((TIMES[2], 1), (TIMES[0], 0)):
        older = marks.made(FRONT, [1], [late])
        head = marks.head(content(STANDARD), older[-1].digest)
        found = marks.made(FRONT, [3], [TIMES[1]], marks.digest(head), True, 1)
        put_pair(FRONT, marks.text_of(found, head))
        put("m.1", marks.text_of(older))
        same(verify(), (0, verified(3, older + found), b""))
        same((b"back 1\n" in verify()[1]), back == 1)


def files_that_are_no_regular_ones():
    """Marks that come through a pipe are verified too, and not synced; a file that can't be written is."""
    words = f"'{PROGRAM}' verify '{STANDARD}' f /dev/stdin"
    for head, one, two in FORMS:
        put_pair(FRONT, head + one + two)
        done = subprocess.run(["sh", "-c", f"cat m | {words}"], capture_output=True, timeout=SECONDS)
        same((done.returncode, done.stdout, done.stderr), (0, verified(3, marks.read(one + two)), b""))
    os.chmod("m", 0o400)
    os.symlink("m", "way")
    same(verify("f", "way")[0], 0)


def faults_of_a_verification():
    """In the order of their table: of two that apply the first is told."""
    put_pair(FRONT, HEAD + ONE + TWO)
    put("long.json", 8_388_609 * b" ")
    put("bad.json", content(STANDARD).replace(b'"T:A,B"', b'"T:A,A"'))
    refused(b"no.json: file", 1, start="no.json", noted="no", journal="none")
    refused(b"long.json: too long", 1, start="long.json", noted="no", journal="none")
    refused(b"no: file", 1, start="bad.json", noted="no", journal="none")
    refused(b"none: file", 1, start="bad.json", journal="none")
    refused(b"bad.json: start 5 Label", 1, start="bad.json")
    for journal, told, status in (
        (FRONT[:-1], b"f: line 3: entry 1 BadForm", 1),
        (FRONT.replace(b" no star", b" yes"), b"f: replay 2 Differs at 2 expected no star", 3),
        (FRONT.replace(b"\n2 ", b"\n3 "), b"f: replay 1 Number at 2", 3),
    ):
        put_pair(journal, HEAD + ONE + b"x\n")
        refused(told, status, "--digest", NOTED)
    put_pair(FRONT, HEAD + ONE + b"x\n")
    refused(b"m: line 3: mark", 1, "--digest", NOTED)
    put_pair(FRONT, HEAD + ONE + ONE)
    refused(b"m: differs at entry 0", 3, "--digest", NOTED)
    put_pair(FRONT, HEAD + ONE + TORN_MARK)
    refused(b"m: torn after entry 0", 1, "--digest", NOTED)
    put_pair(FRONT, TORN_MARK)
    refused(b"m: torn before entry 0", 1)
    put_pair(FRONT, HEAD + ONE + TWO)
    refused(b"m: no such digest", 3, "--digest", NOTED)
    os.mkdir("folder")
    refused(b"folder: file", 1, noted="folder")
    status, output, error = verify()
    same((status, ran_program(["verify", STANDARD, "f", "m"])), (0, (0, output, error)))
    with open("/dev/full", "wb") as full:
        done = subprocess.run([PROGRAM, "verify", STANDARD, "f", "m"], stdout=full, stderr=subprocess.PIPE, timeout=SECONDS)
        same((done.returncode, done.stderr), (1, b"mls: output: write\n"))


def words_of_a_verification():
    put_pair(FRONT, HEAD + ONE + TWO)
    for option in ("--from", "--digest"):
        for word in some(["", "x", NOTED[1:], NOTED + "0", NOTED.upper(), "g" + NOTED[1:], " " + NOTED[1:], "0x" + NOTED[2:]], 3):
            refused(f"{option} {word}: no digest".encode(), 2, f"{option}={word}", start="no.json")
    refused(b"--from x: no digest", 2, "--digest", "y", "--from", "x")
    for words in ([], ["f"], [STANDARD, "f"], [STANDARD, "f", "m", "m"], ["--frob", STANDARD, "f", "m"], ["--digest", STANDARD, "f", "m"]):
        status, output, error = ran_program(["verify", *words])
        same((words, status, output, bool(error)), (words, 2, b"", True))


def chains_that_begin_elsewhere():
    """With --from; the digest that a chain begins from is one of it, with marks and without."""
    begins = marks.after(marks.ZEROS, b"another journal\n")
    for head in (b"", HEAD):
        begin_elsewhere(begins, head)
    # (behind a head that goes on from an older file, which isn't there)
    head = marks.head(content(STANDARD), begins)
    found = marks.headed(FRONT, [1, 3], TIMES[:2], head)
    put_pair(FRONT, marks.text_of(found, head))
    refused(b"m.1: file", 1)
    refused(b"m: differs at entry 0", 3, "--from", of(found[0].digest))
    refused(b"m: differs at entry 0", 3, "--from", of(marks.digest(head)))
    same(verify("f", "m", "--from", of(begins)), (0, verified(3, found), b""))
    for digest in (begins, marks.digest(head), found[0].digest, found[1].digest):
        same(verify("f", "m", "--from", of(begins), "--digest", of(digest))[0], 0)
    refused(b"m: no such digest", 3, "--from", of(begins), "--digest", ZERO)


def begin_elsewhere(begins, head):
    found = marks.made(FRONT, [1, 3], TIMES[:2], begins, bool(head))
    put_pair(FRONT, marks.text_of(found, head))
    refused(b"m: differs at entry 0", 3)
    refused(b"m: differs at entry 0", 3, "--from", of(found[0].digest))
    same(verify("f", "m", "--from", of(begins)), (0, verified(3, found), b""))
    for digest in (begins, found[0].digest, found[1].digest):
        same(verify("f", "m", "--from", of(begins), "--digest", of(digest))[0], 0)
    refused(b"m: no such digest", 3, "--from", of(begins), "--digest", ZERO)
    put_pair(FRONT, head)
    same(verify("f", "m", "--from", of(begins)), (0, verified(3, [], 3, begins), b""))
    same(verify("f", "m", "--from", of(begins), "--digest", of(begins))[0], 0)
    same(verify("f", "m", "--digest", of(marks.begin_of(head)))[0], 0)
    refused(b"m: no such digest", 3, "--digest", of(begins))


# forgeries

SCRIPT = b"sec get-write root\n$x = sec create root S:B hi\nsec give read ann $x\nbob get-read memo\nbob level C\nbob get-read memo\nsec delete $x\n"
SCRIPT += b"bob release read memo\nann get-read plans\nann get-write plans\nsec create root T hi\nbob get-append plans\n"
# Behind so many entries each batch ended, and which of them yesterday's last one was.
ENDS, YESTERDAY = [2, 3, 6, 9, 12], 3
DAYS = [b"2026-11-26T08:00:01.203944Z", b"2026-11-26T08:00:07.000000Z", b"2026-11-26T12:00:00.000000Z", b"2026-11-26T17:31:40.551020Z",
        b"2026-11-27T08:00:00.000001Z"]


def journal_of(entries):
    """The journal of requests, each with the number and the reply that are due to it."""
    state, lines = State(content(STANDARD).decode()), []
    for number, it in enumerate(entries):
        reply = copy.deepcopy(state).decide(it.subject, it.action)
        state.apply(it.subject, it.action)
        lines.append(f"{number} {it.session} {it.subject} {entry_text(it.action)} {reply}\n")
    return "".join(lines).encode()


class Forged:
    """A journal that was kept, its marks, behind a head or older ones, and what was noted of them yesterday."""

    def __init__(self, head):
        self.head = head
        put("script", SCRIPT)
        same(ran_program(["run", "--journal", "true", STANDARD, "script"])[0], 0)
        self.journal = content("true")
        self.entries = [entry_of(line) for line in self.journal.decode().splitlines()]
        same((len(self.entries), journal_of(self.entries)), (ENDS[-1], self.journal))
        self.marks = self.made(self.journal, ENDS, DAYS)
        self.digest = of(self.marks[YESTERDAY].digest)

    def made(self, journal, ends, times):
        return marks.made(journal, ends, times, marks.begin_of(self.head), bool(self.head))

    def anew(self, journal):
        """The marks that a forger makes of a journal, with the same times."""
        count = journal.count(b"\n")
        ends = [it for it in ENDS if it < count] + [count]
        return self.made(journal, ends, DAYS[: len(ends)])

    def text(self, found):
        return marks.text_of(found, self.head)

    def is_found(self, what, journal, first):
        """With the marks as they were a forged journal differs at the first mark that covers an entry from `first` on. With marks made anew it
        is as good as the true one, and nothing tells but the digest that was noted."""
        put_pair(journal, self.text(self.marks))
        differs = next(it.number for it in self.marks if it.number >= first)
        same((what, verify("f", "m", "--digest", self.digest)), (what, (3, b"", b"mls: m: differs at entry %d\n" % differs)))
        anew = self.anew(journal)
        put_pair(journal, self.text(anew))
        same((what, verify()), (what, (0, verified(journal.count(b"\n"), anew), b"")))
        same((what, verify("f", "m", "--digest", self.digest)), (what, (3, b"", b"mls: m: no such digest\n")))


def forged_journals():
    """Entries that are changed, taken out, cut off or swapped, with replies computed anew: each is a journal that replays, and yesterday's
    digest finds each."""
    for head in (HEAD, b""):
        are_forged(Forged(head))


def are_forged(it):
    put_pair(it.journal, it.text(it.marks))
    same(verify("f", "m", "--digest", it.digest), (0, verified(12, it.marks), b""))
    rows = [("session", it.journal.replace(b"3 0 1 get", b"3 7 1 get"), 3)]
    for place in some([*range(9)], 4):
        rows.append(("taken out", journal_of(it.entries[:place] + it.entries[place + 1 :]), place))
    for first, other in some([(0, 1), (1, 8), (2, 3), (4, 5), (7, 8), (0, 8)], 3):
        swapped = list(it.entries)
        swapped[first], swapped[other] = swapped[other], swapped[first]
        rows.append(("swapped", journal_of(swapped), first))
    for count in some([0, 1, 3, 5, 8], 2):
        rows.append(("cut", journal_of(it.entries[:count]), count) if count else ("cut", it.journal.splitlines(keepends=True)[0], 1))
    for what, journal, first in rows:
        assert journal != it.journal
        it.is_found(what, journal, first)
    # (what came after the digest was noted can be forged: nothing tells)
    put_pair(cut := journal_of(it.entries[:9]), it.text(it.anew(cut)))
    same(verify("f", "m", "--digest", it.digest)[0], 0)
    # (so can the times of older marks; behind a head they differ, and made anew they haven't the digest)
    for place in range(YESTERDAY + 1):
        other = [mark._replace(time=DAYS[4]) if at == place else mark for at, mark in enumerate(it.marks)]
        put_pair(it.journal, it.text(other))
        told = (3, b"", b"mls: m: differs at entry %d\n" % it.marks[place].number) if it.head else (0, verified(12, other), b"")
        same((place, verify("f", "m", "--digest", it.digest)), (place, told))
        put_pair(it.journal, it.text(it.made(it.journal, ENDS, [mark.time for mark in other])))
        same((place, verify()[0], verify("f", "m", "--digest", it.digest)[0]), (place, 0, 3 if it.head else 0))
    # (marks that were cut with the journal, or alone, before the digest)
    for journal in (it.journal, journal_of(it.entries[:3])):
        put_pair(journal, it.text(it.marks[:2]))
        same(verify("f", "m", "--digest", it.digest), (3, b"", b"mls: m: no such digest\n"))
    put_pair(it.journal, it.head)
    same(verify("f", "m", "--digest", it.digest), (3, b"", b"mls: m: no such digest\n"))


def start_that_was_forged():
    """Permissions that nobody had when the digest was noted, in a start of which the same replies follow: the marks are of another start, and made
    anew they haven't the digest."""
    it = Forged(HEAD)
    invented = content(STANDARD).replace(b'"matrix": [', b'"matrix": [{"subject": "aud", "object": "tool", "modes": ["read"]}, ', 1)
    assert invented != content(STANDARD)
    put("invented.json", invented)
    put_pair(it.journal, it.text(it.marks))
    same(ran_program(["replay", "invented.json", "f"])[0], 0)
    refused(b"m: of another start", 3, start="invented.json")
    head = marks.head(invented)
    put_pair(it.journal, marks.text_of(marks.headed(it.journal, ENDS, DAYS, head), head))
    same(ran_program(["verify", "invented.json", "f", "m"])[0], 0)
    refused(b"m: no such digest", 3, "--digest", it.digest, start="invented.json")


def one_byte_of_a_journal_that_was_changed():
    """Each in turn: refused as mls replay refuses it, or where it replays, since the marks differ; and where they were made anew, since
    yesterday's digest isn't there."""
    it = Forged(HEAD)
    front = b"".join(it.journal.splitlines(keepends=True)[: ENDS[YESTERDAY]])
    seen = set()
    for place in some([*range(len(front))], 24):
        for by in some([1, 2, 16], 3):
            journal = it.journal[:place] + bytes([it.journal[place] ^ by]) + it.journal[place + 1 :]
            put_pair(journal, it.text(it.marks))
            replayed = ran_program(["replay", STANDARD, "f"])
            number = journal[:place].count(b"\n")
            told = b"mls: m: differs at entry %d\n" % next(mark.number for mark in it.marks if mark.number >= number)
            wanted = (3, b"", told) if replayed[0] == 0 else replayed
            seen.add(wanted[2].split(b" ")[2])
            same((place, by, verify("f", "m", "--digest", it.digest)), (place, by, wanted))
            if replayed[0] == 0:
                put_pair(journal, it.text(it.anew(journal)))
                same((place, by, verify("f", "m", "--digest", it.digest)), (place, by, (3, b"", b"mls: m: no such digest\n")))
    assert {b"line", b"replay"} <= seen, seen


def verification_beside_a_service():
    """It looks at as many marks as there were when it began, and tells of each digest that the chain still has at the end."""
    put_pair(b"", b"")
    digests, first = [], 0
    with Serving("f", "--sessions", *MARKED) as run:
        run.says(ready(0))
        stop = threading.Event()

        def verify_again():
            while not stop.is_set():
                digests.append(verify("f", "m"))

        beside = threading.Thread(target=verify_again)
        beside.start()
        for _ in range(30):
            due = Due(IN_SESSIONS, first)
            run.ask(due.asked)
            run.says(due.answers)
            first = due.next
        stop.set()
        beside.join()
        same(run.end(), (0, b"", b""))
    assert digests
    for status, output, error in digests:
        # (a last line may be half there while a service writes it)
        assert status == 0 or error.startswith(b"mls: f: line "), error
        if status == 0:
            same(verify("f", "m", "--digest", output.split()[3].decode())[0], 0)
            break


def marks_are_synced_before_they_are_told():
    """Where that fails nothing is printed, and the status is 5."""
    put_pair(FRONT, HEAD + ONE + TWO)
    for number, wanted in ((1, (5, b"", failed("m", "sync", EIO))), (2, (0, verified(3, marks.read(ONE + TWO)), b""))):
        env = shim(of="m", call="sync", fail=number, errno=EIO)
        done = subprocess.run([PROGRAM, "verify", STANDARD, "f", "m"], capture_output=True, timeout=SECONDS, env=env)
        same((number, (done.returncode, done.stdout, done.stderr)), (number, wanted))


CHECKS = [*map(in_its_folder, [what_is_printed, files_that_are_no_regular_ones, faults_of_a_verification,
           words_of_a_verification, chains_that_begin_elsewhere, forged_journals, start_that_was_forged,
           one_byte_of_a_journal_that_was_changed, verification_beside_a_service, ])]
OVER_THE_SHIM = [*map(in_its_folder, [marks_are_synced_before_they_are_told])]
