"""What mls serve does with its words and files, and what it tells: a row for each line of the table in FORMATS.md, each status and
each flag."""
import contextlib
import errno
import io
import os
import random
import resource
import types

import full_check
import outside
from checks import Counts
from outside import SECONDS, needs_proof, put, ran, same
from serving import (
    LINES, REQUESTS, STANDARD, Due, Serving, content, failed, is_kept, is_refused, mode_of, ready, served, status_of,
)

FOUR = b"ann get-read plans\nbob get-read memo\nann release read plans\nann check read plans\n"
FOUR_ANSWERS = b"yes\nno star\nyes\nnot held\n"
FOUR_JOURNAL = b"0 0 0 get-read 1 yes\n1 0 1 get-read 2 no star\n2 0 0 release read 1 yes\n"
JOURNAL_LIMIT = 268_435_456
# The most bytes that stand behind the last sync, and so behind the legal front of a file that a crash left.
BATCH = 65_536
# No entry's line has more bytes: a line is asked where there is room for so many.
ROOM = 2_265
UNFINISHED = b"mls: input: unfinished line\n"


def service_from_its_beginning():
    """The journal is made, and a later service goes on in it."""
    same(served(FOUR, "j"), (0, ready(0) + FOUR_ANSWERS, b""))
    same(content("j"), FOUR_JOURNAL)
    same(served(b"", "j"), (0, ready(3), b""))
    same(served(b"ann get-read plans\n", "j"), (0, ready(3) + b"yes\n", b""))
    same(content("j"), FOUR_JOURNAL + b"3 0 0 get-read 1 yes\n")
    same(ran(words=["replay", STANDARD, "j"]), (0, b"entries 4\nsecure yes\n", b""))
    same(ran(FOUR, ["serve", "--journal=k", STANDARD]), (0, ready(0) + FOUR_ANSWERS, b""))
    same(content("k"), FOUR_JOURNAL)


def journal_of_a_run():
    """The journal is that of a run of the same script, and a service goes on in one that a run wrote."""
    script, answers = outside.example("standard.script"), outside.example("standard.answers")
    put("script", script)
    status, output, error = ran(words=["run", "--journal", "run.journal", STANDARD, "script"])
    same((status, error), (0, b""))
    same(served(script, "serve.journal"), (0, ready(0) + answers, b""))
    same(content("serve.journal"), content("run.journal"))
    count = content("run.journal").count(b"\n")
    same(served(b"", "run.journal", "--recover"), (0, ready(count), b""))


def session_that_asks():
    for flags, session in (((), b"0"), (("--session", "7"), b"7"), (("--session=4294967295",), b"4294967295")):
        put("s", b"")
        same(served(b"ann get-read plans\n", "s", *flags), (0, ready(0) + b"yes\n", b""))
        same(content("s"), b"0 " + session + b" 0 get-read 1 yes\n")


def each_action():
    """A line of each kind is answered, and its entry is in the file."""
    rows = [(b"sec get-write root", b"yes", b"2 get-write 0 yes"),
            (b"$x = sec create root S:B hi", b"created 4", b"2 create 0 2:1 1 created 4"),
            (b"sec give read ann $x", b"yes", b"2 give read 0 4 yes"),
            (b"sec relabel $x S:B,A", b"yes", b"2 relabel 4 2:0,1 yes"),
            (b"ann get-read $x", b"no simple", b"0 get-read 4 no simple"),
            (b"sec relabel $x S:A", b"yes", b"2 relabel 4 2:0 yes"), (b"ann get-read $x", b"yes", b"0 get-read 4 yes"),
            (b"sec rescind read ann $x", b"yes", b"2 rescind read 0 4 yes"), (b"ann check read $x", b"not held", None),
            (b"ann get-read plans", b"yes", b"0 get-read 1 yes"),
            (b"ann get-write plans", b"yes", b"0 get-write 1 yes"),
            (b"bob get-append plans", b"no integrity", b"1 get-append 1 no integrity"),
            (b"bob get-execute tool", b"yes", b"1 get-execute 3 yes"), (b"bob level C", b"yes", b"1 level 1 yes"),
            (b"bob level T", b"no ceiling", b"1 level 3 no ceiling"),
            (b"bob level U:A", b"no ceiling", b"1 level 0:0 no ceiling"),
            (b"ann release write plans", b"yes", b"0 release write 1 yes"),
            (b"sec delete $x", b"yes", b"2 delete 4 yes"), (b"sec delete root", b"no root", b"2 delete 0 no root"),
            (b"sec create memo T lo", b"no authority", b"2 create 2 3 0 no authority")]
    asked = b"".join(line + b"\n" for line, _, _ in rows)
    answers = b"".join(answer + b"\n" for _, answer, _ in rows)
    entries = [entry for _, _, entry in rows if entry]
    same(served(asked, "each"), (0, ready(0) + answers, b""))
    same(content("each"), b"".join(b"%d 0 %s\n" % row for row in enumerate(entries)))


def words_that_are_not_understood():
    rows = [[], ["--journal", "w"], [STANDARD], ["--journal", "w", STANDARD, STANDARD], ["--frob", "--journal", "w", STANDARD]]
    rows += [[f"--session={word}", "--journal", "w", STANDARD] for word in ("", "x", "-1", "4294967296", "1.0")]
    rows += [["--recover=yes", "--journal", "w", STANDARD], ["--serial", "--journal", "w", STANDARD]]
    for words in rows:
        status, output, error = ran(FOUR, ["serve", *words])
        same((words, status, output), (words, 2, b""))
        assert error.endswith(b"\n"), f"nothing is said of {words}"
        assert not os.path.exists("w"), f"{words} made a journal"


def start_that_is_refused():
    """It is told before the journal is looked at, also where another service holds that; none is made."""
    put("bad.json", content(STANDARD).replace(b'"T:A,B"', b'"T:A,A"'))
    put("long.json", 8_388_609 * b" ")
    with Serving("held") as held:
        held.says(ready(0))
        for start, told in (("bad.json", b"start 5 Label"), ("none.json", b"file"), ("long.json", b"too long"), ("/", b"file")):
            for journal in ("none", "held", "no/folder"):
                is_refused(start.encode() + b": " + told, journal, start=start)
    assert not os.path.exists("none"), "a journal was made"


def journal_that_is_no_file():
    os.mkdir("folder")
    os.mkfifo("fifo")
    rows = [("folder", "open", errno.EISDIR), ("fifo", "sync", errno.EINVAL), ("no/folder", "open", errno.ENOENT)]
    rows += [("/dev/null", "sync", errno.EINVAL), (f"{STANDARD}/j", "open", errno.ENOTDIR), ("", "open", errno.ENOENT)]
    for journal, call, number in rows:
        wanted = (status_of(call), b"", failed(journal, call, number))
        same((journal, served(b"ann get-read plans\n", journal)), (journal, wanted))


def journal_by_a_link():
    os.mkdir("there")
    os.symlink("there/j", "link")
    same(served(FOUR, "link"), (0, ready(0) + FOUR_ANSWERS, b""))
    same(content("there/j"), FOUR_JOURNAL)


def journal_that_is_in_use():
    with Serving("u") as first:
        first.says(ready(0))
        first.ask(FOUR)
        first.says(FOUR_ANSWERS)
        for flags in ((), ("--recover",)):
            is_refused(b"u: in use", "u", *flags)
        os.link("u", "v")
        is_refused(b"v: in use", "v")
        first.ask(b"ann get-read plans\n")
        first.says(b"yes\n")
        same(first.end(), (0, b"", b""))
    same(served(b"", "u"), (0, ready(4), b""))


@needs_proof
def journal_that_is_too_long():
    put("long", FOUR_JOURNAL)
    os.truncate("long", JOURNAL_LIMIT + 1)
    for flags in ((), ("--recover",)):
        is_refused(b"long: too long", "long", *flags)
        same(os.path.getsize("long"), JOURNAL_LIMIT + 1)


# What stands behind three entries and is cut off, since a crash may have left it: a first line that begins as that of entry 3,
# but for zero bytes and a missing end, and has a zero byte or no newline, and then anything.
TORN = [b"3", b"3 ", b"3 0 0 get-read 1 ye", b"3 0 0 get-read 1 yes", b"3 0 0 get-read 1 \0es\n", b"\0",
        b"\0 0 0 get-read 1 yes\n", 100 * b"\0", b"3\0", b"3\0x\n", b"\0\0x",
        b"3 0 0 get-read 1 ye\0\n4 0 0 get-read 1 yes\n", b"\0\0\0\0\n\n\n", b"3 x", b"3 anything", b"3 \0\n",
        b"3 \0\n" + b"x\n", b"3 " + (BATCH - 2) * b"x", BATCH * b"\0",
        b"3 0 0 get-read 1 \0" + (BATCH - 19) * b"\n" + b"\n", b"3 \xff"]


def end_that_is_torn():
    """It is left as it is without --recover; with it, what was there is kept, and the service goes on."""
    for front, after in ((FOUR_JOURNAL, b"after entry 2"), (b"", b"before entry 0")):
        count = front.count(b"\n")
        for tail in TORN:
            tail = tail if front else tail.replace(b"3", b"0").replace(b"4", b"1")
            put("t", front + tail)
            if os.path.exists("t.torn"):
                os.remove("t.torn")
            is_refused(b"t: torn " + after, "t")
            same(content("t"), front + tail)
            assert not os.path.exists("t.torn"), "something was kept"
            wanted = (0, ready(count) + b"yes\n", b"mls: t: cut " + after + b"\n")
            same((tail, served(b"ann get-read plans\n", "t", "--recover")), (tail, wanted))
            same((tail, content("t.torn")), (tail, tail))
            same(content("t"), front + b"%d 0 0 get-read 1 yes\n" % count)


def ends_that_are_torn_one_after_the_other():
    """Each is kept in a file of its own. What is there stays, whatever it is, and no link is followed."""
    for number in range(3):
        put("again", FOUR_JOURNAL + b"3 0 torn %d" % number)
        same(served(b"", "again", "--recover"), (0, ready(3), b"mls: again: cut after entry 2\n"))
        same(content("again"), FOUR_JOURNAL)
        kept = ["again.torn", "again.torn.1", "again.torn.2"][: number + 1]
        same([content(name) for name in kept], [b"3 0 torn %d" % at for at in range(number + 1)])
    put("elsewhere", b"another's\n")
    os.symlink("elsewhere", "again.torn.3")
    os.symlink("nowhere", "again.torn.4")
    os.mkdir("again.torn.5")
    put("again", FOUR_JOURNAL + b"3 0 torn last")
    same(served(b"", "again", "--recover"), (0, ready(3), b"mls: again: cut after entry 2\n"))
    same((content("again"), content("again.torn.6")), (FOUR_JOURNAL, b"3 0 torn last"))
    same((content("elsewhere"), os.path.lexists("nowhere"), os.readlink("again.torn.4")), (b"another's\n", False, "nowhere"))
    same([content(name) for name in ("again.torn", "again.torn.2")], [b"3 0 torn 0", b"3 0 torn 2"])


def modes_of_files_that_are_made():
    """What is made its owner alone reads and writes, or less; what was there keeps its mode."""
    for umask, mode in ((0, 0o600), (0o077, 0o600), (0o277, 0o400)):
        for name in ("mode", "mode.torn"):
            if os.path.exists(name):
                os.remove(name)
        same(served(FOUR, "mode", preexec_fn=lambda: os.umask(umask)), (0, ready(0) + FOUR_ANSWERS, b""))
        same((umask, mode_of("mode")), (umask, mode))
        os.chmod("mode", 0o644)
        put("mode", FOUR_JOURNAL + b"3")
        same(served(b"", "mode", "--recover", preexec_fn=lambda: os.umask(umask))[:2], (0, ready(3)))
        same((umask, mode_of("mode"), mode_of("mode.torn")), (umask, 0o644, mode))


# What stands behind three entries, and why a crash can't have left it, with the status.
DAMAGE = [(b"4 0 0 get-read 1 yes\n", b"replay 1 Number at 3", 3),
          (b"3 0 0 get-read 1 no star\n", b"replay 2 Differs at 3 expected yes", 3),
          (b"3 0 0 get-read 1 no star\nx", b"replay 2 Differs at 3 expected yes", 3),
          (b"0 0 0 get-read 1 yes\n" + 2 * BATCH * b"x", b"replay 1 Number at 3", 3),
          (b"3 0 0 get-read 1 yes\n5 0 0 get-read 1 yes\n", b"replay 1 Number at 4", 3),
          ((BATCH + 1) * b"x", b"line 4: entry 1 BadForm", 1), (BATCH * b"x" + b"\n", b"line 4: entry 1 BadForm", 1),
          (b"x 0 0 get-read 1 yes\n" + BATCH * b"\n", b"line 4: entry 2 BadNumber", 1),
          (b"3 0 0 get-read 1 yes\nx\n" + (BATCH - 1) * b"\n", b"line 5: entry 1 BadForm", 1)]


# The same of at most 65,536 bytes, and how mls replay says what it is; --cut-damage cuts it off all the same.
SMALL_DAMAGE = [(b"\n", b"line 4: entry 1 BadForm"), (b"x\n", b"line 4: entry 1 BadForm"),
                (b"x", b"line 4: entry 1 BadForm"), (b"4 0 0 get-read 1 yes", b"line 4: entry 1 BadForm"),
                (b"30 0 0 get-read 1 yes", b"line 4: entry 1 BadForm"), (b"3x", b"line 4: entry 1 BadForm"),
                (b"\0x", b"line 4: entry 1 BadForm"), (b"03 0 0 get-read 1 yes\n", b"line 4: entry 2 BadNumber"),
                (b"x 0 0 get-read 1 yes\n", b"line 4: entry 2 BadNumber"), (b"3 0 0 get-read 1 yes\r\n", None),
                (b"3 0 0 get-reap 1 yes\n", None), (b"3 0 0 get-read 1 yes 4 0 0 get-read 1 yes\n", None),
                (b"\xff\n", b"line 4: entry 1 BadForm"), (b"\0\n3 0 0 get-read 1 yes\n", None), (b"3\n\0", None),
                (b"\0\n", b"line 4: entry 1 BadForm"), (b"\0" + (BATCH - 1) * b"\n", b"line 4: entry 1 BadForm"),
                (b"x\n3 0 0 get-read 1 yes\n", b"line 4: entry 1 BadForm"), (BATCH * b"x", b"line 4: entry 1 BadForm"),
                ((BATCH - 1) * b"x" + b"\n", b"line 4: entry 1 BadForm"), (BATCH * b"\n", b"line 4: entry 1 BadForm")]


def damage_that_is_cut_only_where_that_is_asked():
    """It is refused as mls replay refuses it; with --cut-damage it is kept and cut off, and the service goes on."""
    for tail, told in SMALL_DAMAGE:
        put("sd", FOUR_JOURNAL + tail)
        status, output, error = ran(words=["replay", STANDARD, "sd"])
        assert (status, output) == (1, b"") and told in (None, error[len(b"mls: sd: "):-1]), (tail, status, error)
        for flags in ((), ("--recover",)):
            same((tail, flags, served(b"ann get-read plans\n", "sd", *flags)), (tail, flags, (1, b"", error)))
            same(content("sd"), FOUR_JOURNAL + tail)
        assert not os.path.exists("sd.torn"), "something was kept"
        wanted = (0, ready(3) + b"yes\n", b"mls: sd: cut after entry 2\n")
        same((tail, served(b"ann get-read plans\n", "sd", "--recover", "--cut-damage")), (tail, wanted))
        same((content("sd"), content("sd.torn")), (FOUR_JOURNAL + b"3 0 0 get-read 1 yes\n", tail))
        os.remove("sd.torn")


def one_byte_that_was_changed():
    """A journal in whose middle a byte was changed loses nothing by --recover, nor does a file that is no journal."""
    due = Due(40 * REQUESTS)
    place = due.journal.index(b"\n5 ") + 1
    for at in (place, place + 2, place + 4):
        damaged = due.journal[:at] + b"x" + due.journal[at + 1 :]
        for journal in (damaged, damaged.replace(b"\n", b"\r\n"), content(STANDARD), b"not a journal\n", b"not a journal"):
            put("byte", journal)
            status, output, error = ran(words=["replay", STANDARD, "byte"])
            for flags in ((), ("--recover",)):
                same((flags, served(b"", "byte", *flags)), (flags, (status, b"", error)))
                same(content("byte"), journal)
    assert not os.path.exists("byte.torn"), "something was kept"


def words_of_damage():
    """--cut-damage stands beside --recover alone."""
    status, output, error = ran(FOUR, ["serve", "--cut-damage", "--journal", "wd", STANDARD])
    same((status, output), (2, b""))
    assert error.endswith(b"\n") and not os.path.exists("wd")


def journal_that_no_crash_leaves():
    """It is told as mls replay tells it, whatever the flags, and nothing is changed."""
    for tail, told, status in DAMAGE:
        put("d", FOUR_JOURNAL + tail)
        for flags in ((), ("--recover",), ("--recover", "--cut-damage")):
            is_refused(b"d: " + told, "d", *flags, status=status)
            same(content("d"), FOUR_JOURNAL + tail)
    assert not os.path.exists("d.torn"), "something was kept"


# What no crash leaves behind three entries either, and is no entry; what replay says of it.
DAMAGED_END = [
    (b"\n", b"1 BadForm"), (b"x", b"1 BadForm"), (b"x\n", b"1 BadForm"), (b"x\n3 0 0 get-read 1 yes\n", b"1 BadForm"), (b"4", b"1 BadForm"),
    (b"4 0 0 get-read 1 yes", b"1 BadForm"), (b"30 0 0 get-read 1 yes", b"1 BadForm"), (b"03 0 0 get-read 1 yes", b"1 BadForm"),
    (b"3 0 0 get-read 1 yes\r\n", b"4 BadReply"), (b"03 0 0 get-read 1 yes\n", b"2 BadNumber"), (b"3 0 0 gxt-read 1 yes\n", b"1 BadForm"),
    (b"3 0 0 get-read 1 yes 4 0 0 get-read 1 yes\n", b"4 BadReply"), (b"\xff\n", b"1 BadForm"), (b"4\0", b"1 BadForm"), (b"\0x 0\n", b"1 BadForm"),
    (BATCH * b"x", b"1 BadForm"), (BATCH * b"\n", b"1 BadForm"), (b"\n" + (BATCH - 1) * b"\0", b"1 BadForm"),
]


def end_that_is_damaged():
    """--recover alone leaves it as it is, as replay refuses it; with --cut-damage it is kept and cut off."""
    for tail, fault in DAMAGED_END:
        put("dam", FOUR_JOURNAL + tail)
        if os.path.exists("dam.torn"):
            os.remove("dam.torn")
        for flags in ((), ("--recover",)):
            is_refused(b"dam: line 4: entry " + fault, "dam", *flags)
            same((tail, content("dam")), (tail, FOUR_JOURNAL + tail))
        same(ran(words=["replay", STANDARD, "dam"]), (1, b"", b"mls: dam: line 4: entry " + fault + b"\n"))
        assert not os.path.exists("dam.torn"), "something was kept"
        wanted = (0, ready(3) + b"yes\n", b"mls: dam: cut after entry 2\n")
        same((tail, served(b"ann get-read plans\n", "dam", "--recover", "--cut-damage")), (tail, wanted))
        same((tail, content("dam.torn"), content("dam")), (tail, tail, FOUR_JOURNAL + b"3 0 0 get-read 1 yes\n"))
    assert ran(b"", ["serve", "--cut-damage", "--journal", "dam", STANDARD])[0] == 2, "it stands alone"


def files_that_are_no_journals():
    """--recover empties neither a start file, its own among them, nor a journal with other line ends, nor cuts good entries behind a byte
    that was changed."""
    due = Due(6 * REQUESTS)
    lines = due.journal.splitlines(keepends=True)
    changed = b"".join([*lines[:5], lines[5].replace(b"get-", b"gxt-"), *lines[6:34]])
    assert len(lines) >= 34 and changed != b"".join(lines[:34])
    rows = [(content(STANDARD), b"line 1: entry 1 BadForm"), (due.journal.replace(b"\n", b"\r\n"), b"line 1: entry 4 BadReply")]
    rows += [(changed, b"line 6: entry 1 BadForm")]
    for file, told in rows:
        put("other", file)
        for flags in ((), ("--recover",)):
            is_refused(b"other: " + told, "other", *flags)
            same(content("other"), file)
    put("self.json", content(STANDARD))
    is_refused(b"self.json: line 1: entry 1 BadForm", "self.json", "--recover", start="self.json")
    same((content("self.json"), os.path.exists("other.torn"), os.path.exists("self.json.torn")), (content(STANDARD), False, False))


def journal_of_another_start():
    """--recover over the wrong start empties no journal."""
    put("o", FOUR_JOURNAL)
    put("other.json", content(STANDARD).replace(b'"subject": "ann", "object": "plans"', b'"subject": "aud", "object": "plans"'))
    for flags in ((), ("--recover",)):
        is_refused(b"o: replay 2 Differs at 0 expected no discretionary", "o", *flags, status=3, start="other.json")
    same(content("o"), FOUR_JOURNAL)


def end_that_cannot_be_kept():
    """Where no file for it can be made, FILE stays. (The name of a file has at most 255 bytes.)"""
    name = 251 * "t"
    put(name, FOUR_JOURNAL + b"3 0")
    wanted = (1, b"", failed(f"{name}.torn", "open", errno.ENAMETOOLONG))
    same(served(b"ann get-read plans\n", name, "--recover"), wanted)
    same(content(name), FOUR_JOURNAL + b"3 0")


def end_that_is_whole():
    """Where nothing is torn, --recover says nothing and touches no FILE.torn."""
    put("whole", FOUR_JOURNAL)
    put("whole.torn", b"older")
    same(served(b"", "whole", "--recover"), (0, ready(3), b""))
    same((content("whole"), content("whole.torn")), (FOUR_JOURNAL, b"older"))


def objects_of_an_earlier_process():
    """They are #N. A variable doesn't outlive its process."""
    same(served(b"sec get-write root\n$x = sec create root S:B hi\n", "o1"), (0, ready(0) + b"yes\ncreated 4\n", b""))
    asked = b"ann get-read $x\nsec give read ann #4\nann get-read #4\n$x = sec create #4 T hi\nsec delete #4\nsec delete $x\n"
    answers = b"bad name\nyes\nno simple\nno authority\nyes\nbad name\n"
    same(served(asked, "o1"), (0, ready(2) + answers, b""))


def lines_at_their_bounds():
    rows = [(20_000 * b" ", b""), (20_001 * b" ", b"bad form\n"), (200_000 * b"x", b"bad form\n"), (b"ann get-read plans\r", b"bad form\n")]
    rows += [(b"ann get-read plans" + 19_982 * b" ", b"yes\n"), (b"ann get-read plans" + 19_983 * b" ", b"bad form\n"), (b"\xff", b"bad form\n")]
    asked, answers = b"".join(line + b"\n" for line, _ in rows), b"".join(answer for _, answer in rows)
    same(served(asked, "l"), (0, ready(0) + answers, b""))
    same(content("l"), b"0 0 0 get-read 1 yes\n")


@needs_proof
def input_without_an_end():
    """It has no limit as a whole: more than two megabytes."""
    due = Due(12_000 * LINES)
    assert len(due.asked) > 2_000_000
    same(served(due.asked, "long-input"), (0, ready(0) + due.answers, b""))
    same(content("long-input"), due.journal)
    with Serving("long-input") as run:
        run.says(ready(due.next))
        more = Due(4_000 * LINES, due.next)
        run.feed(more.asked, 6_000)
        run.says(more.answers)
        same(run.end(), (0, b"", b""))
    same(content("long-input"), due.journal + more.journal)


def client_that_sends_half_a_line_and_waits():
    """Each line is answered once it is complete, and not before; the last is not asked where it has no newline."""
    with Serving("half") as run:
        run.says(ready(0))
        for asked, answer in ((b"ann get-read plans\nbob get-", b"yes\n"), (b"read ", b""), (b"memo\n; a note\n\nann ", b"no star\n")):
            run.ask(asked)
            run.says(answer)
            assert run.is_silent(0.1), "half a line was answered"
        same(content("half"), FOUR_JOURNAL[: FOUR_JOURNAL.index(b"2 0")])
        run.ask(b"release read plans")
        same(run.end(), (1, b"", UNFINISHED))
    same(content("half"), FOUR_JOURNAL[: FOUR_JOURNAL.index(b"2 0")])


def line_that_is_not_finished():
    """A client that dies within a line has not asked it, whatever its front says; the lines before are answered."""
    for tail in (b"a", b" ", b"; a note", b"sec delete memo", 20_001 * b"x", 70_000 * b"x"):
        for flags, front, answers in (((), FOUR, FOUR_ANSWERS), (("--sessions",), b"4 " + FOUR.replace(b"\n", b"\n4 ")[:-2], b"4 " + FOUR_ANSWERS.replace(b"\n", b"\n4 ")[:-2])):
            put("un", b"")
            same((tail, served(front + tail, "un", *flags)), (tail, (1, ready(0) + answers, UNFINISHED)))
            same(content("un"), in_session(FOUR_JOURNAL, 4) if flags else FOUR_JOURNAL)
        put("un", b"")
        same(served(tail, "un"), (1, ready(0), UNFINISHED))
        same(content("un"), b"")


def line_that_begins_another():
    """A client that dies within the name of an object has not asked for the object whose name begins so."""
    named = content(STANDARD).replace(b'"plans"', b'"cable-1"').replace(b'"memo"', b'"cable-10"')
    put("cables.json", named)
    begun = b"0 0 2 get-write 0 yes\n"
    for flags, front in (((), b""), (("--sessions",), b"0 ")):
        put("cables", begun)
        same(served(front + b"sec delete cable-1", "cables", *flags, start="cables.json"), (1, ready(1), UNFINISHED))
        same(content("cables"), begun)
        same(served(front + b"sec delete cable-10\n", "cables", *flags, start="cables.json"), (0, ready(1) + front + b"yes\n", b""))
        same(content("cables"), begun + b"1 0 2 delete 2 yes\n")


def machine_without_a_compiler():
    """The checks that need one are named as skipped, and the full check counts a failure."""
    given, folder, kept = dict(os.environ), os.getcwd(), dict(vars(full_check))
    none, well, said = (lambda *_: Counts()), (lambda *_: Counts(passed=1)), io.StringIO()
    try:
        for compiler, wanted in ((None, (1, "2 passed, 1 failed")), ("/usr/bin/cc", (0, "2 passed, 0 failed"))):
            which = types.SimpleNamespace(which=lambda _, compiler=compiler: compiler)
            vars(full_check).update(proofs=well, kept=none, checked=well, shutil=which)
            with contextlib.redirect_stdout(said):
                status = full_check.main()
            same((compiler, status, said.getvalue().splitlines()[-1]), (compiler, *wanted))
            same("a C compiler: NOT INSTALLED\n" in said.getvalue(), True)
    finally:
        vars(full_check).update(kept)
        os.environ.clear()
        os.environ.update(given)
        os.chdir(folder)


def in_session(journal, session):
    """Entries with the number of another session."""
    words = [line.split(b" ") for line in journal.splitlines(keepends=True)]
    return b"".join(b" ".join([line[0], b"%d" % session, *line[2:]]) for line in words)


# Lines of sessions, what each is answered, and what its entry has after its number, over the standard start and after
# those before it.
SESSION_LINES = [
    (b"7 ann get-read plans", b"7 yes", b"7 0 get-read 1 yes"), (b"0 ann check read plans", b"0 held", None),
    (b"8 ? bob get-read memo", b"8 ? no star", None), (b"8 bob get-read memo", b"8 no star", b"8 1 get-read 2 no star"),
    (b"9 ? sec create root S hi", b"9 ? no authority", None),
    (b"9 sec get-write root", b"9 yes", b"9 2 get-write 0 yes"), (b"9 ? sec create root S hi", b"9 ? created 4", None),
    (b"4294967294 ? sec create root S hi", b"4294967294 ? created 4", None),
    (b"4294967294 #300 get-read #3", b"4294967294 undefined", b"4294967294 300 get-read 3 undefined"),
    (b"7 ? ann check read plans", b"7 ? held", None), (b"7 ? ann release read plans", b"7 ? yes", None),
    (b"7 ? ann release read plans", b"7 ? yes", None), (b"7 ? ann frob plans", b"7 ? bad form", None),
    (b"7 ? zoe get-read plans", b"7 ? bad name", None), (b"7 ? sec create root Q hi", b"7 ? bad label", None),
    (b"7 ann frob plans", b"7 bad form", None), (b"7 zoe get-read plans", b"7 bad name", None),
    (b"7 $x = sec create root S hi", b"7 bad form", None), (b"7 ? $x = sec create root S hi", b"7 ? bad form", None),
    (b"7 ann get-read $x", b"7 bad form", None), (b"7 zoe get-read $x", b"7 bad form", None),
    (b"7 sec create root $S hi", b"7 bad form", None), (b"7 ann get-read x$x", b"7 bad form", None),
    (b"7 ; $x = a note", b"", None), (b"7 ? ; a note", b"", None), (b"7 ", b"", None), (b"7 ? ", b"", None),
    (b"7    ann   release read plans ", b"7 yes", b"7 0 release read 1 yes"),
    (b"7  ? ann get-read plans", b"7 bad form", None), (b"7 ?ann get-read plans", b"7 bad form", None),
    (b"7 ?", b"7 bad form", None), (b"7 ? ? ann get-read plans", b"7 ? bad form", None), (b"7", b"- bad form", None),
    (b"", b"- bad form", None), (b" ", b"- bad form", None), (b" 7 ann get-read plans", b"- bad form", None),
    (b"; a note", b"- bad form", None), (b"ann get-read plans", b"- bad form", None),
    (b"07 ann get-read plans", b"- bad form", None), (b"-7 ann get-read plans", b"- bad form", None),
    (b"+7 ann get-read plans", b"- bad form", None), (b"7\tann get-read plans", b"- bad form", None),
    (b"4294967295 ann get-read plans", b"- bad form", None), (b"4294967296 ann get-read plans", b"- bad form", None),
    (b"18446744073709551623 ann get-read plans", b"- bad form", None),
    (30_000 * b"7" + b" ann get-read plans", b"- bad form", None), (30_000 * b"7", b"- bad form", None),
    (b"4294967294 ann get-read plans" + 19_982 * b" ", b"4294967294 yes", b"4294967294 0 get-read 1 yes"),
    (b"4294967294 ann get-read plans" + 19_983 * b" ", b"4294967294 bad form", None),
    (b"4294967294 ? ann get-read plans" + 19_982 * b" ", b"4294967294 ? yes", None),
    (b"4294967294 ? ann get-read plans" + 19_983 * b" ", b"4294967294 ? bad form", None),
    (b"1 " + 20_000 * b" ", b"", None), (b"1 ? " + 20_000 * b" ", b"", None),
    (b"1 " + 20_001 * b" ", b"1 bad form", None), (b"1 ? " + 200_000 * b"x", b"1 ? bad form", None),
    (b"12 ann release read plans", b"12 yes", b"12 0 release read 1 yes"),
]


def lines_of_sessions():
    """Each line is answered as its session's, in pieces of any size; the entries have its number, and a trial has none."""
    asked = b"".join(line + b"\n" for line, _, _ in SESSION_LINES)
    answers = b"".join(answer + b"\n" for _, answer, _ in SESSION_LINES if answer)
    entries = [entry for _, _, entry in SESSION_LINES if entry]
    journal = b"".join(b"%d %s\n" % row for row in enumerate(entries))
    same(served(asked, "s1", "--sessions"), (0, ready(0) + answers, b""))
    same(content("s1"), journal)
    for piece in (1_000, 7_919, 65_536):
        put("s2", b"")
        with Serving("s2", "--sessions") as run:
            run.says(ready(0))
            run.feed(asked, piece)
            run.says(answers)
            same(run.end(), (0, b"", b""))
        same(content("s2"), journal)
    same(ran(words=["replay", STANDARD, "s1"])[0], 0)


def numbers_behind_answers():
    """With --numbers the number of its entry stands behind each answer that has one, with sessions and without."""
    numbered, number = [], 3
    for _, answer, entry in SESSION_LINES:
        numbered.append(b"%s %d\n" % (answer, number) if entry else answer + b"\n" if answer else b"")
        number += entry is not None
    put("n", FOUR_JOURNAL)
    asked = b"".join(line + b"\n" for line, _, _ in SESSION_LINES)
    same(served(asked, "n", "--sessions", "--numbers"), (0, ready(3) + b"".join(numbered), b""))
    same(served(FOUR, "n2", "--numbers"), (0, ready(0) + b"yes 0\nno star 1\nyes 2\nnot held\n", b""))
    asked, answers = b"$x = sec create root S hi\nsec get-write root\n$x = sec create root S hi\n", b"no authority 0\nyes 1\ncreated 4 2\n"
    same(served(asked, "n3", "--numbers", "--session", "5"), (0, ready(0) + answers, b""))


def line_by_chance(rnd):
    """A line of a script, often with a fault, and now and then with a variable."""
    subject = rnd.choice(["ann", "bob", "sec", "aud", "#0", "#7", "zoe", "#65536"])
    thing = rnd.choice(["root", "plans", "memo", "tool", "#4", "#5", "#9", "nix", "$x", "x$"])
    mode, label = rnd.choice(["read", "write", "append", "execute", "frob"]), rnd.choice(["U", "C", "S:A", "T:A,B", "Q", "$S", "hi"])
    forms = [f"{subject} get-{mode} {thing}", f"{subject} release {mode} {thing}", f"{subject} check {mode} {thing}"]
    forms += [f"{subject} give {mode} bob {thing}", f"{subject} rescind {mode} ann {thing}", f"sec create root {label} hi", f"sec delete {thing}"]
    forms += [f"{subject} level {label}", f"sec relabel {thing} {label}", "; $x", "", "junk", "$x = sec create root S hi", "sec get-write root"]
    return rnd.choice(forms).encode()


def lines_of_sessions_by_chance():
    """Each is answered as a service of one session answers it, but for variables, and as its trial right before it told."""
    rnd = random.Random(3)
    lines = [(b"%d" % rnd.randrange(5), line_by_chance(rnd)) for _ in range(1_000)]
    put("chance", b"")
    asked = b"".join(number + b" ? " + line + b"\n" + number + b" " + line + b"\n" for number, line in lines)
    status, output, error = served(asked, "chance", "--sessions")
    same((status, error), (0, b""))
    # (in the other service a line with a variable is one that has no form)
    plain = [(number, b"bad" if b"$" in line and line[:1] != b";" else line) for number, line in lines]
    put("alone", b"")
    due = served(b"".join(line + b"\n" for _, line in plain), "alone")
    same((due[0], due[2]), (0, b""))
    answers, wanted = iter(due[1].splitlines()[1:]), [b"ready 0"]
    for number, line in plain:
        if line and line[:1] != b";":
            answer = next(answers)
            wanted += [number + b" ? " + answer, number + b" " + answer]
    same(output.splitlines(), wanted)
    same(in_session(content("chance"), 0), content("alone"))


def trial_that_syncs_nothing():
    """A trial adds nothing to the file, and is answered where the file can't grow."""
    put("trial", FOUR_JOURNAL)
    many = 5_000 * b"3 ? ann get-read plans\n"
    same(served(many, "trial", "--sessions"), (0, ready(3) + 5_000 * b"3 ? yes\n", b""))
    same(content("trial"), FOUR_JOURNAL)


def names_before_the_first_line():
    """The names of START and the accesses that are held come before the number, and tell which of them START opens with."""
    names = b"subject 0 ann\nsubject 1 bob\nsubject 2 sec\nsubject 3 aud\nobject 0 root\nobject 1 plans\nobject 2 memo\nobject 3 tool\n"
    same(served(b"", "nm", "--names"), (0, names + ready(0), b""))
    asked = b"sec get-write root\n$x = sec create root S:B hi\nbob get-execute tool\nann get-read plans\nann get-write plans\nbob release execute tool\n"
    put("nm", b"")
    assert served(asked, "nm")[0] == 0
    held = b"access 0 read 1\naccess 0 write 1\naccess 2 write 0\n"
    same(served(b"", "nm", "--names"), (0, names + held + ready(6), b""))
    opens = content(STANDARD).rstrip().removesuffix(b"}").rstrip() + b',"accesses": [{"subject": "ann", "object": "plans", "modes": ["read"]}]}'
    put("opens.json", opens)
    begins = names + b"access 0 read 1 start\n"
    same(served(b"ann release read plans\n", "no", "--names", start="opens.json"), (0, begins + ready(0) + b"yes\n", b""))
    same(served(b"ann get-read plans\nann get-write plans\n", "no", "--names", start="opens.json"), (0, names + ready(1) + b"yes\nyes\n", b""))
    same(served(b"", "no", "--names", start="opens.json"), (0, begins + b"access 0 write 1\n" + ready(3), b""))
    same(served(b"7 ann check read plans\n", "nm", "--names", "--sessions", "--numbers"), (0, names + held + ready(6) + b"7 held\n", b""))
    with Serving("nm", "--names") as first:
        first.says(names + held + ready(6))
        is_refused(b"nm: in use", "nm", "--names", status=75)
        is_refused(b"nm: in use", "nm", "--recover")


def session_beside_sessions():
    for words in (["--session", "1", "--sessions"], ["--sessions", "--session=1"]):
        status, output, error = ran(FOUR, ["serve", *words, "--journal", "both", STANDARD])
        same((words, status, output), (words, 2, b""))
        assert error.endswith(b"\n") and not os.path.exists("both")


def client_that_closes_its_end():
    """What was asked is durable, though nobody reads its answers."""
    with Serving("gone") as run:
        run.says(ready(0))
        run.run.stdout.close()
        run.ask(FOUR)
        same(run.run.wait(SECONDS), 1)
        same(run.run.stderr.read(), b"mls: output: write\n")
    same(content("gone"), FOUR_JOURNAL)
    same(served(b"", "gone"), (0, ready(3), b""))


def output_that_takes_nothing():
    """Even the first line of a service may find no output; the journal is made by then, and empty."""
    with open("/dev/full", "wb") as full:
        with Serving("full", stdout=full) as run:
            same((run.run.wait(SECONDS), run.run.stderr.read()), (1, b"mls: output: write\n"))
    same(content("full"), b"")


def client_that_stops_reading():
    """The service waits for it; what is in the journal begins with the entries of what it was answered. It may go on."""
    due = Due(4_000 * REQUESTS)
    with Serving("slow") as run:
        run.says(ready(0))
        run.feed(due.asked, 60_000)
        run.waits_for_its_client()
        assert 0 < os.path.getsize("slow") < len(due.journal), "the service went on"
        is_kept(content("slow"), b"", due, run.read(10_000))
        run.run.kill()
        run.run.wait()
        run.feeder.join()
        journal = content("slow")
        is_kept(journal, b"", due, due.answers[:10_000] + run.run.stdout.read())
    same(served(b"", "slow", "--recover")[:2], (0, ready(journal.count(b"\n"))))
    with Serving("slower") as run:
        run.says(ready(0))
        run.feed(due.asked, 60_000)
        run.waits_for_its_client()
        run.says(due.answers)
        same(run.end(), (0, b"", b""))
    same(content("slower"), due.journal)


@needs_proof
def journal_that_grows_to_its_limit():
    """A line is asked as long as there is room for the longest entry: the lines before are answered, then and by a later service."""
    label = b"15:" + b",".join(b"%d" % number for number in range(256))
    entry = b"0 0 create 0 " + label + b" " + label + b" undefined\n"
    put("limit", b"")
    with open("limit", "wb") as file:
        number = 0
        while file.tell() < JOURNAL_LIMIT - ROOM - 4_000:
            file.write(b"%d " % number + entry)
            number += 1
    due = Due(400 * REQUESTS, number)
    status, output, error = served(due.asked, "limit")
    same((status, error), (1, b"mls: limit: too long\n"))
    assert output.startswith(ready(number)) and output.endswith(b"\n")
    behind, size = due.behind(output[len(ready(number)):]), os.path.getsize("limit")
    with open("limit", "rb") as file:
        file.seek(-len(behind) - 1, os.SEEK_END)
        same(file.read(), b"\n" + behind)
    assert JOURNAL_LIMIT - ROOM < size <= JOURNAL_LIMIT, f"{size} bytes"
    count = number + behind.count(b"\n")
    same(served(b"ann get-read plans\n", "limit"), (1, ready(count), b"mls: limit: too long\n"))
    same(served(b"", "limit"), (0, ready(count), b""))
    same(os.path.getsize("limit"), size)


def input_that_is_a_folder():
    folder = os.open("/", os.O_RDONLY)
    try:
        with Serving("i", stdin=folder) as run:
            same((run.run.wait(SECONDS), run.run.stdout.read(), run.run.stderr.read()), (1, ready(0), b"mls: input: read\n"))
    finally:
        os.close(folder)
    same(content("i"), b"")


@needs_proof
def memory_that_runs_out():
    """With little more room than it takes to start, the lines before are answered and in the journal, and no others."""

    def within(room, asked, journal):
        put(journal, b"")
        return served(asked, journal, preexec_fn=lambda: resource.setrlimit(resource.RLIMIT_AS, (room, room)))

    step, page = 1 << 18, 1 << 13
    least = next(it for it in range(step, 256 * step, step) if within(it, b"", "m")[0] == 0)
    due, fronts = Due(2_000 * REQUESTS), 0
    for room in range(least - step, least + 8 * step, page):
        status, output, error = within(room, due.asked, "m")
        if status == 0:
            same((output, error), (ready(0) + due.answers, b""))
            break
        if not output.startswith(ready(0)):
            # (it lacked memory to start)
            continue
        same((status, error), (1, b"mls: memory\n"))
        written = output[len(ready(0)):]
        assert not written or written.endswith(b"\n")
        fronts += len(written) > 0
        same(content("m"), due.behind(written))
        same(served(b"", "m"), (0, ready(content("m").count(b"\n")), b""))
    assert status == 0 and fronts > 0, f"memory ran out on the way {fronts} times, status {status}"

def resident(service):
    """The bytes that a service has in memory, and the most that it had."""
    with open(f"/proc/{service.run.pid}/status", encoding="ascii") as file:
        fields = dict(line.split(":", 1) for line in file)
    return [int(fields[name].split()[0]) * 1024 for name in ("VmRSS", "VmHWM")]


@needs_proof
def memory_that_stays():
    """What was answered is in the file alone: 300,000 entries leave a service no more memory than it had, and one that
    starts over them has just the file's bytes, until it has read them."""
    many, each = 300_000, b"bob get-read memo\n"
    with Serving("m") as service:
        service.says(ready(0))
        service.feed(many * each, 1 << 16, closes=False)
        service.says(many * b"no star\n")
        _, most = resident(service)
        assert most < 8 << 20, f"at the most {most} bytes"
        same(service.end(), (0, b"", b""))
    size = os.path.getsize("m")
    with Serving("m") as service:
        service.says(ready(many))
        now, most = resident(service)
        assert now < 8 << 20, f"{now} bytes once it is ready"
        assert most < size + (8 << 20), f"at the most {most} bytes over a file of {size}"
        same(service.end(), (0, b"", b""))


CHECKS = [service_from_its_beginning, journal_of_a_run, session_that_asks, each_action, words_that_are_not_understood,
          start_that_is_refused, journal_that_is_no_file, journal_by_a_link, journal_that_is_in_use,
          journal_that_is_too_long, end_that_is_torn, ends_that_are_torn_one_after_the_other,
          modes_of_files_that_are_made, journal_that_no_crash_leaves, damage_that_is_cut_only_where_that_is_asked,
          one_byte_that_was_changed, words_of_damage, end_that_is_damaged, files_that_are_no_journals,
          journal_of_another_start, end_that_cannot_be_kept, end_that_is_whole, objects_of_an_earlier_process,
          lines_at_their_bounds, input_without_an_end, client_that_sends_half_a_line_and_waits,
          line_that_is_not_finished, line_that_begins_another, lines_of_sessions, lines_of_sessions_by_chance,
          numbers_behind_answers, trial_that_syncs_nothing, memory_that_stays, names_before_the_first_line,
          session_beside_sessions, client_that_closes_its_end, output_that_takes_nothing, client_that_stops_reading,
          journal_that_grows_to_its_limit, input_that_is_a_folder, memory_that_runs_out, machine_without_a_compiler]
