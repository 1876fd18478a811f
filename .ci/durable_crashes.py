"""What mls serve leaves where it is killed, where the disk fails, and where a crash takes what wasn't synced; and how it goes on."""
import glob
import itertools
import os
import random
import re
import signal
from errno import EIO, ENOLCK, ENOSPC

import crashing
from crashing import CALLS, KILLS_OF_A_JOURNAL, asked_in_batches, calls_noted, count_of, cut_line, killed_once, kills, many_recovered, notes_of
from outside import SECONDS, needs_proof, put, same, shown
from serving import LINES, REQUESTS, Due, Serving, content, failed, is_kept, ready, served, shim, status_of

# The most bytes of entries that are appended between two syncs, and of a read.
BATCH = 65_536
# Batches that a client asks one after the other, each once the one before is answered; the third has no entry.
BATCHES = [[LINES[0], LINES[2]], [LINES[1]], [LINES[6], LINES[7]], [LINES[3], LINES[4], LINES[5], LINES[8]], [LINES[0]]]


def recovered(journal, before, due, written, flags=("--recover",)):
    """Recovers a journal by a service that is asked nothing, and returns what the journal has then: all that it had before, the entries of the
    lines of which something was answered, and perhaps those of others that were asked."""
    status, output, error = served(b"", journal, *flags)
    now = content(journal)
    assert now.endswith(b"\n") or not now, f"half a line is left: {shown(now[-100:])}"
    is_kept(now, before, due, written)
    same((status, output), (0, ready(count_of(now))))
    assert error in (b"", cut_line(journal, count_of(now))), shown(error)
    return now


@needs_proof
def kills_under_a_client_that_writes():
    """300 times: every answer that the client had got is in the journal, and after --recover too."""
    once = lambda rnd, before: killed_once(rnd, "k", (), rnd.choices(LINES, k=1_500), before, lambda: content("k"),
                                           lambda *it: recovered("k", *it))
    kills(39, crashing.KILLS, KILLS_OF_A_JOURNAL, lambda: put("k", b""), once)


FRONT = Due(REQUESTS[:3])
# A line that a crash has torn.
TORN = b"3 0 0 get-re"
ALL = [line for batch in BATCHES for line in batch]


def run_over_a_disk(**words):
    """Recovers a torn journal over the shim and asks the batches. Returns the status, what was answered, and the error text."""
    for name in ("f.notes", "f.copy", *glob.glob("f.torn*")):
        if os.path.exists(name):
            os.remove(name)
    put("f", FRONT.journal + TORN)
    env = shim(notes=os.path.abspath("f.notes"), journal=os.path.abspath("f"), copy=os.path.abspath("f.copy"), **words)
    with Serving("f", "--recover", env=env) as run:
        said = run.read(len(ready(3)))
        written = asked_in_batches(run, BATCHES, 3) if said == ready(3) else b""
        status, rest, error = run.end()
        same(rest, b"")
    assert said in (b"", ready(3)), shown(said)
    return status, said, written, error


def ends_of_batches():
    """The bytes of answers after each batch."""
    return [*itertools.accumulate((len(Due(batch).answers) for batch in BATCHES), initial=0)]


def calls_of_a_run():
    """The calls on files of a run that meets no failure, in their order."""
    status, said, written, error = run_over_a_disk()
    same((status, said, written, error), (0, ready(3), Due(ALL, 3).answers, b"mls: f: cut after entry 2\n"))
    same(content("f"), FRONT.journal + Due(ALL, 3).journal)
    calls = calls_noted("f.notes")
    kinds = {(asked, file) for asked, file, *_ in calls}
    assert {("write", "f"), ("sync", "f"), ("cut", "f"), ("write", "f.torn"), ("sync", "f.torn")} <= kinds, kinds
    return calls


def is_left_well(calls, errno, said, written, error):
    """What is told and left where the last of these calls failed: no answer of its batch, and of the batch itself a front at most behind
    what was there; and nothing in the file for torn ends, where that wasn't written whole."""
    due, folder, call = Due(ALL, 3), os.path.basename(os.getcwd()), CALLS[calls[-1][0]]
    is_of_torn = calls[-1][1] == "f.torn" or [it[1] for it in calls[-2:]] == ["f.torn", folder]
    told = failed("f.torn" if is_of_torn else "f", call, errno)
    assert error in (told, b"mls: f: cut after entry 2\n" + told), shown(error)
    assert len(written) in ends_of_batches(), f"a part of a batch was answered: {shown(written)}"
    journal = content("f")
    if said:
        is_kept(journal, FRONT.journal, due, written)
        later = [end for end in ends_of_batches() if end > len(written)]
        last = FRONT.journal + due.behind(due.answers[: later[0]])
        assert last.startswith(journal), "more than the batch that failed is there"
    else:
        assert journal in (FRONT.journal + TORN, FRONT.journal), shown(journal)
    if is_of_torn:
        same((journal, glob.glob("f.torn*")), (FRONT.journal + TORN, []))
    elif journal == FRONT.journal + TORN:
        same([content(name) for name in glob.glob("f.torn*")], [TORN] if ("write", "f.torn") in [it[:2] for it in calls] else [])
    else:
        same(content("f.torn"), TORN)
    recovered("f", FRONT.journal, due, written)


def disk_that_fails():
    """Each write, sync and cut of a run fails in turn, for want of room or by a fault, also with a front of the bytes written: it is told
    which call failed and why, nothing is answered that isn't in the journal, and nothing was asked again."""
    calls = calls_of_a_run()
    for place, call in enumerate(calls, 1):
        for errno in (ENOSPC, EIO):
            for front in (0, 1, 7, 30) if call[0] == "write" else (0,):
                status, said, written, error = run_over_a_disk(fail=place, errno=errno, front=front)
                same((call, status), (call, status_of(CALLS[call[0]])))
                noted = calls_noted("f.notes")
                same((call, len(noted), noted[-1][:2], noted[-1][3]), (call, place, call[:2], False))
                is_left_well(calls[:place], errno, said, written, error)
    status, _, written, _ = run_over_a_disk(fail=len(calls) + 1, errno=EIO)
    same((status, written), (0, Due(ALL, 3).answers))


def lock_and_read_that_fail():
    """It is told, and nothing is changed."""
    for call, of_system, errno in (("lock", "flock", ENOLCK), ("read", "read", EIO)):
        status, said, _, error = run_over_a_disk(refuse=of_system, errno=errno)
        same((status, said, error), (1, b"", failed("f", call, errno)))
        same((content("f"), glob.glob("f.torn*")), (FRONT.journal + TORN, []))


def writes_that_take_little():
    """Where the system takes a few bytes at a time, all are written."""
    for piece in (1, 5):
        status, said, written, _ = run_over_a_disk(piece=piece)
        same((status, said, written), (0, ready(3), Due(ALL, 3).answers))
        same((content("f"), content("f.torn"), content("f.copy")), (FRONT.journal + Due(ALL, 3).journal, TORN, content("f")))


def answers_wait_for_the_sync():
    """At each write of answers, the journal as it was at its last sync has the entries of all lines of whose answers something is out. A
    batch that has no entry syncs nothing."""
    calls_of_a_run()
    due, synced, out, syncs = Due(ALL, 3), 0, -len(ready(3)), []
    for asked, file, count, done in notes_of("f.notes"):
        assert done
        if (asked, file) == ("sync", "f"):
            synced, syncs = count, [*syncs, out]
        elif (asked, file) == ("cut", "f"):
            synced = None
        elif (asked, file) == ("write", "f"):
            assert synced is not None, "the cut wasn't synced before something was appended"
        elif file == "out":
            assert synced is not None, "the cut wasn't synced before something was answered"
            out += count
            needed = FRONT.journal + due.behind(due.answers[: max(out, 0)])
            assert needed == content("f")[: len(needed)] and len(needed) <= synced, f"{out} bytes are out, {synced} are synced"
    same(out, len(due.answers))
    # (none between the batch without an entry and the one before it)
    same(syncs[-4:], [end for end, batch in zip(ends_of_batches(), BATCHES) if any(line.entry for line in batch)])
    same(content("f.copy"), content("f"))


def batches_of_long_reads():
    """No more than 65,536 bytes are appended between two syncs, and no answer comes between the two; reads are of as many bytes, so that a
    batch is as long as it may be but for a line."""
    due = Due(20_000 * [LINES[0]])
    if os.path.exists("b.notes"):
        os.remove("b.notes")
    put("b", b"")
    with open(put("asked", due.asked), "rb") as asked:
        with Serving("b", stdin=asked, env=shim(notes=os.path.abspath("b.notes"))) as run:
            run.says(ready(0) + due.answers)
            same((run.run.wait(SECONDS), run.run.stderr.read()), (0, b""))
    same(content("b"), due.journal)
    notes = [note for note in notes_of("b.notes") if note[1] in ("b", "out")]
    same([note[:2] for note in notes[:2]], [("sync", "b"), ("write", "out")])
    order = "".join({"write b": "w", "sync b": "s", "write out": "o"}[f"{asked} {file}"] for asked, file, *_ in notes[2:])
    assert re.fullmatch("(wso+)+", order), order[:100]
    pieces = [count for asked, file, count, _ in notes if (asked, file) == ("write", "b")]
    assert max(pieces) <= BATCH and len(pieces) <= 2 + 2 * len(due.asked) // BATCH, pieces


def torn_end_is_kept_before_it_is_cut():
    """What is cut off is in FILE.torn by then, synced with its folder."""
    calls = [(asked, file) for asked, file, *_ in calls_of_a_run()]
    folder, cut = os.path.basename(os.getcwd()), calls.index(("cut", "f"))
    same(calls[cut - 3 : cut + 2], [("write", "f.torn"), ("sync", "f.torn"), ("sync", folder), ("cut", "f"), ("sync", "f")])
    same(calls[: cut - 3], [("sync", "f"), ("sync", folder)])
    same(content("f.torn"), TORN)


def folder_of_a_journal_by_a_link():
    """Synced is the folder that the journal lies in, and not that of the link."""
    os.mkdir("far")
    os.symlink("far/j", "near")
    same(served(b"", "near", env=shim(notes=os.path.abspath("l.notes"))), (0, ready(0), b""))
    same([note[:2] for note in notes_of("l.notes")], [("sync", "j"), ("sync", "far"), ("write", "out")])


def client_that_looks_at_the_synced_copy():
    """The client looks at each answer what a crash of the machine would leave then: a sync here takes a while."""
    put("c", b"")
    env = shim(slow=2_000, journal=os.path.abspath("c"), copy=os.path.abspath("c.copy"))
    with Serving("c", env=env) as run:
        run.says(ready(0))
        rnd, before, first = random.Random(1), b"", 0
        for _ in range(60):
            due = Due(rnd.choices(LINES, k=rnd.randrange(1, 40)), first)
            run.ask(due.asked)
            written = run.read(1) if due.answers else b""
            is_kept(content("c.copy"), before, due, written)
            run.says(due.answers[len(written):])
            before, first = before + due.journal, due.next
            is_kept(content("c.copy"), before, Due([]), b"")
        same(run.end(), (0, b"", b""))


def killed_between_append_and_sync():
    """The journal as it was at the last sync, and what a kill before the next one left behind it."""
    status, said, written, _ = run_over_a_disk(kill=1 + last_append(calls_of_a_run(), 3))
    same((status, said), (-signal.SIGKILL, ready(3)))
    synced, journal = content("f.copy"), content("f")
    assert journal.startswith(synced) and len(journal) > len(synced) + 80, "nothing was appended"
    is_kept(synced, FRONT.journal, Due(ALL, 3), written)
    same(journal, FRONT.journal + Due([line for batch in BATCHES[:4] for line in batch], 3).journal)
    return synced, journal[len(synced):]


def last_append(calls, number):
    """The place of the append of this number to the journal, counted from 1."""
    appends = [place for place, (asked, file, *_) in enumerate(calls, 1) if (asked, file) == ("write", "f")]
    return appends[number - 1]


def batch_that_was_not_synced():
    """Cut at each byte, and with each byte made zero, as a crash may leave it: recovered, with all that was synced and no entry that wasn't
    asked for."""
    synced, batch = killed_between_append_and_sync()
    places = range(len(batch))
    files = [batch[:at] for at in (*places, len(batch))]
    files += [batch[:at] + bytes(1) + batch[at + 1:] for at in places]
    files += [batch[:at] + bytes(len(batch) - at) for at in places] + [batch + bytes(100)]

    def judge(file, status, output, error, after):
        left = file[len(synced):]
        place = next((at for at in places if left[at : at + 1] != batch[at : at + 1]), len(batch))
        wanted = synced + batch[:place][: batch[:place].rfind(b"\n") + 1]
        same((shown(file), after), (shown(file), wanted))
        told = cut_line("t", count_of(wanted)) if file != wanted else b""
        same((status, output, error), (0, ready(count_of(wanted)), told))

    many_recovered([synced + left for left in files], judge)


def batch_that_is_anything():
    """Each of its bytes changed otherwise, as no disk should leave it: recovered or refused, with all that was synced."""
    synced, batch = killed_between_append_and_sync()
    changed = [synced + batch[:at] + bytes([byte ^ by]) + batch[at + 1:] for at, byte in enumerate(batch) for by in (1, 16, 128)]
    seen = set()

    def judge(file, status, output, error, after):
        seen.add(status)
        if status == 0:
            assert after.startswith(synced) and (file.startswith(after)), shown(after)
            same(output, ready(count_of(after)))
        else:
            told = {1: b"mls: t: line ", 3: b"mls: t: replay "}[status]
            same((output, after), (b"", file))
            assert error.startswith(told), shown(error)

    many_recovered(changed, judge)
    same(seen, {0, 1, 3})


def crash_during_a_recovery():
    """A recovery that is killed before each of its calls in turn, and then another: nothing is lost, and what was torn is kept."""
    calls = calls_of_a_run()
    first = next(place for place, (asked, file, *_) in enumerate(calls, 1) if (asked, file) == ("write", "f"))
    for place in range(1, first):
        status, said, _, _ = run_over_a_disk(kill=place)
        same((status, said), (-signal.SIGKILL, b""))
        left = content("f")
        assert left in (FRONT.journal + TORN, FRONT.journal), shown(left)
        if left == FRONT.journal:
            same(content("f.torn"), TORN)
        recovered("f", FRONT.journal, Due([]), b"")
        same(content("f"), FRONT.journal)
        assert TORN in [content(name) for name in glob.glob("f.torn*")], "the torn end is lost"


CHECKS = [kills_under_a_client_that_writes]
OVER_THE_SHIM = [disk_that_fails, lock_and_read_that_fail, writes_that_take_little, answers_wait_for_the_sync,
                 batches_of_long_reads, torn_end_is_kept_before_it_is_cut, folder_of_a_journal_by_a_link,
                 client_that_looks_at_the_synced_copy, batch_that_was_not_synced, batch_that_is_anything,
                 crash_during_a_recovery]
