"""What mls serve --marks leaves where it is killed, where the disk or the clock fails, and where a crash takes what wasn't synced of the
journal and of its marks; and how it goes on."""
import collections
import errno
import glob
import os
import random
import signal
import subprocess
import threading
import time

import marks
from crashing import CALLS, LATEST_KILL, are_marked, asked_in_batches, count_of, cut_line, killed_once, kills, notes_of
from durable_marks import FRONT, HEAD, MARKED, OLD_ONE, ONE, TORN_ENTRY, TORN_MARK, is_marked, is_put_aside, marked, pair, put_pair
from outside import IS_PROVED, PROGRAM, SECONDS, Started, in_its_folder, put, rounds, same, shown, some
from serving import IN_SESSIONS, LINES, STANDARD, Due, Serving, content, failed, is_kept, ready, shim, status_of

# How often a service is killed; check-durable has an option for it.
KILLS = rounds(100)
# How many lines are asked, and how many seconds a kill comes at most after the start of the service, after it was ready, or after its first
# answer. (A trial takes longer for all.)
LINES_OF_A_KILL, LATEST = (1_500, LATEST_KILL) if IS_PROVED else (50, 5 * LATEST_KILL)
# After so many of them the files begin anew.
KILLS_OF_A_JOURNAL = 20
# A mark is synced within a second, and a machine with much to do may take so many more for it, or as long as it took for what others do.
SECOND, PATIENCE = 1, 2
# What a client asks, each batch once the one before is answered: with sessions, and without.
ASKED = [[IN_SESSIONS[0], IN_SESSIONS[2]], [IN_SESSIONS[1]], [IN_SESSIONS[6], IN_SESSIONS[10]], IN_SESSIONS[3:9]]


def is_lost_nothing(before, due, written):
    """Recovers f and m by a service that is asked nothing: each answered entry is there, and each entry has a mark that agrees. Returns what
    f has then."""
    status, output, error = marked("--recover")
    now = content("f")
    is_kept(now, before, due, written)
    same((status, output), (0, ready(count_of(now))))
    lines = [b"mls: m: cut ", cut_line("f", count_of(now))]
    assert all(any(line.startswith(it) for it in lines) for line in error.splitlines(keepends=True)), shown(error)
    is_marked()
    return now


def is_killed_once(rnd, before):
    """A service is killed at some moment while its client writes and reads. By then each answered entry is there, with its mark; and so it is
    after a recovery."""
    has_sessions, noted = rnd.random() < 0.7, content("m") if os.path.exists("m") else b""

    def left():
        assert (content("m") if os.path.exists("m") else b"").startswith(noted), "marks are lost"
        return content("f")

    lines, flags = (IN_SESSIONS, ["--sessions"]) if has_sessions else (LINES, [])
    lines = rnd.choices(lines, k=LINES_OF_A_KILL)
    return killed_once(rnd, "f", [*MARKED, *flags], lines, before, left, is_lost_nothing, True, LATEST)


def kills_under_a_client_that_is_marked():
    """Every answer that the client had got is in the journal, and its entry has a mark."""
    kills(50, KILLS, KILLS_OF_A_JOURNAL, lambda: put_pair(b"", None), is_killed_once)


# the calls of a run over both files, each of which fails, or is the last before a kill


def run_over_a_disk(flags=("--sessions",), batches=None, **words):
    """Recovers a torn journal with torn marks over the shim, and asks batches. Returns the status, whether it was ready, what was answered,
    and the error text."""
    put_pair(FRONT + TORN_ENTRY, HEAD + ONE + TORN_MARK)
    for name in ("notes", "f.copy", "m.copy"):
        if os.path.exists(name):
            os.remove(name)
    files = {"notes": "notes", "journal": "f", "copy": "f.copy", "marks": "m", "marks_copy": "m.copy"}
    env = shim(**{name: os.path.abspath(it) for name, it in files.items()}, **words)
    with Serving("f", "--recover", *flags, *MARKED, env=env) as run:
        said = run.read(len(ready(3)))
        written = asked_in_batches(run, ASKED if batches is None else batches, 3) if said == ready(3) else b""
        status, rest, error = run.end()
        same(rest, b"")
    assert said in (b"", ready(3)), shown(said)
    return status, bool(said), written, error


ALL = Due([line for batch in ASKED for line in batch], 3)
BOTH_CUT = b"mls: m: cut after entry 0\n", b"mls: f: cut after entry 2\n"


def calls_of_a_run():
    """The calls on files of a run that meets no failure, in their order: what was asked, and of which file."""
    same(run_over_a_disk(), (0, True, ALL.answers, b"".join(BOTH_CUT)))
    same(content("f"), FRONT + ALL.journal)
    same([it.number for it in is_marked()], [0, 2, 4, 5, *([ALL.next - 1] if ALL.next > 6 else [])])
    return [note[:2] for note in notes_of("notes") if note[1] != "out"]


def torn_are_kept(files):
    """What was torn of these files is in the files itself, or is kept."""
    for name, torn in files:
        kept = [content(it) for it in glob.glob(f"{name}.torn*")]
        assert content(name).endswith(torn) or torn in kept, f"the torn end of {name} is lost: {shown(content(name)[-99:])}"


def answers_are_marked(written):
    """Each entry of which something was answered is in f, and m has a mark for it."""
    is_kept(content("f"), FRONT, ALL, written) if written else None
    are_marked(content("f"), FRONT if written else b"", ALL, b"1", written)


def failing_calls(calls):
    """Each call of a run by its kind, its file, and its place among those of that kind on that file."""
    counts = collections.Counter(calls)
    return [(call, file, place) for (call, file), count in counts.items() for place in range(1, count + 1)]


def name_of(file, place):
    """The name that is told of a call: that of the folder belongs to the file whose name it holds."""
    return file if file != os.path.basename(os.getcwd()) else ("f", "m", "m.torn", "f.torn")[place - 1]


def both_disks_that_fail():
    """Each write, sync and cut of the journal, of its marks, and of what is kept of their torn ends fails in turn: it is told which and why,
    nothing is answered that isn't in the journal and marked, and a service then goes on."""
    for turn, (call, file, place) in enumerate(failing_calls(calls_of_a_run())):
        number = (errno.ENOSPC, errno.EIO)[turn % 2]
        for front in some([0, 1, 40, 93], 4) if (call, file) != ("write", "m") else [0, 40]:
            status, is_ready, written, error = run_over_a_disk(of=file, call=call, fail=place, errno=number, front=front)
            what = (call, file, place, front)
            told = failed(name_of(file, place), CALLS[call], number)
            same((what, status), (what, status_of(CALLS[call])))
            assert error in [b"".join(BOTH_CUT[:count]) + told for count in range(3)], (what, shown(error))
            assert is_ready or not written
            answers_are_marked(written)
            torn_are_kept([("f", TORN_ENTRY), ("m", TORN_MARK)] if not is_ready else [])
            if IS_PROVED or turn % 3 == 0:
                is_lost_nothing(FRONT, ALL, written)


def lock_and_read_of_marks_that_fail():
    """It is told, and nothing is changed."""
    for call, of_system, number in (("lock", "flock", errno.ENOLCK), ("read", "read", errno.EIO)):
        put_pair(FRONT, HEAD + ONE)
        env = shim(refuse=of_system, errno=number, of="m", journal=os.path.abspath("m"))
        same((call, marked("--recover", env=env)), (call, (1, b"", failed("m", call, number))))
        same((pair(), glob.glob("[fm].torn*")), ((FRONT, HEAD + ONE), []))


def recovery_of_both_that_is_killed():
    """Before each of its calls in turn; then another: nothing is lost, and what was torn is kept."""
    calls = calls_of_a_run()
    before = calls[: calls.index(("write", "f"))]
    for call, file, place in some(failing_calls(before), 2):
        status, is_ready, _, _ = run_over_a_disk(of=file, call=call, kill=place, batches=[])
        same((call, file, place, status), (call, file, place, -signal.SIGKILL))
        assert content("f") in (FRONT + TORN_ENTRY, FRONT) and content("m").startswith(HEAD + ONE)
        torn_are_kept([("f", TORN_ENTRY), ("m", TORN_MARK)] if not is_ready else [])
        same(is_lost_nothing(FRONT, Due([]), b""), FRONT)


def putting_aside_that_fails_or_is_killed():
    """Older marks are put aside by five calls. Before each a kill may come, and each may fail: the file of marks is then the older one or the
    new one, and the next start goes on."""

    def run(**words):
        put_pair(FRONT, OLD_ONE)
        if os.path.exists("notes"):
            os.remove("notes")
        return marked("--recover", env=shim(notes=os.path.abspath("notes"), **words))

    same(run(), (0, ready(3), b""))
    calls, folder = [note[:2] for note in notes_of("notes") if note[1] != "out"], os.path.basename(os.getcwd())
    begin = calls.index(("write", "m.new"))
    wanted = [("write", "m.new"), ("sync", "m.new"), ("link", "m.1"), ("rename", "m"), ("sync", folder)]
    same(calls[begin : begin + len(wanted)], wanted)
    for step, (call, file) in enumerate(wanted):
        place = calls[: begin + step + 1].count((call, file))
        same((call, file, run(of=file, call=call, kill=place)[0]), (call, file, -signal.SIGKILL))
        assert content("m") == OLD_ONE or marks.after_of(content("m")), (call, file, shown(content("m")))
        same(marked("--recover"), (0, ready(3), b""))
        is_put_aside(OLD_ONE, FRONT)
        for number in (errno.ENOSPC, errno.EIO):
            told = failed("m" if file == folder else file, CALLS[call], number)
            same((call, file, run(of=file, call=call, fail=place, errno=number)), (call, file, (status_of(CALLS[call]), b"", told)))
            assert content("m") == OLD_ONE or marks.after_of(content("m")), (call, file, shown(content("m")))
            same(marked("--recover"), (0, ready(3), b""))
            is_put_aside(OLD_ONE, FRONT)


def marks_before_answers():
    """A mark is appended once its batch is synced, and before any of its answers is written; a batch without an entry has none; what is torn
    is kept, synced and cut before; and MARKS is synced at the end."""
    calls, folder = calls_of_a_run(), os.path.basename(os.getcwd())
    begins = [("sync", "f"), ("sync", folder), ("sync", "m"), ("sync", folder)]
    kept = lambda name: [("write", f"{name}.torn"), ("sync", f"{name}.torn"), ("sync", folder), ("cut", name), ("sync", name)]
    begins += kept("m") + kept("f") + [("write", "m")]
    same(calls[: len(begins)], begins)
    same(calls[-1], ("sync", "m"))
    order = [it[:2] for it in notes_of("notes")][len(begins):]
    # (a sync of MARKS in between comes where the machine is slow)
    order = [it for it in order if it != ("sync", "m")]
    batch = [("write", "f"), ("sync", "f"), ("write", "m"), ("write", "out")]
    wanted = [("write", "out")] + [it for lines in ASKED for it in (batch if Due(lines).journal else batch[3:])]
    same(order, wanted)
    same((content("f.copy"), content("m.copy")), pair())


class Disk:
    """Writes and syncs a small file over and over, and notes how long that takes on this machine just now."""

    def __enter__(self):
        self.ended, self.slowest, self.begun = threading.Event(), 0, None
        self.thread = threading.Thread(target=self.measure)
        self.thread.start()
        return self

    def measure(self):
        with open("measured", "wb", buffering=0) as file:
            while not self.ended.wait(0.02):
                self.begun = time.monotonic()
                file.write(b"x")
                os.fsync(file.fileno())
                self.slowest, self.begun = max(self.slowest, time.monotonic() - self.begun), None

    def __exit__(self, *_):
        self.ended.set()
        self.thread.join()

    def patience(self):
        """For how many seconds more than is due a sync may be waited for: for two of the slowest, which may be the one that goes on."""
        begun = self.begun
        return PATIENCE + 2 * max(self.slowest, time.monotonic() - begun if begun else 0)


def marks_that_are_synced():
    """While no line comes, and while lines come: a second after an answer was written, what was synced of MARKS covers its entry."""
    put_pair(b"", b"")
    env = shim(marks=os.path.abspath("m"), marks_copy=os.path.abspath("m.copy"))
    took, answered, first = [], [], 0
    synced = lambda: next((it.number + 1 for it in reversed(marks.read(content("m.copy")))), 0)
    with Disk() as disk, Serving("f", "--sessions", *MARKED, env=env) as run:
        run.says(ready(0))
        for turn in range(3 + rounds(100)):
            due = Due(IN_SESSIONS, first)
            run.ask(due.asked)
            run.says(due.answers)
            first, at = due.next, time.monotonic()
            while turn < 3 and synced() < first:
                assert time.monotonic() - at < SECOND + disk.patience(), "MARKS isn't synced"
                time.sleep(0.01)
            took += [time.monotonic() - at] if turn < 3 else []
            answered.append((at, first))
            begun, covers = time.monotonic(), synced()
            late = [it for at, it in answered if at < begun - SECOND - disk.patience() and it > covers]
            assert not late, f"only {covers} of {late[-1]} entries are covered by what is synced"
            time.sleep(0.02)
        same(run.end(), (0, b"", b""))
    assert sorted(took)[1] < SECOND + disk.patience() - PATIENCE, f"it took {took} seconds"
    same(content("m.copy"), content("m"))
    is_marked()


def sync_of_marks_that_fails_while_it_waits():
    """The service ends by itself with status 5, though its input is open and nothing comes. What was answered is there."""
    for number in some([errno.EIO, errno.ENOSPC], 2):
        put_pair(FRONT, HEAD + ONE)
        due = Due(IN_SESSIONS, 3)
        with Disk() as disk, Serving("f", "--sessions", *MARKED, env=shim(of="m", call="sync", fail=2, errno=number)) as run:
            run.says(ready(3))
            run.ask(due.asked)
            run.says(due.answers)
            begun = time.monotonic()
            same((run.run.wait(SECONDS), run.run.stderr.read()), (5, failed("m", "sync", number)))
            assert time.monotonic() - begun < SECOND + disk.patience(), "it came late"
            same(run.run.stdout.read(), b"")
        same(content("f"), FRONT + due.journal)
        same(is_lost_nothing(FRONT, due, due.answers), FRONT + due.journal)


def clock_that_goes_back_and_fails():
    """Marks are made in the order of the entries, whatever the clock says. Where it can't be read, or says what no mark has, nothing of the
    batch is answered."""
    put_pair(b"", b"")
    told = [(b"1764288000 999", b"2025-11-28T00:00:00.000000Z"), (b"1764201599 999999999", b"2025-11-26T23:59:59.999999Z"),
            (b"0 0", b"1970-01-01T00:00:00.000000Z"), (b"253402207200 999999999", b"9999-12-30T22:00:00.999999Z")]
    with Serving("f", *MARKED, env=shim(clock=os.path.abspath("clock"), errno=errno.EINVAL)) as run:
        run.says(ready(0))
        for clock, _ in told:
            put("clock", clock)
            run.ask(LINES[0].asked)
            run.says(LINES[0].answer)
        os.remove("clock")
        run.ask(LINES[0].asked)
        same((run.run.wait(SECONDS), run.run.stdout.read(), run.run.stderr.read()), (1, b"", failed("m", "clock", errno.EINVAL)))
    due = Due(len(told) * LINES[:1])
    same([it.time for it in marks.read(content("m"))], [it for _, it in told])
    same(content("f"), due.journal + Due(LINES[:1], due.next).journal)
    # (before `ready N` too, where entries have no mark)
    same(marked("--recover", env=shim(clock=os.path.abspath("clock"), errno=errno.EINVAL)), (1, b"", failed("m", "clock", errno.EINVAL)))
    for clock in some([b"253402207201 0", b"-1 999999999", b"9999999999999 0"], 2):
        put("clock", clock)
        status, output, error = marked("--recover", env=shim(clock=os.path.abspath("clock")))
        same((clock, status, output, error.startswith(b"mls: m: clock: ")), (clock, 1, b"", True))
    same(count_of(is_lost_nothing(due.journal, Due(LINES[:1], due.next), b"")), due.next + 1)


def states_after_a_crash(rnd, journal, noted):
    """What a crash may leave of a journal and of its marks, all of which came within a second: of the journal any whole batches, and of the
    next a front, with bytes that are zero; of the marks of those batches anything that is as it was written, zero or missing."""
    found = marks.read(noted)
    batches = rnd.randrange(len(found) + 1)
    lines, ends = journal.splitlines(keepends=True), [0, *(it.number + 1 for it in found)]
    synced = b"".join(lines[: ends[batches]])
    rest = b"".join(lines[ends[batches] : ends[min(batches + 1, len(found))]])
    return synced, synced + damaged(rnd, rest), damaged(rnd, marks.text_of(found[:batches], HEAD))


def damaged(rnd, text):
    """A front of a text, some of whose bytes are zero, and zeros behind it."""
    left = bytearray(text[: rnd.randrange(len(text) + 1)] if rnd.random() < 0.6 else text)
    for _ in range(rnd.choice((0, 0, 1, 2))):
        first = rnd.randrange(len(left) + 1)
        left[first : first + rnd.choice((1, 20, 120))] = bytes(len(left[first : first + rnd.choice((1, 20, 120))]))
    return bytes(left) + bytes(rnd.choice((0, 0, 0, 1, 500)) if rnd.random() < 0.5 else 0)


def crashes_of_the_machine():
    """Whatever a crash left of both files is recovered: all that was synced is there, with marks that agree, and what was cut is kept."""
    put_pair(None, None)
    with Serving("f", "--sessions", *MARKED) as run:
        run.says(ready(0))
        written = asked_in_batches(run, 3 * ASKED, 0)
        same((len(written) > 0, run.end()), (True, (0, b"", b"")))
    journal, noted = pair()
    rnd = random.Random(7)
    for _ in range(rounds(150)):
        synced, left, of_marks = states_after_a_crash(rnd, journal, noted)
        put_pair(left, of_marks)
        state = (shown(left), shown(of_marks))
        status, output, error = marked("--recover")
        now = content("f")
        same((state, status, output), (state, 0, ready(count_of(now))))
        assert now.startswith(synced) and journal.startswith(now), (state, shown(now))
        for name, before, after in (("f", left, now), ("m", of_marks, content("m"))):
            kept = content(f"{name}.torn") if os.path.exists(f"{name}.torn") else b""
            same((state, before.endswith(kept), after.startswith(before[: len(before) - len(kept)])), (state, True, True))
            same((state, b"mls: %s: cut " % name.encode() in error), (state, bool(kept)))
        same((state, marks.checked(now, content("m"))), (state, count_of(now)))


def marks_torn_at_each_byte():
    """The last mark cut at each byte, with each of its bytes zero, and with zeros from each byte on: recovered, and all has a mark again."""
    places = some([*range(len(ONE))], 12)
    torn = [TWO_MARK[:at] for at in places if at] + [TWO_MARK[:at] + b"\0" + TWO_MARK[at + 1:] for at in places]
    torn += [TWO_MARK[:at] + bytes(len(TWO_MARK) - at) for at in places]
    for tail in torn:
        put_pair(FRONT, HEAD + ONE + tail)
        same((tail, marked("--recover")), (tail, (0, ready(3), b"mls: m: cut after entry 0\n")))
        same((tail, content("m.torn"), content("f")), (tail, tail, FRONT))
        found = marks.read(content("m"))
        same((tail, [it.number for it in found], marks.checked(FRONT, content("m"))), (tail, [0, 2], 3))


TWO_MARK = marks.text_of(marks.headed(FRONT, [1, 3], [b"2026-11-26T08:00:01.203944Z"] * 2, HEAD)[1:])


def loop_of_a_supervisor():
    """The shell's loop of SERVICE.md begins a service again after a kill, and not after a sync that failed, of the journal or of MARKS."""
    put("requests", LINES[0].asked)
    service = f"cat requests | '{PROGRAM}' serve --recover --journal f --marks m '{STANDARD}' >answers 2>>told"
    loop = f"while {service}; [ $? -gt 128 ]; do echo again; sleep 0.1; done"
    for words in ({"kill": 3}, *({"of": it, "call": "sync", "fail": 2, "errno": errno.EIO} for it in ("f", "m"))):
        put_pair(b"", b"")
        put("told", b"")
        streams = {"stdout": subprocess.PIPE, "stderr": subprocess.DEVNULL}
        with Started(["sh", "-c", loop], start_new_session=True, env=shim(**words), **streams) as run:
            if "kill" in words:
                same((run.stdout.readline(), run.stdout.readline()), (b"again\n", b"again\n"))
                os.killpg(run.pid, signal.SIGKILL)
            else:
                same((run.communicate(timeout=SECONDS)[0], content("told")), (b"", failed(words["of"], "sync", errno.EIO)))


CHECKS = [*map(in_its_folder, [kills_under_a_client_that_is_marked, crashes_of_the_machine, marks_torn_at_each_byte])]
OVER_THE_SHIM = [*map(in_its_folder, [both_disks_that_fail, lock_and_read_of_marks_that_fail,
                  recovery_of_both_that_is_killed, putting_aside_that_fails_or_is_killed, marks_before_answers, marks_that_are_synced,
                  sync_of_marks_that_fails_while_it_waits, clock_that_goes_back_and_fails, loop_of_a_supervisor])]
