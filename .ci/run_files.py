"""What mls run does with the file of its journal, and leaves of it: a row for each way in which it could take a file that another has
need of. check-runs runs them."""
import fcntl
import os
import stat
import subprocess
import threading
import time

import journal_rows
from outside import EXAMPLES, PROGRAM, SECONDS, put, ran, same
from serving import Due, REQUESTS, Serving, content, mode_of, ready, served, shim

STANDARD = f"{EXAMPLES}/standard.json"
CLIMB = b"bob get-read memo\nbob level C\nbob get-read memo\nbob level U\nbob release read memo\nbob level U\n"
CLIMB_JOURNAL = journal_rows.CLIMB
CLIMB_OUTPUT = b"session 0\nno star\nyes\nyes\nno star\nyes\nyes\nentries 6\nsecure yes\n"
OLDER = b"0 0 0 get-read 1 yes\n" + 300 * b"what was there before\n"


def run_of(journal, *words, start="start.json", script="climb", **how):
    """Runs the program itself, since what stands before its calls would note those of bin/mls too."""
    words = [PROGRAM, "run", *words, "--journal", journal, start, script]
    done = subprocess.run(words, input=b"", capture_output=True, timeout=SECONDS, **how)
    return done.returncode, done.stdout, done.stderr


def put_files():
    put("start.json", content(STANDARD))
    put("climb", CLIMB)


def is_in_use(name, *words, **given):
    """A run over a file is refused and asks nothing."""
    same((name, run_of(name, *words, **given)), (name, (1, b"", b"mls: %s: in use\n" % name.encode())))


def journal_of_a_service_that_runs():
    """Neither its bytes nor its entries are touched, by whatever name; and where a run has them, the service is refused."""
    put_files()
    due = Due(REQUESTS)
    with Serving("j") as service:
        service.says(ready(0))
        service.ask(due.asked)
        service.says(due.answers)
        os.symlink("j", "link")
        os.link("j", "hard")
        for name in ("j", "./j", os.path.abspath("j"), "link", "hard"):
            for words in ([], ["--serial"]):
                is_in_use(name, *words)
                same(content("j"), due.journal)
        more = Due(REQUESTS, due.next)
        service.ask(more.asked)
        service.says(more.answers)
        same(service.end(), (0, b"", b""))
    same(served(b"", "j"), (0, ready(more.next), b""))
    same(content("j"), due.journal + more.journal)


def files_of_the_run_itself():
    """FILE that is the start file or a script, by whatever name, stays as it is."""
    put_files()
    put("other", b"ann get-read plans\n")
    os.mkdir("sub")
    for name in ("start.json", "climb", "other"):
        before = content(name)
        os.symlink(f"../{name}", f"sub/{name}.link")
        os.link(name, f"sub/{name}.hard")
        for path in (name, f"./{name}", os.path.abspath(name), f"sub/../{name}", f"sub/{name}.link", f"sub/{name}.hard"):
            for words in ([], ["--serial"]):
                found = ran(words=["run", *words, "--journal", path, "start.json", "climb", "other"])
                same((path, found), (path, (1, b"", b"mls: %s: in use\n" % path.encode())))
                same((path, content(name)), (path, before))


def journal_that_another_has_locked():
    """Whoever has locked FILE, also for reading. A start file or a script that is locked may be about to be written: with --journal it is in
    use."""
    put_files()
    put("j", OLDER)
    for how in (fcntl.LOCK_SH, fcntl.LOCK_EX):
        with open("j", "rb") as held:
            fcntl.flock(held, how)
            is_in_use("j")
    same(content("j"), OLDER)
    for name in ("start.json", "climb"):
        with open(name, "rb") as held:
            fcntl.flock(held, fcntl.LOCK_SH)
            same(run_of("k"), (0, CLIMB_OUTPUT, b""))
            os.remove("k")
            fcntl.flock(held, fcntl.LOCK_EX)
            same(run_of("k"), (1, b"", b"mls: %s: in use\n" % name.encode()))
            assert not os.path.exists("k"), "a refused run made its journal"
            same(ran(words=["run", "start.json", "climb"]), (0, CLIMB_OUTPUT, b""))


def refused_run_leaves_its_journal():
    """What stood in FILE stands there still, and a FILE that wasn't there isn't."""
    put_files()
    put("bad.json", content(STANDARD).replace(b'"T:A,B"', b'"T:A,A"'))
    put("j", OLDER)
    os.chmod("j", 0o640)
    os.symlink("nowhere", "dangling")
    rows = [("bad.json", "climb", b"bad.json: start 5 Label"), ("none.json", "climb", b"none.json: file"), ("start.json", "none", b"none: file")]
    for start, script, told in rows:
        for name in ("j", "new", "dangling"):
            for words in ([], ["--serial"]):
                found = run_of(name, *words, start=start, script=script)
                same((start, name, found), (start, name, (1, b"", b"mls: " + told + b"\n")))
                same((content("j"), mode_of("j"), os.path.exists("new")), (OLDER, 0o640, False))
                same((os.readlink("dangling"), os.path.lexists("nowhere")), ("nowhere", False))


def journal_that_is_made_anew():
    """What was there is gone, however long it was; the file and its mode stay, and so do its other names."""
    put_files()
    put("j", OLDER)
    os.chmod("j", 0o644)
    os.link("j", "twin")
    same(run_of("j"), (0, CLIMB_OUTPUT, b""))
    same((content("j"), content("twin"), mode_of("j")), (CLIMB_JOURNAL, CLIMB_JOURNAL, 0o644))
    os.mkdir("far")
    os.symlink("far/j", "near")
    same(run_of("near"), (0, CLIMB_OUTPUT, b""))
    same((content("far/j"), os.readlink("near")), (CLIMB_JOURNAL, "far/j"))
    same(served(b"", "j"), (0, ready(6), b""))


def mode_of_a_journal_that_is_made():
    put_files()
    for umask, mode in ((0, 0o600), (0o077, 0o600), (0o277, 0o400)):
        same(run_of(f"{umask}", preexec_fn=lambda: os.umask(umask)), (0, CLIMB_OUTPUT, b""))
        same((umask, mode_of(f"{umask}"), content(f"{umask}")), (umask, mode, CLIMB_JOURNAL))


def journal_that_is_no_regular_file():
    """It is written as bytes, with no lock: a pipe, standard output, a device."""
    put_files()
    os.mkfifo("fifo")
    found = []
    reader = threading.Thread(target=lambda: found.append(content("fifo")))
    reader.start()
    same(run_of("fifo"), (0, CLIMB_OUTPUT, b""))
    reader.join(SECONDS)
    same((found, stat.S_ISFIFO(os.stat("fifo").st_mode)), ([CLIMB_JOURNAL], True))
    same(run_of("/dev/stdout"), (0, CLIMB_JOURNAL + CLIMB_OUTPUT, b""))
    same(run_of("/dev/null"), (0, CLIMB_OUTPUT, b""))
    same(run_of("/dev/full"), (1, b"", b"mls: /dev/full: file\n"))


def calls_on_the_file_of_a_journal():
    """It is cut only once all is answered, and the status comes once it is synced with its folder."""
    put_files()
    os.mkdir("there")
    put("there/j", OLDER)
    notes = os.path.abspath("notes")
    same(run_of("there/j", env=shim(notes=notes)), (0, CLIMB_OUTPUT, b""))
    noted = [tuple(line.split()) for line in content(notes).decode().splitlines()]
    size = str(len(CLIMB_JOURNAL))
    wanted = [("cut", "j", "0", "ok"), ("write", "j", size, "ok"), ("sync", "j", size, "ok")]
    same(noted[:3], wanted)
    same([it[:2] for it in noted[3:]], [("sync", "there"), ("write", "out")])
    for place in (1, 2, 3, 4):
        put("there/j", OLDER)
        same((place, run_of("there/j", env=shim(fail=place, errno=28))), (place, (1, b"", b"mls: there/j: file\n")))


def run_beside_a_run():
    """While one writes FILE, here for seconds, another is refused, and a service too."""
    put_files()
    found = []
    first = threading.Thread(target=lambda: found.append(run_of("beside", env=shim(slow=1_500_000))))
    first.start()
    ends = time.monotonic() + SECONDS
    while not (os.path.exists("beside") and content("beside")) and time.monotonic() < ends:
        time.sleep(0.01)
    is_in_use("beside")
    same(served(b"", "beside"), (1, b"", b"mls: beside: in use\n"))
    first.join()
    same((found, content("beside")), ([(0, CLIMB_OUTPUT, b"")], CLIMB_JOURNAL))
    same(run_of("beside"), (0, CLIMB_OUTPUT, b""))


CHECKS = [journal_of_a_service_that_runs, files_of_the_run_itself, journal_that_another_has_locked,
          refused_run_leaves_its_journal, journal_that_is_made_anew, mode_of_a_journal_that_is_made,
          journal_that_is_no_regular_file]
OVER_THE_SHIM = [calls_on_the_file_of_a_journal, run_beside_a_run]
