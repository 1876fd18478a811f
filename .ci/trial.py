"""Checks of bin/mls where nothing is proved, and of bin/prove where all is. check-program runs them, in copies of the
checkout. One trial at the most is made in earnest. Where it is tried what else may happen as one is made, a script plays
the toolchain's rt."""
import os
import pty
import select
import shutil
import signal
import subprocess
import termios
import time

from outside import EXAMPLES, IS_PROVED, PROGRAM, SECONDS, TOP, Started, needs_proof, put, ran, same, shown

SECONDS_OF_A_TRIAL = 900
VERSION = b"mls 0.3.0, a checked trial, not proved\n"
SECONDS_OF_NOTHING = 30
FOUR = b"ann get-read plans\nbob get-read memo\nann release read plans\nann check read plans\n"
ANSWERS = b"yes\nno star\nyes\nnot held\n"
TOLD = b"mls: a checked trial of the program runs, not a proved one: bin/prove proves it\n"
MAKING = b"mls: making a checked trial of the program, once: two minutes\n"
MAKING_FIRST = b"mls: making a checked trial, once: an answer in half a minute, all other commands in two\n"
# What plays rt: it notes each try, and compiles the program that is named into a folder below TMPDIR, where it runs it.
# It knows no folder of the toolchain, so nothing is compiled without it.
PLAYED = """#!/bin/sh
[ "$1" != doc ] || exit 1
echo "$*" >>%s/tries
%s
mkdir -p "$TMPDIR/rt-try/native"
cp %s "$TMPDIR/rt-try/native/program"
for it; do last=$it; done
exec "$TMPDIR/rt-try/native/program" check "$last"
"""


class Copy:
    """A copy of the checkout, in which nothing is built."""

    def __init__(self, name):
        self.top = os.path.abspath(name)
        shutil.copytree(TOP, self.top, symlinks=True, ignore=shutil.ignore_patterns("out", ".git"))
        self.mls, self.out = f"{self.top}/bin/mls", f"{self.top}/crates/mls/out"
        self.env = {**os.environ, "MLS_PROVED": "", "MLS_TRIAL": ""}

    def plays(self, does="", program=PROGRAM):
        """Has rt played from now on: it does something before it compiles that program."""
        os.makedirs(f"{self.top}/played", exist_ok=True)
        put(f"{self.top}/played/rt", (PLAYED % (self.top, does, program)).encode())
        os.chmod(f"{self.top}/played/rt", 0o755)
        self.env["PATH"] = f"{self.top}/played:{os.environ['PATH']}"

    def tries(self):
        """How often rt was asked for a trial."""
        name = f"{self.top}/tries"
        return open(name, encoding="utf-8").read().count("\n") if os.path.exists(name) else 0

    def start(self, *words, **how):
        """Starts bin/mls, which an interrupt ends also where whoever runs the checks ignores interrupts."""
        pipes = dict.fromkeys(("stdin", "stdout", "stderr"), subprocess.PIPE)
        heed = {"preexec_fn": lambda: signal.signal(signal.SIGINT, signal.SIG_DFL)}
        return Started([self.mls, *words], **{**pipes, **heed, "env": self.env, **how})

    def ran(self, *words, script=FOUR, seconds=SECONDS):
        """What bin/mls gives: its status, its output and its error text."""
        with self.start(*words) as run:
            output, error = run.communicate(script, timeout=seconds)
        return run.returncode, output, error

    def built(self, *words):
        """What bin/built prints."""
        done = subprocess.run([f"{self.top}/bin/built", *words], check=True, stdout=subprocess.PIPE, text=True)
        return done.stdout.strip()

    def change(self):
        """Changes a source."""
        with open(f"{self.top}/crates/mls/src/main.rt", "ab") as file:
            file.write(b"// changed\n")


def with_a_trial(name):
    """A copy with a trial: the one that this checkout keeps, or else one that is made here."""
    copy = Copy(name)
    if IS_PROVED and not os.path.isdir("made"):
        same(copy.ran("--version", seconds=SECONDS_OF_A_TRIAL), (0, VERSION, MAKING + TOLD))
        shutil.copytree(f"{copy.out}/trial", "made")
    else:
        shutil.copytree("made" if IS_PROVED else f"{TOP}/crates/mls/out/trial", f"{copy.out}/trial")
    return copy


def trial_that_is_kept():
    """It answers as a proved program does, with the words and the streams as they are, by the same names."""
    copy = with_a_trial("kept")
    same(copy.ran(), (0, ANSWERS, b""))
    words = ["run", "--serial", "--journal", "kept.journal", f"{EXAMPLES}/standard.json", put("kept.script", FOUR)]
    same(copy.ran(*words)[::2], (0, b""))
    same(copy.ran("replay", f"{EXAMPLES}/standard.json", "kept.journal"), (0, b"entries 3\nsecure yes\n", b""))
    same(copy.ran("check", "/dev/stdin", script=b"{}"), (1, b"", b"mls: /dev/stdin: start 2 Members\n"))
    same(copy.ran(b"\xff", "check"), ran(words=[b"\xff", "check"]))
    assert b"\nUsage: mls [" in copy.ran("--help")[1], "help names another program"


def read_until(terminal, wanted):
    """What a terminal shows up to the text that is wanted."""
    found = b""
    while not found.endswith(wanted):
        assert select.select([terminal], [], [], SECONDS)[0], f"nothing comes after {shown(found)}"
        found += os.read(terminal, 1)
    return found


def lines_that_are_typed():
    """At a terminal it is told each time that a trial answers, unless that is to be quiet. Then help is shown, and each
    line is asked for, and answered before the next is typed."""
    copy = with_a_trial("typed")
    for quiet, told in (("", TOLD), ("quiet", b"")):
        copy.env["MLS_TRIAL"] = quiet
        terminal, other = pty.openpty()
        attributes = termios.tcgetattr(other)
        attributes[3] &= ~termios.ECHO
        termios.tcsetattr(other, termios.TCSANOW, attributes)
        with copy.start(stdin=other, stdout=other, stderr=other) as run:
            os.close(other)
            head = told.replace(b"\n", b"\r\n") + b"subjects ann bob sec aud\r\n"
            shown_first = read_until(terminal, b"mls> ")
            assert shown_first.startswith(head) and shown_first.endswith(b" quit or exit ends.\r\nmls> "), shown(shown_first)
            for line, answer in zip(FOUR.splitlines(), ANSWERS.splitlines()):
                os.write(terminal, line + b"\n")
                same((line, read_until(terminal, b"mls> ")), (line, answer + b"\r\nmls> "))
            os.write(terminal, b"\x04")
            same(run.wait(SECONDS), 0)
        os.close(terminal)


def service_that_is_killed():
    """A service over a trial is killed once it has answered, and the next goes on with its journal."""
    copy = with_a_trial("served")
    words = ["--journal", "served.journal", f"{EXAMPLES}/standard.json"]
    with copy.start("serve", *words) as run:
        os.write(run.stdin.fileno(), b"ann get-read plans\n")
        same(read_until(run.stdout.fileno(), b"yes\n"), b"ready 0\nyes\n")
        run.kill()
    same(copy.ran("serve", "--recover", *words), (0, b"ready 1\n" + ANSWERS, b""))


def told_of(program):
    """The line of a program's version."""
    return subprocess.run([program, "--version"], check=True, stdout=subprocess.PIPE).stdout


def two_first_runs_at_once():
    """They make the trial once; each says that it is one, and answers."""
    copy = Copy("race")
    copy.plays("sleep 2")
    first, second = copy.start("--version"), copy.start("--version")
    for run in (first, second):
        output, error = run.communicate(timeout=SECONDS)
        same((run.returncode, output, error), (0, told_of(PROGRAM), MAKING + TOLD))
    same(copy.tries(), 1)
    same((copy.ran(), copy.tries()), ((0, ANSWERS, b""), 1))


def until(deed):
    """Waits until something holds."""
    ends = time.monotonic() + SECONDS_OF_A_TRIAL
    while not deed() and time.monotonic() < ends:
        time.sleep(0.1)
    assert deed(), "it doesn't hold"


def first_answer():
    """Without words a program that answers just that is made, and the whole one behind it, each once; after that the
    whole one answers. Two such runs at once make each once, too."""
    copy = Copy("first")
    copy.plays("sleep 2")
    first, second = copy.start(), copy.start()
    for run in (first, second):
        output, error = run.communicate(FOUR, timeout=SECONDS)
        same((run.returncode, output, error), (0, ANSWERS, MAKING_FIRST + TOLD))
    until(lambda: os.path.exists(f"{copy.out}/trial/sources"))
    same((copy.ran("--version"), copy.tries()), ((0, told_of(PROGRAM), b""), 2))


@needs_proof
def first_program():
    """What the toolchain makes first answers scripts over the standard start as the whole program does."""
    copy = Copy("answers")
    done = subprocess.run([f"{copy.top}/bin/trial", "first"], capture_output=True, timeout=SECONDS_OF_A_TRIAL)
    same((done.returncode, done.stdout, done.stderr), (0, b"", b""))
    scripts = [FOUR, b"", b"\n\xff\nann get-read\n", b"a" * 600 + b"\n", FOUR * 40 + b"ann get-read plans"]
    scripts += [put_together(it) for it in sorted(os.listdir(EXAMPLES)) if it.endswith(".script")]
    for script in scripts:
        first, whole = (subprocess.run([it], input=script, capture_output=True, timeout=SECONDS)
                        for it in (f"{copy.out}/first/mls", PROGRAM))
        same((first.returncode, first.stdout, first.stderr), (whole.returncode, whole.stdout, whole.stderr))


def put_together(name):
    """The bytes of a file of the examples."""
    with open(os.path.join(EXAMPLES, name), "rb") as file:
        return file.read()


def source_that_changes():
    """It ends the use of a trial, and of a proved program; and a trial isn't kept of sources that changed while it was
    made."""
    copy, told = Copy("changed"), told_of(PROGRAM)
    copy.plays()
    copy.env["MLS_TRIAL"] = "quiet"
    same((copy.ran("--version"), copy.ran(), copy.tries()), ((0, told, b""), (0, ANSWERS, b""), 1))
    copy.change()
    same((copy.ran("--version"), copy.tries()), ((0, told, b""), 2))
    copy.built("keep", "proved", PROGRAM, copy.built("sum"))
    same((copy.ran("--proved"), copy.ran(), copy.tries()), ((0, ANSWERS, b""), (0, ANSWERS, b""), 2))
    copy.change()
    same(copy.ran("--proved")[:2], (126, b""))
    same((copy.ran("--version"), copy.tries()), ((0, told, b""), 3))
    copy.change()
    copy.plays(f"echo >>{copy.top}/crates/mls/src/main.rt")
    status, output, error = copy.ran("--version")
    same((status, output), (126, b""))
    assert b"a source changed while the program was built" in error, shown(error)
    copy.plays()
    same((copy.ran("--version"), copy.tries()), ((0, told, b""), 5))


def proved_program_alone():
    """What asks for it is told at once to prove first, though there is a trial; so is the first run."""
    copy = with_a_trial("alone")
    for _ in range(2):
        copy.env["MLS_PROVED"] = ""
        asked = [copy.ran("--proved"), copy.ran("--proved", "--version")]
        copy.env["MLS_PROVED"] = "1"
        for found in (*asked, copy.ran()):
            same(found[:2], (126, b""))
            assert found[2].count(b"\n") == 1 and b"run bin/prove first" in found[2], shown(found)
        shutil.rmtree(copy.out, ignore_errors=True)


def toolchain_that_fails():
    """What it says is shown, and nothing runs; a later run makes the trial."""
    copy = Copy("failing")
    rows = [("echo 'error: this is no program' >&2; exit 1", b"error: this is no program\n"),
            ("echo it was killed; kill -9 $$", b"it was killed\n"), ("exit 0", b"")]
    for does, told in rows:
        copy.plays(does)
        status, output, error = copy.ran("--version")
        same((does, status, output), (does, 126, b""))
        assert told in error and error.endswith(b"mls: no trial of the program was made\n"), shown(error)
    copy.plays(program="/no/such/program")
    same(copy.ran("--version")[:2], (126, b""))
    copy.plays()
    same(copy.ran("--version"), (0, told_of(PROGRAM), MAKING + TOLD))


def trial_that_is_interrupted():
    """Where its making is interrupted, nothing of it goes on and nothing is left; a later run makes it."""
    copy = Copy("interrupted")
    for number in (signal.SIGINT, signal.SIGTERM):
        copy.plays(f"echo $$ >{copy.top}/number; exec sleep 1000")
        before = copy.tries()
        with copy.start("--version") as run:
            until(lambda: copy.tries() > before and os.path.exists(f"{copy.top}/number"))
            run.send_signal(number)
            try:
                same((number, run.wait(SECONDS), run.stdout.read()), (number, 130, b""))
            finally:
                run.kill()
        until(lambda: is_over(copy))
        os.remove(f"{copy.top}/number")
        same((number, os.path.exists(f"{copy.top}/out/trial.making")), (number, False))
    copy.plays()
    same(copy.ran("--version"), (0, told_of(PROGRAM), MAKING + TOLD))


def is_over(copy):
    """Whether the process that noted its number has ended."""
    number = put_together(f"{copy.top}/number").strip()
    return number != b"" and not os.path.exists(b"/proc/" + number)


@needs_proof
def proof_of_what_is_proved():
    """Where all is proved, bin/prove has nothing to do, and the proved program alone answers."""
    begun, prove = time.monotonic(), f"{TOP}/bin/prove"
    done = subprocess.run([prove], stdin=subprocess.DEVNULL, capture_output=True, timeout=SECONDS_OF_NOTHING)
    same((done.returncode, done.stdout, done.stderr), (0, b"", b""))
    assert time.monotonic() - begun < SECONDS_OF_NOTHING
    same(ran(FOUR, ["--proved"]), (0, ANSWERS, b""))
    assert subprocess.run([prove, "--jobs", "none"], capture_output=True).returncode == 2


CHECKS = [
    trial_that_is_kept,
    lines_that_are_typed,
    service_that_is_killed,
    two_first_runs_at_once,
    first_answer,
    first_program,
    source_that_changes,
    proved_program_alone,
    toolchain_that_fails,
    trial_that_is_interrupted,
    proof_of_what_is_proved,
]
