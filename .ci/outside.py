"""What checks of the program mls from outside share: how it is run, and how the checks are counted."""
import functools
import os
import re
import subprocess
import tempfile

TOP = os.path.dirname(os.path.dirname(os.path.realpath(__file__)))
MLS = f"{TOP}/bin/mls"
EXAMPLES = f"{TOP}/examples"


# Whether checks are only listed: .ci/checks.py --list says so.
IS_LISTED = "MLS_LISTED" in os.environ


def built():
    """The program that MLS_PROGRAM names; or else that which bin/mls runs: the proved one, or the trial, which it makes
    where there is none."""
    if IS_LISTED:
        return ""
    if given := os.environ.get("MLS_PROGRAM"):
        return os.path.realpath(given)
    kinds = ["proved"] if os.environ.get("MLS_PROVED", "0") != "0" else ["proved", "trial"]
    words = [f"{TOP}/bin/built", "file", *kinds]
    found = subprocess.run(words, stdout=subprocess.PIPE, text=True).stdout
    if not found:
        subprocess.run([MLS, "--version"], stdin=subprocess.DEVNULL, stdout=subprocess.DEVNULL)
        found = subprocess.run(words, stdout=subprocess.PIPE, text=True).stdout
    return found.strip()


# (empty where none could be built)
PROGRAM = built()
IS_PROVED = "/proved/" in PROGRAM
# The seconds that a run of it may take.
SECONDS = 60 if IS_PROVED else 180


def ran(script=b"", words=(), **streams):
    """Runs mls on a script, or on the streams that are given, and returns its status, its output and its error text."""
    streams = {"stdout": subprocess.PIPE, "stderr": subprocess.PIPE, **streams}
    given = {} if "stdin" in streams else {"input": script}
    done = subprocess.run([MLS, *words], timeout=SECONDS, **given, **streams)
    return done.returncode, done.stdout, done.stderr


def ran_program(words=(), script=b""):
    """Runs the program itself, for many short runs: bin/mls looks first whether it is built."""
    done = subprocess.run([PROGRAM, *words], timeout=SECONDS, input=script, capture_output=True)
    return done.returncode, done.stdout, done.stderr


class Started(subprocess.Popen):
    """A process that is killed where a check fails beside it: what it waits for may never come then."""

    def __exit__(self, kind, *told):
        if kind:
            self.kill()
        super().__exit__(kind, *told)


def put(name, content):
    """Makes a file, and returns its name."""
    with open(name, "wb") as file:
        file.write(content)
    return name


def same(found, wanted):
    assert found == wanted, f"found {shown(found)}, wanted {shown(wanted)}"


def shown(value):
    text = repr(value)
    return text if len(text) < 300 else f"{text[:150]} .. {text[-100:]}"


def examples():
    """The names of the examples."""
    names = [name[: -len(".json")] for name in sorted(os.listdir(EXAMPLES)) if name.endswith(".json")]
    assert len(names) >= 4, f"only {names}"
    return names


def example(name):
    """The bytes of a file of the examples."""
    with open(f"{EXAMPLES}/{name}", "rb") as file:
        return file.read()


def shown_by(terminal):
    """What a terminal has shown, whose other end is closed: it comes in pieces, and then nothing more can be read."""
    told = b""
    while True:
        try:
            told += os.read(terminal, 65536)
        except OSError:
            os.close(terminal)
            return told.decode()


def rounds(count):
    """How often a check does again what chance decides: over a trial, which takes ten times as long, a tenth as
    often."""
    return count if IS_PROVED else max(1, count // 10)


def some(rows, of):
    """All rows; over a trial one of so many."""
    return rows if IS_PROVED else rows[::of]


def needs_proof(check):
    """Marks a check that only the proved program can pass: a trial takes minutes for it, or more memory than it
    leaves."""
    check.needs_proof = True
    return check


def in_its_folder(check):
    """A check in a folder of its own below the one that checks run in."""

    @functools.wraps(check)
    def checked():
        folder = os.path.abspath(check.__name__)
        os.mkdir(folder)
        os.chdir(folder)
        try:
            check()
        finally:
            os.chdir(os.path.dirname(folder))

    return checked


def why_skipped(check, unfit):
    if check in unfit:
        return unfit[check]
    return "only the proved program is asked this" if hasattr(check, "needs_proof") and not IS_PROVED else ""


def outcome_of(check):
    """Runs a check, and returns why it failed; nothing where it passed."""
    try:
        check()
    except (AssertionError, OSError, StopIteration, subprocess.SubprocessError) as error:
        return f"FAILED: {error}"
    return ""


def list_checks(checks):
    """Prints the names of checks, each with the first sentence that is written of it."""
    for check in checks:
        words = " ".join((check.__doc__ or "").split())
        print(f"    {check.__name__.replace('_', ' ')}" + (f": {re.split(r'(?<=[.]) ', words)[0]}" if words else ""))
    return 0


def run_checks(what, checks, unfit={}):
    """Runs checks in a folder that is removed after, but for those that are unfit here, each with the reason. Prints a
    line for each, and last 'N passed, M failed', or 'N passed, M failed, K skipped'; returns the status."""
    if IS_LISTED:
        return list_checks(checks)
    if not PROGRAM:
        print(f"{what}: NOT BUILT\n0 passed, 1 failed")
        return 1
    # (so nothing else is run from now on, and a trial doesn't say that it is one)
    os.environ.update({"MLS_PROVED": "1"} if IS_PROVED else {"MLS_TRIAL": "quiet"})
    failed = skipped = 0
    with tempfile.TemporaryDirectory() as elsewhere:
        os.chdir(elsewhere)
        for check in checks:
            why = why_skipped(check, unfit)
            fault = "" if why else outcome_of(check)
            skipped, failed = skipped + bool(why), failed + bool(fault)
            told = f"skipped: {why}" if why else fault or "ok"
            print(f"{what}: {check.__name__.replace('_', ' ')}: {told}", flush=True)
        os.chdir("/")
    ending = f", {skipped} skipped" if skipped else ""
    print(f"{len(checks) - failed - skipped} passed, {failed} failed{ending}")
    return 1 if failed else 0
