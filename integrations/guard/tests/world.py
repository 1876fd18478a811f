"""What the checks share: three folders, a filter and a guard over them."""
import json
import os
import signal
import subprocess
import sys
import tempfile
import threading
import time

HERE = os.path.dirname(os.path.realpath(__file__))
GUARD = f"{os.path.dirname(HERE)}/guard"
START = f"{os.path.dirname(HERE)}/start.json"
TOP = os.path.dirname(os.path.dirname(os.path.dirname(HERE)))
MLS = os.environ.get("MLS_PROGRAM") or subprocess.run(
    [f"{TOP}/bin/built", "file", "proved", "trial"], stdout=subprocess.PIPE, text=True, check=False).stdout.strip()
SECONDS = 300


class Skipped(Exception):
    """A check that can't be made here, for this reason."""


# Set once the checks are told to end: those that take long look at it.
ENDING = threading.Event()
# What the filter of the checks refuses.
SECRET = b"SECRET"
FILTER = "! grep -q SECRET"


def put(path, content, mode=0o644):
    """A file, made as a sender does it: whole before it has its name."""
    folder, name = os.path.split(path)
    new = os.path.join(folder, "." + name[:200])
    with open(new, "wb") as file:
        file.write(content)
    os.chmod(new, mode)
    os.rename(new, path)


def content(path):
    with open(path, "rb") as file:
        return file.read()


def same(found, wanted):
    assert found == wanted, f"found {str(found)[:400]!r}, wanted {str(wanted)[:400]!r}"


def mls(*words):
    done = subprocess.run([MLS, *words], capture_output=True, text=True, timeout=SECONDS, check=False)
    return done.returncode, done.stdout


class World:
    """Folders of its own. `sent` is what was put into the high folder, by name; `received` what was taken from the low
    one, which a reader may do at any time."""

    def __init__(self, start=None):
        self.kept = tempfile.TemporaryDirectory(prefix="guard-")
        self.folder = self.kept.name
        self.high, self.low, self.state = (f"{self.folder}/{name}" for name in ("high", "low", "state"))
        for path in (self.high, self.low, self.state):
            os.mkdir(path)
        self.filter, self.start, self.sent, self.received = f"{self.folder}/filter", start or START, {}, {}
        # (what somebody else has laid into the low folder, and whose messages are turned back for it)
        self.obstacles, self.blocked, self.late = set(), set(), False
        self.write_filter(FILTER)
        self.guards = []

    def __enter__(self):
        return self

    def __exit__(self, *_):
        for guard in self.guards:
            if guard.poll() is None:
                guard.kill()
            guard.wait()
        self.kept.cleanup()

    def write_filter(self, text):
        put(self.filter, f"#!/bin/sh\n{text}\n".encode(), 0o755)

    def send(self, name, message):
        put(f"{self.high}/{name}", message)
        self.sent[name] = message

    def obstruct(self, low, name, make=None):
        """Somebody lays something into the low folder, where the message of a name in the high one is to come."""
        (make or (lambda path: put(path, b"mine")))(f"{self.low}/{low}")
        self.obstacles.add(low)
        self.blocked.add(name)

    def words(self, *flags, program=MLS, filter_program=None):
        return ["--high", self.high, "--low", self.low, "--state", self.state, "--program", program, "--start",
                self.start, "--filter", filter_program or self.filter, *flags]

    def run(self, *flags, before=(GUARD,), **how):
        """Runs the guard once, and returns its status and what it says."""
        box = flags[flags.index("--"):] if "--" in flags else ()
        flags = flags[: len(flags) - len(box)]
        done = subprocess.run([*before, *self.words("--once", *flags, **how), *box], stdin=subprocess.DEVNULL,
                              capture_output=True, text=True, errors="replace", timeout=SECONDS, check=False)
        return done.returncode, done.stderr

    def dies(self, place):
        """Runs a guard that dies there."""
        same(self.run(before=crashing(place))[0], -signal.SIGKILL)

    def begin(self, *flags):
        """Begins a guard that goes on."""
        with open(f"{self.folder}/said", "ab") as said:
            self.guards.append(subprocess.Popen([GUARD, *self.words("--every", "0.02", *flags)],
                                                stdin=subprocess.DEVNULL, stdout=said, stderr=said))
        return self.guards[-1]

    def receive(self):
        """Takes away what is in the low folder, as its reader."""
        for name in os.listdir(self.low):
            if not name.startswith(".") and name not in self.obstacles:
                assert name not in self.received, f"{name} came twice"
                self.received[name] = content(f"{self.low}/{name}")
                os.remove(f"{self.low}/{name}")

    def log(self):
        """The lines of the log: session, what, and the words behind the entry's number."""
        lines = [line.split() for line in content(f"{self.state}/journal.sessions").decode("ascii").splitlines()]
        return [(int(words[0]), words[1], words[5:]) for words in lines]

    def messages(self):
        """What the log has of each session, the last of each kind."""
        found = {}
        for session, what, more in self.log():
            if session:
                found.setdefault(session, {})[what] = more
        return found

    def told(self, session):
        return self.messages().get(session, {})

    def granted(self):
        """Of each session, its requests that were granted."""
        status, text = mls("journal", self.start, f"{self.state}/journal")
        assert status in (0, 4), status
        found = {}
        for line in text.splitlines():
            _, _, session, request = line.split(" ", 3)
            request, _, reply = request.rpartition(": ")
            if reply.startswith(("yes", "created")):
                found.setdefault(int(session), []).append(request)
        return found

    def nothing_moved(self):
        self.receive()
        same((self.received, [name for name in os.listdir(self.low)]), ({}, []))


def service_of(process):
    """The process of the service of a guard, or None."""
    try:
        with open(f"/proc/{process.pid}/task/{process.pid}/children", encoding="ascii") as file:
            children = [int(word) for word in file.read().split()]
        return next((child for child in children if b"serve" in content(f"/proc/{child}/cmdline").split(b"\0")), None)
    except OSError:
        return None


def goes_on():
    """Ends a check that takes long, where the checks are told to end."""
    if ENDING.is_set():
        raise Skipped("told to end")


def waits(condition, what):
    ends = time.monotonic() + SECONDS
    while not condition():
        assert time.monotonic() < ends, f"it took too long: {what}"
        time.sleep(0.01)


def start_with(world, change):
    """A start file that is another in something, which a function says over what the file has."""
    with open(START, encoding="utf-8") as file:
        start = json.load(file)
    change(start)
    world.start = f"{world.folder}/start.json"
    with open(world.start, "w", encoding="utf-8") as file:
        json.dump(start, file)


def crashing(place, mode="kill", late=False):
    """The words that run a guard which dies at its call of this number, or before what has this text. With `late`
    somebody lays a file into the low folder before each message gets its name there."""
    return [sys.executable, f"{HERE}/crashing.py", str(place), f"{mode}-late" if late else mode]
