"""What the checks of mls serve share: how it is run, what it is asked, and what it must answer and keep."""
import collections
import fcntl
import os
import select
import shutil
import stat
import subprocess
import sys
import tempfile
import termios
import threading
import time

import outside
from outside import EXAMPLES, SECONDS, same, shown

TOP = outside.TOP
STANDARD = f"{EXAMPLES}/standard.json"

# A line over the standard start whose answer doesn't depend on what was asked before, with that answer, and with what its
# entry has after the number of its session; None where it has no entry. `session` is that number, where the line tells it.
Line = collections.namedtuple("Line", "asked answer entry session", defaults=[None])
LINES = [Line(b"ann get-read plans\n", b"yes\n", b"0 get-read 1 yes"),
         Line(b"ann release read plans\n", b"yes\n", b"0 release read 1 yes"),
         Line(b"bob get-read memo\n", b"no star\n", b"1 get-read 2 no star"),
         Line(b"ann get-append plans\n", b"no discretionary\n", b"0 get-append 1 no discretionary"),
         Line(b"sec get-write root\n", b"yes\n", b"2 get-write 0 yes"),
         Line(b"#300 get-read #3\n", b"undefined\n", b"300 get-read 3 undefined"),
         Line(b"bob check append plans\n", b"not held\n", None), Line(b"ann frob plans\n", b"bad form\n", None),
         Line(b"zoe get-read plans\n", b"bad name\n", None), Line(b"; a note\n", b"", None)]
# (those that have an entry)
REQUESTS = [line for line in LINES if line.entry]


def asked_in(number, line):
    """A line as a service with --sessions is asked it, with its answer."""
    told = b"%d " % number
    return Line(told + line.asked, told + line.answer if line.answer else b"", line.entry, number)


# Lines of sessions, as --sessions has them: each of LINES, and one that only tells what it would be answered.
IN_SESSIONS = [asked_in(number, line) for number, line in zip((7, 0, 4_294_967_294, 7, 12, 3, 0, 7, 5, 2), LINES)]
IN_SESSIONS.append(Line(b"12 ? ann get-read plans\n", b"12 ? yes\n", None, 12))


class Due:
    """Lines, with the answers and the entries that are due to them, over a journal that has `first` entries."""

    def __init__(self, lines, first=0, session=0):
        self.lines, self.entries = lines, []
        for line in lines:
            who = session if line.session is None else line.session
            entry = b"" if line.entry is None else b"%d %d %s\n" % (first, who, line.entry)
            first += line.entry is not None
            self.entries.append(entry)
        self.asked = b"".join(line.asked for line in lines)
        self.answers = b"".join(line.answer for line in lines)
        self.journal = b"".join(self.entries)
        self.next = first

    def behind(self, written):
        """The entries of the lines of whose answers some bytes were written."""
        assert self.answers.startswith(written), f"other answers were due: {shown(written)}"
        count = 0
        for place, line in enumerate(self.lines):
            if count >= len(written):
                return b"".join(self.entries[:place])
            count += len(line.answer)
        assert count >= len(written)
        return self.journal


def is_kept(journal, before, due, written):
    """A journal has what it had before, all entries of the lines of which something was answered, and no other than those due."""
    needed = before + due.behind(written)
    assert journal.startswith(needed), f"an entry is lost: {shown(journal[len(before):])}, answered {shown(written)}"
    assert (before + due.journal).startswith(journal), f"an entry was not asked for: {shown(journal[len(before):])}"


def content(name):
    with open(name, "rb") as file:
        return file.read()


def ready(number):
    return b"ready %d\n" % number


def failed(name, call, errno):
    """What is told of a call on a file that failed."""
    return b"mls: %s: %s: %s (os error %d)\n" % (name.encode(), call.encode(), os.strerror(errno).encode(), errno)


def status_of(call):
    """The status after a call on a file that failed."""
    return 5 if call in ("append", "sync") else 1


def mode_of(name):
    return stat.S_IMODE(os.stat(name).st_mode)


def words_of(journal, *flags, start=STANDARD):
    return [outside.PROGRAM, "serve", *flags, "--journal", journal, start]


def served(asked, journal, *flags, start=STANDARD, **how):
    """Serves lines to their end, and returns the status, the output and the error text."""
    done = subprocess.run(words_of(journal, *flags, start=start), input=asked, capture_output=True, timeout=SECONDS, **how)
    return done.returncode, done.stdout, done.stderr


def is_refused(told, journal, *flags, status=1, asked=b"ann get-read plans\n", **how):
    """Serving is refused with a line before anything is answered."""
    wanted = (status, b"", b"mls: " + told + b"\n")
    same((flags, served(asked, journal, *flags, **how)), (flags, wanted))


class Serving:
    """A service that runs, and its client."""

    def __init__(self, journal, *flags, start=STANDARD, **how):
        pipes = dict.fromkeys(("stdin", "stdout", "stderr"), subprocess.PIPE)
        self.run = subprocess.Popen(words_of(journal, *flags, start=start), bufsize=0, **{**pipes, **how})
        self.feeder = None

    def __enter__(self):
        return self

    def __exit__(self, *_):
        if self.run.poll() is None:
            self.run.kill()
        self.run.wait()
        if self.feeder:
            self.feeder.join()
        for pipe in (self.run.stdin, self.run.stdout, self.run.stderr):
            if pipe and not pipe.closed:
                pipe.close()

    def ask(self, asked):
        self.run.stdin.write(asked)

    def read(self, count):
        """That many bytes of the output, or fewer where it ends before."""
        found = b""
        while len(found) < count:
            assert select.select([self.run.stdout], [], [], SECONDS)[0], f"nothing comes after {shown(found)}"
            part = self.run.stdout.read(count - len(found))
            if not part:
                break
            found += part
        return found

    def says(self, wanted):
        same(self.read(len(wanted)), wanted)

    def waits_for_its_client(self):
        """Waits until the output takes no more, since nobody reads it."""
        ends, room, before, now = time.monotonic() + SECONDS, fcntl.fcntl(self.run.stdout, fcntl.F_GETPIPE_SZ), 0, 0
        # (a page of it may have room left, and yet none for the next answers)
        while now < room // 4 or now != before or not self.sleeps():
            assert time.monotonic() < ends, "the output isn't full"
            time.sleep(0.3)
            before, now = now, int.from_bytes(fcntl.ioctl(self.run.stdout, termios.FIONREAD, bytes(4)), sys.byteorder)

    def sleeps(self):
        with open(f"/proc/{self.run.pid}/stat", encoding="ascii", errors="replace") as file:
            return file.read().rpartition(")")[2].split()[0] == "S"

    def is_silent(self, seconds):
        return not select.select([self.run.stdout], [], [], seconds)[0]

    def feed(self, asked, piece, closes=True):
        """Asks, in pieces of so many bytes, while the output is read, and then closes the input."""

        def go():
            try:
                for at in range(0, len(asked), piece):
                    self.run.stdin.write(asked[at : at + piece])
                if closes:
                    self.run.stdin.close()
            except (BrokenPipeError, ValueError):
                # (the service has ended)
                pass

        self.feeder = threading.Thread(target=go)
        self.feeder.start()

    def end(self):
        """Closes the input, and returns the status, the rest of the output and the error text."""
        if self.feeder:
            self.feeder.join()
        if not self.run.stdin.closed:
            self.run.stdin.close()
        rest, error = self.run.stdout.read(), self.run.stderr.read()
        return self.run.wait(SECONDS), rest, error


def has_compiler():
    return shutil.which("cc") is not None


class SmallDisk:
    """A folder with a file system of its own, of so many bytes."""

    def __init__(self, folder, size):
        self.folder, self.size = folder, size

    def __enter__(self):
        os.mkdir(self.folder)
        subprocess.run(["mount", "-t", "tmpfs", "-o", f"size={self.size}", "none", self.folder], check=True, capture_output=True)
        return self

    def grow(self, size):
        subprocess.run(["mount", "-o", f"remount,size={size}", self.folder], check=True)

    def __exit__(self, *_):
        subprocess.run(["umount", self.folder], check=True)


def can_mount():
    """Whether a file system can be mounted here: root can, unless it is in a container that can't."""
    with tempfile.TemporaryDirectory() as elsewhere:
        try:
            with SmallDisk(f"{elsewhere}/disk", 65_536):
                return True
        except (OSError, subprocess.SubprocessError):
            return False


def unfit_for_shim(checks):
    """Those of these checks that can't be made here, with the reason: all where there is no C compiler."""
    return {} if has_compiler() else dict.fromkeys(checks, "there is no C compiler")


def unfit_for_disks(checks):
    """Those of these checks that can't be made here, with the reason: all where no small disk can be mounted."""
    return {} if can_mount() else dict.fromkeys(checks, "no file system can be mounted here")


# The file that disk.c was built to.
BUILT = []


def shim(**words):
    """The environment under which a program's calls on its files go through disk.c."""
    if not BUILT or not os.path.exists(BUILT[-1]):
        BUILT.append(os.path.abspath("disk.so"))
        flags = ["-std=c99", "-Wall", "-Wextra", "-Werror", "-O1", "-shared", "-fPIC"]
        subprocess.run(["cc", *flags, f"{TOP}/.ci/disk.c", "-o", BUILT[-1], "-ldl"], check=True)
    given = {f"DISK_{name.upper()}": str(value) for name, value in words.items()}
    return {**os.environ, "LD_PRELOAD": BUILT[-1], **given}
