"""What the checks of mlsd share: how it is built, run and asked, by whom, over which core."""
import ctypes
import fcntl
import functools
import os
import select
import shutil
import signal
import socket
import subprocess
import sys
import time

import outside
from outside import SECONDS, TOP, put, same, shown
from serving import STANDARD, content

sys.path.insert(0, f"{TOP}/python")
import mls

SOCKET, USERS, JOURNAL = "s", "users", "j"
# Root may ask as everybody, as fast as it likes.
ALL = b"0 = * rate=0 clients=0\n"
IS_ROOT = os.geteuid() == 0
# Uids and groups that no user has.
ANN, BOB, OTHER = 61_001, 61_002, 61_003
OF_AUD = 61_100
CLONE_NEWUSER = 0x1000_0000


def has_compiler():
    return shutil.which("rustc") is not None


@functools.lru_cache(None)
def mlsd():
    """Builds it, where a source is newer than it, and returns its name."""
    made, sources = f"{TOP}/mlsd/out/mlsd", f"{TOP}/mlsd/src"
    newest = max(os.stat(f"{sources}/{name}").st_mtime for name in os.listdir(sources))
    if not os.path.exists(made) or os.stat(made).st_mtime < newest:
        subprocess.run([f"{TOP}/bin/build-mlsd", made], check=True, stdin=subprocess.DEVNULL)
    return made


def core(*flags, journal=JOURNAL, start=STANDARD):
    """The words of a core."""
    return [outside.PROGRAM, "serve", "--sessions", "--names", "--recover", *flags, "--journal", journal, start]


def environment(**more):
    return {**os.environ, "MLS_PROGRAM": outside.PROGRAM, **more}


class Notices:
    """What a service manager would be told."""

    def __init__(self):
        self.name = os.path.abspath("notices")
        if os.path.exists(self.name):
            os.remove(self.name)
        self.socket = socket.socket(socket.AF_UNIX, socket.SOCK_DGRAM)
        self.socket.bind(self.name)
        self.socket.settimeout(0.05)

    def has(self, wanted, lives):
        """Waits until something is told; false where nothing lives that may tell it."""
        ends = time.monotonic() + SECONDS
        while time.monotonic() < ends:
            is_alive = lives()
            try:
                if wanted in self.socket.recv(4_096).decode().split("\n"):
                    return True
            except socket.timeout:
                if not is_alive:
                    return False
        raise AssertionError(f"{wanted} isn't told")

    def is_there(self):
        """Whether something was told; it is read."""
        try:
            return bool(self.socket.recv(4_096))
        except socket.timeout:
            return False

    def close(self):
        self.socket.close()


class Front:
    """mlsd that runs over a core of its own."""

    def __init__(self, *flags, users=ALL, words=None, env=None, socket_words=("--socket", SOCKET), listener=None):
        os.chmod(".", 0o755)
        put(USERS, users)
        os.chmod(USERS, 0o644)
        words = words or core()
        asked = [mlsd(), *socket_words, "--users", USERS, *flags, "--", *words]
        self.notices, self.clients = Notices(), []
        env = {**(env or environment()), "NOTIFY_SOCKET": self.notices.name}
        how = {}
        if listener:
            # (as systemd passes it: descriptor 3, and the number of the process that it is for)
            asked = ["sh", "-c", 'LISTEN_PID=$$ LISTEN_FDS=1 exec "$@"', "sh", *asked]
            how = {"pass_fds": (3,), "preexec_fn": lambda: os.dup2(listener.fileno(), 3)}
        self.run = subprocess.Popen(asked, stdin=subprocess.DEVNULL, stderr=subprocess.PIPE, env=env, **how)

    def __enter__(self):
        if not self.notices.has("READY=1", lambda: self.run.poll() is None):
            assert False, f"mlsd has ended: {shown(self.run.stderr.read())}"
        return self

    def __exit__(self, *_):
        for client in self.clients:
            client.close()
        if self.run.poll() is None:
            self.run.terminate()
            try:
                self.run.wait(SECONDS)
            except subprocess.TimeoutExpired:
                self.run.kill()
        self.run.wait()
        self.run.stderr.close()
        self.notices.close()

    def client(self, uid=None, gid=None, groups=()):
        """A client of the project's own, as this user or as another."""
        if uid is None:
            found = mls.Client(SOCKET, SECONDS)
        else:
            try:
                found = mls.Client.over(connected_as(uid, uid if gid is None else gid, groups))
            except mls.Refused as why:
                raise AssertionError(f"refused: {why}") from why
        self.clients.append(found)
        return found

    def raw(self):
        """A bare connection, whose greeting was read."""
        found = connected()
        self.clients.append(found)
        line = received(found, 1)
        assert line.startswith(b"session "), line
        return found

    def core_pid(self):
        with open(f"/proc/{self.run.pid}/task/{self.run.pid}/children", encoding="ascii") as file:
            return int(file.read().split()[0])

    def status(self, key):
        """A line of /proc/PID/status, as a number."""
        with open(f"/proc/{self.run.pid}/status", encoding="ascii") as file:
            return next(int(line.split()[1]) for line in file if line.startswith(key + ":"))

    def used(self):
        """Seconds of processor time."""
        with open(f"/proc/{self.run.pid}/stat", encoding="ascii") as file:
            fields = file.read().rpartition(")")[2].split()
        return (int(fields[11]) + int(fields[12])) / os.sysconf("SC_CLK_TCK")

    def end(self, number=signal.SIGTERM):
        """Ends it, and returns its status and what it told."""
        self.run.send_signal(number)
        return self.ended()

    def ended(self):
        _, told = self.run.communicate(timeout=SECONDS)
        # (on a machine that has much to do the core may answer late, which is told)
        slow = (b"has answered nothing for", b"answers again, after")
        lines = [line for line in told.splitlines(keepends=True) if not any(it in line for it in slow)]
        return self.run.returncode, b"".join(lines)


def connected():
    found = socket.socket(socket.AF_UNIX)
    found.settimeout(SECONDS)
    try:
        found.connect(SOCKET)
    except OSError:
        found.close()
        raise
    return found


def become_root_inside(uid):
    """This process is root in a user namespace of its own, and outside who it was."""
    libc = ctypes.CDLL(None, use_errno=True)
    # (4 is PR_SET_DUMPABLE, without which its own map isn't this user's to write)
    libc.prctl(4, 1, 0, 0, 0)
    if libc.unshare(CLONE_NEWUSER):
        raise OSError(ctypes.get_errno(), "unshare")
    with open("/proc/self/uid_map", "w", encoding="ascii") as file:
        file.write(f"0 {uid} 1\n")
    assert os.getuid() == 0


def connected_as(uid, gid, groups=(), is_root_inside=False):
    """A connection that a process of another user made: who connected is who counts."""
    ours, theirs = socket.socketpair()
    child = os.fork()
    if child == 0:
        try:
            os.setgroups(list(groups))
            os.setgid(gid)
            os.setuid(uid)
            if is_root_inside:
                become_root_inside(uid)
            found = connected()
            socket.send_fds(theirs, [b"x"], [found.fileno()])
        finally:
            os._exit(0)
    theirs.close()
    _, found, _, _ = socket.recv_fds(ours, 1, 1)
    ours.close()
    os.waitpid(child, 0)
    assert found, "that user could not connect"
    sock = socket.socket(fileno=found[0])
    # (its maker's time limit made it one that doesn't block)
    sock.settimeout(SECONDS)
    return sock


def received(sock, lines):
    """So many lines, or what came before the end."""
    found = b""
    while found.count(b"\n") < lines:
        try:
            part = sock.recv(1 if lines == 1 else 65_536)
        except ConnectionResetError:
            break
        if not part:
            break
        found += part
    return found


def rest_of(sock):
    """All until the end."""
    found = b""
    while True:
        part = sock.recv(65_536)
        if not part:
            return found
        found += part


def refused(*flags, users=ALL, words=None, mode=0o644, owner=None, socket_words=("--socket", SOCKET), env=None):
    """The status and the last line of what mlsd tells where it doesn't begin."""
    put(USERS, users)
    os.chmod(USERS, mode)
    if owner is not None:
        os.chown(USERS, owner, owner)
    asked = [mlsd(), *socket_words, "--users", USERS, *flags, "--", *(words or core())]
    how = {"stdin": subprocess.DEVNULL, "capture_output": True, "env": env or environment()}
    done = subprocess.run(asked, timeout=SECONDS, **how)
    os.chown(USERS, os.geteuid(), os.getegid())
    return done.returncode, done.stderr.decode().splitlines()[-1:]


def entries(journal=JOURNAL):
    """The entries of the journal, without their numbers and sessions."""
    return [line.split(b" ", 2)[2].decode() for line in content(journal).splitlines()]


def sessions_of_entries(journal=JOURNAL):
    return [int(line.split(b" ", 2)[1]) for line in content(journal).splitlines()]


def told(journal=JOURNAL):
    """The sessions file: of each line its session, what it says and what stands behind the entry's number."""
    found = []
    for line in content(f"{journal}.sessions").decode().splitlines():
        session, what, _time, _entry, _number, *more = line.split(" ")
        found.append((int(session), what, " ".join(more)))
    return found


def fresh():
    """No journal, and no sessions."""
    for name in os.listdir("."):
        if name in (JOURNAL, SOCKET) or name.startswith(f"{JOURNAL}."):
            os.remove(name)


def held(journal=JOURNAL, start=STANDARD):
    """What is held after the journal, as lines of `mls state`."""
    text = outside.ran_program(["state", start, journal])[1].decode()
    return sorted(line[len("access ") :] for line in text.splitlines() if line.startswith("access "))


def levels(journal=JOURNAL, start=STANDARD):
    """The current level of each subject after the journal."""
    text = outside.ran_program(["state", start, journal])[1].decode()
    lines = [line.split() for line in text.splitlines() if line.startswith("subject ")]
    return {words[1]: words[5] for words in lines}


def comes(what, wanted, seconds=SECONDS):
    """Waits until something is so."""
    ends = time.monotonic() + seconds
    while what() != wanted:
        assert time.monotonic() < ends, f"found {shown(what())}, wanted {shown(wanted)}"
        time.sleep(0.01)


def wait_for_the_lock():
    """A core whose front was killed ends by itself; until then the journal is in use."""
    ends = time.monotonic() + SECONDS
    while True:
        # (with segments another file may have got the name)
        with open(JOURNAL, "rb") as file:
            try:
                fcntl.flock(file, fcntl.LOCK_EX | fcntl.LOCK_NB)
                if os.path.samestat(os.fstat(file.fileno()), os.stat(JOURNAL)):
                    return
            except BlockingIOError:
                pass
        assert time.monotonic() < ends, "the core does not end"
        time.sleep(0.01)


def subprocess_run(words, asked):
    return subprocess.run(words, input=asked, capture_output=True, timeout=SECONDS)
