"""A login session of the checks: a process in an audit session and a namespace of mounts of its own, in which mlsfs has
mounted, that makes the calls that it is asked for."""
import contextlib
import errno
import multiprocessing
import os
import pwd
import signal
import subprocess
import time

from calls import LIBC, Calls

CLONE_NEWNS = 0x20000
MS_REC, MS_PRIVATE = 16384, 1 << 18
SECONDS, LONGEST = 20, 900


def log_in(user):
    """Begins an audit session of a user's, which a login does by pam_loginuid."""
    for value in ("4294967295", str(pwd.getpwnam(user).pw_uid)):
        with open("/proc/self/loginuid", "w", encoding="ascii") as file:
            file.write(value)


def leave_mounts():
    """Takes a namespace of mounts of one's own, as pam_namespace does."""
    assert LIBC.unshare(CLONE_NEWNS) == 0
    assert LIBC.mount(None, b"/", None, MS_REC | MS_PRIVATE, None) == 0


def is_mounted(folder):
    with open("/proc/self/mounts", encoding="utf-8") as file:
        return any(line.split()[1] == folder for line in file)


def served(words, mount, log):
    """Runs mlsfs, and waits until its mount is there."""
    run = subprocess.Popen(words, stdin=subprocess.DEVNULL, stdout=log, stderr=log)
    end = time.monotonic() + SECONDS
    while not is_mounted(mount):
        if run.poll() is not None or time.monotonic() > end:
            return None
        time.sleep(0.01)
    return run.pid


def serve(pipe, user, mount, words, log, is_twice):
    """The life of a session's process: it logs in, mounts, becomes the user, and makes the calls that come."""
    os.setsid()
    signal.signal(signal.SIGTERM, signal.SIG_DFL)
    log_in(user)
    leave_mounts()
    pid = served(words, mount, log) if words else 0
    who, calls = pwd.getpwnam(user), Calls()
    if is_twice:
        calls.second = subprocess.run(words, stdin=subprocess.DEVNULL, stdout=log, stderr=log).returncode
    if pid is not None:
        os.chdir(mount)
        os.umask(0)
        os.setgroups([])
        os.setgid(who.pw_gid)
        os.setuid(who.pw_uid)
    pipe.send(pid)
    while True:
        name, arguments = pipe.recv()
        if name == "end":
            os._exit(0)
        try:
            pipe.send(calls.call(name, arguments))
        except OSError as fault:
            pipe.send(errno.errorcode.get(fault.errno, str(fault)))
        except BaseException as fault:
            pipe.send(f"{type(fault).__name__}: {fault}")


class Session:
    """What a check has of a session. Each call of it is one of os, or of Calls, and returns its value or an errno's
    name."""

    def __init__(self, user, mount, words, log, level=None, is_twice=False):
        self.pipe, other = multiprocessing.Pipe()
        self.process = multiprocessing.get_context("fork").Process(
            target=self._serve, args=(other, user, mount, words, log, is_twice), daemon=False)
        self.process.start()
        other.close()
        self.server = self.pipe.recv()
        assert self.server is not None, "mlsfs has ended: " + open(log.name, encoding="utf-8").read()
        if level:
            assert self.put(".mls", level.encode() + b"\n") == "put"

    def _serve(self, pipe, *given):
        self.pipe.close()
        serve(pipe, *given)

    def __getattr__(self, name):
        def call(*arguments):
            self.pipe.send((name, arguments))
            assert self.pipe.poll(LONGEST if name == "run" else SECONDS), f"{name}{arguments} doesn't end"
            return self.pipe.recv()
        return call

    def end(self):
        """Ends the session's process, and all that it began."""
        try:
            self.pipe.send(("end", ()))
        except BrokenPipeError:
            pass
        self.process.join(1)
        with contextlib.suppress(ProcessLookupError):
            os.killpg(self.process.pid, signal.SIGKILL)
        self.process.join()
