"""The calls that a session of the checks makes beside those of os."""
import ctypes
import errno
import fcntl
import mmap
import os
import socket
import subprocess

LIBC = ctypes.CDLL(None, use_errno=True)
LIBC.mmap.restype = ctypes.c_void_p


class Calls:
    """The calls that a session makes beside those of os."""

    def __init__(self):
        self.maps, self.second = {}, None

    def status_of_second(self):
        """How a second mlsfs of the session ended."""
        return self.second

    def put(self, name, text):
        """Writes a file as `echo text > name` does."""
        fd = os.open(name, os.O_WRONLY | os.O_CREAT | os.O_TRUNC, 0o666)
        try:
            os.write(fd, text)
        finally:
            os.close(fd)
        return "put"

    def get(self, name):
        fd = os.open(name, os.O_RDONLY)
        try:
            return os.read(fd, 65536)
        finally:
            os.close(fd)

    def size(self, name):
        return os.stat(name).st_size

    def fields(self, name):
        found = os.lstat(name)
        return found.st_ino, found.st_size, found.st_mtime_ns, found.st_atime_ns, found.st_nlink

    def room(self):
        found = os.statvfs(".")
        return found.f_bfree, found.f_ffree

    def listed(self, name="."):
        return sorted(os.listdir(name))

    def map(self, fd, is_written=False):
        how = mmap.PROT_READ | (mmap.PROT_WRITE if is_written else 0)
        found = LIBC.mmap(None, ctypes.c_size_t(mmap.PAGESIZE), how, mmap.MAP_SHARED, fd, ctypes.c_long(0))
        if found == ctypes.c_void_p(-1).value:
            raise OSError(ctypes.get_errno(), "mmap")
        self.maps[fd] = found
        return fd

    def touch(self, fd):
        """The first byte of a map, as a child sees it: a page that is gone kills it."""
        child = os.fork()
        if child == 0:
            os._exit(ctypes.string_at(self.maps[fd], 1)[0])
        status = os.waitpid(child, 0)[1]
        return "killed" if os.WIFSIGNALED(status) else bytes([os.WEXITSTATUS(status)])

    def unmap(self, fd):
        LIBC.munmap(ctypes.c_void_p(self.maps.pop(fd)), ctypes.c_size_t(mmap.PAGESIZE))
        return fd

    def store(self, fd, byte):
        """Writes to a map, and waits until it is in the file; a page that can't be had kills the child that does it."""
        child = os.fork()
        if child == 0:
            ctypes.memmove(self.maps[fd], byte, 1)
            os._exit(LIBC.msync(ctypes.c_void_p(self.maps[fd]), ctypes.c_size_t(mmap.PAGESIZE), 4) != 0)
        status = os.waitpid(child, 0)[1]
        return "killed" if os.WIFSIGNALED(status) else ["stored", "lost"][os.WEXITSTATUS(status)]

    def send(self, path, fd):
        with socket.socket(socket.AF_UNIX) as sock:
            sock.connect(path)
            socket.send_fds(sock, [b"x"], [fd])
        return "sent"

    def fetched(self):
        """The descriptor that came last."""
        sock, _ = self.listener.accept()
        fds = socket.recv_fds(sock, 1, 1)[1]
        sock.close()
        return fds[0]

    def listen(self, path):
        self.listener = socket.socket(socket.AF_UNIX)
        self.listener.bind(path)
        os.chmod(path, 0o777)
        self.listener.listen(5)
        return "listens"

    def lock(self, fd, kind="read"):
        how = {"read": fcntl.LOCK_SH, "write": fcntl.LOCK_EX, "off": fcntl.LOCK_UN}[kind]
        fcntl.lockf(fd, how | (0 if kind == "off" else fcntl.LOCK_NB))
        return kind

    def whole(self, fd):
        fcntl.flock(fd, fcntl.LOCK_EX | fcntl.LOCK_NB)
        return "locked"

    def lease(self, fd):
        return fcntl.fcntl(fd, fcntl.F_SETLEASE, fcntl.F_RDLCK)

    def leased(self, fd):
        return fcntl.fcntl(fd, fcntl.F_GETLEASE)

    def watch(self, name):
        self.events = LIBC.inotify_init1(os.O_NONBLOCK)
        assert LIBC.inotify_add_watch(self.events, os.fsencode(name), 0xFFF) >= 0
        os.stat(name)
        return "watches"

    def events_seen(self):
        try:
            return len(os.read(self.events, 65536))
        except BlockingIOError:
            return 0

    def run(self, words, folder="."):
        done = subprocess.run(words, cwd=folder, capture_output=True, stdin=subprocess.DEVNULL)
        return done.returncode, (done.stdout + done.stderr).decode(errors="replace")

    def view(self, names):
        """All that can be seen of the files of these names, and by listings."""
        found = [self.tried(self.room)]
        for name in [".", *names]:
            for deed in (self.listed, self.get, os.readlink, os.listxattr, self.every_field):
                found.append((name, deed.__name__, self.tried(deed, name)))
        return found

    def every_field(self, name):
        found = os.lstat(name)
        times = found.st_mtime_ns, found.st_atime_ns, found.st_ctime_ns
        size = found.st_size, found.st_blocks
        return (found.st_ino, found.st_mode, found.st_nlink, found.st_uid, found.st_gid, *size, *times)

    def tried(self, deed, *arguments):
        try:
            return deed(*arguments)
        except OSError as fault:
            return errno.errorcode[fault.errno]

    def call(self, name, arguments):
        deed = getattr(self, name, None) or getattr(os, name)
        return deed(*arguments)
