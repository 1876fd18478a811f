"""The replica's own files, which a crash leaves whole. Where one can't be written the replica ends: a full disk, and a
file that may not be opened, are mended and started again; a disk that failed wants somebody's look first."""
import contextlib
import errno
import os

from .ending import DISK, FILES, stop

FULL = (errno.ENOSPC, errno.EDQUOT)
# The faults of a name or of rights, in which nothing was written.
PLACES = (errno.EACCES, errno.EPERM, errno.ENOENT, errno.ENOTDIR, errno.EISDIR, errno.ELOOP, errno.ENAMETOOLONG,
          errno.EMFILE, errno.ENFILE)  # fmt: skip
PIECE = 1 << 20


@contextlib.contextmanager
def at(name):
    """Ends the replica where what is done to a file fails."""
    try:
        yield
    except OSError as fault:
        if fault.errno in FULL:
            stop(FILES, f"{name}: the disk is full")
        stop(FILES if fault.errno in PLACES else DISK, f"{name}: {fault.strerror}")


def write_all(fd, content):
    content = memoryview(content)
    while content:
        content = content[os.write(fd, content) :]


def sync_folder(name):
    """Has the names in a file's folder on the disk."""
    path = os.path.dirname(os.path.abspath(name))
    with at(path):
        folder = os.open(path, os.O_RDONLY)
        try:
            os.fsync(folder)
        finally:
            os.close(folder)


def write(name, pieces):
    """Makes a file of these pieces, in place of one that is there, and has it on the disk. Who has that one open still
    has it."""
    remove(name)
    with at(name):
        fd = os.open(name, os.O_WRONLY | os.O_CREAT | os.O_EXCL, 0o600)
        try:
            for piece in pieces:
                write_all(fd, piece)
            os.fsync(fd)
        finally:
            os.close(fd)
    sync_folder(name)


def rename(old, new):
    with at(new):
        os.rename(old, new)
    sync_folder(new)


def put(name, content):
    """Replaces a file by one with this content: after a crash the old one is there, or the new one."""
    write(f"{name}.new", [content])
    rename(f"{name}.new", name)


def content(name):
    """A file's content; nothing where it isn't there."""
    with at(name):
        try:
            with open(name, "rb") as file:
                return file.read()
        except FileNotFoundError:
            return b""


def pieces(file, size):
    """The first bytes of an open file."""
    file.seek(0)
    while size and (piece := file.read(min(PIECE, size))):
        size -= len(piece)
        yield piece


def remove(name):
    if os.path.lexists(name):
        with at(name):
            os.remove(name)
        sync_folder(name)
