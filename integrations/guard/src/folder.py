"""A folder, held open from the beginning. No link in it is followed, and what was changed in it is on the disk by the
time a call returns."""
import ctypes
import os
import stat

from stop import sync, write_all

LIBC = ctypes.CDLL(None, use_errno=True)
NOREPLACE = 1


def rename_new(old, new, fd):
    """Renames within a folder. Where the new name is there, whatever it is, this is a FileExistsError."""
    if LIBC.renameat2(fd, os.fsencode(old), fd, os.fsencode(new), NOREPLACE):
        number = ctypes.get_errno()
        raise OSError(number, os.strerror(number), new)


class Folder:
    def __init__(self, path):
        self.path, self.fd = path, os.open(path, os.O_RDONLY | os.O_DIRECTORY)

    def sync(self):
        sync(self.fd, self.path)

    def is_there(self):
        """Whether its path still leads to it."""
        try:
            found = os.stat(self.path)
        except OSError:
            return False
        here = os.fstat(self.fd)
        return (found.st_dev, found.st_ino) == (here.st_dev, here.st_ino)

    def names(self):
        """The names in it, but those that begin with a dot: such a file isn't whole yet."""
        return sorted(name for name in os.listdir(self.fd) if not name.startswith("."))

    def status(self, name):
        """What the system says of a name, or None where it isn't there."""
        try:
            return os.stat(name, dir_fd=self.fd, follow_symlinks=False)
        except FileNotFoundError:
            return None

    def is_file(self, name):
        found = self.status(name)
        return found is not None and stat.S_ISREG(found.st_mode)

    def opened(self, name):
        """A file that is opened to be read. (A pipe doesn't wait for who writes it.)"""
        return os.open(name, os.O_RDONLY | os.O_NOFOLLOW | os.O_NONBLOCK, dir_fd=self.fd)

    def move(self, name, folder, new):
        os.rename(name, new, src_dir_fd=self.fd, dst_dir_fd=folder.fd)
        folder.sync()
        if folder is not self:
            self.sync()

    def name_new(self, old, new):
        """Gives a file a name that nothing has yet."""
        rename_new(old, new, self.fd)
        self.sync()

    def remove(self, name):
        try:
            os.unlink(name, dir_fd=self.fd)
        except FileNotFoundError:
            return
        self.sync()

    def put(self, name, mode, content):
        """Makes a file of these bytes, in place of one that is there. Where that fails there is none."""
        self.remove(name)
        fd = os.open(name, os.O_WRONLY | os.O_CREAT | os.O_EXCL | os.O_NOFOLLOW, mode, dir_fd=self.fd)
        try:
            write_all(fd, content)
            sync(fd, f"{self.path}/{name}")
        except BaseException:
            self.remove(name)
            raise
        finally:
            os.close(fd)
        self.sync()
