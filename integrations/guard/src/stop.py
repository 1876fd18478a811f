"""Why the guard stops. Every fault ends it: it goes on as after a crash, so there is one way to go on."""
import os

AGAIN, WORDS, DIFFERS, DENIED, SYNC, IN_USE = 1, 2, 3, 4, 5, 75


class Stop(Exception):
    """The guard ends with this status, for a reason that is told on standard error."""

    def __init__(self, status, why):
        super().__init__(why)
        self.status = status


def sync(fd, what):
    """Returns once a file or a folder is on the disk. After a sync that failed, memory may have what the disk lacks."""
    try:
        os.fsync(fd)
    except OSError as fault:
        raise Stop(SYNC, f"{what}: sync: {fault.strerror}") from fault


def write_all(fd, piece):
    while piece:
        piece = piece[os.write(fd, piece):]
