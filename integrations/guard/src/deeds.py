"""What is done to the files of a message. Each deed may be done again where a crash came before what follows it was
recorded, and comes to the same."""
import errno
import os
import stat

from filter import digest_of
from stop import DIFFERS, WORDS, Stop

# Why a message can't be opened.
FAULTS = {errno.ELOOP: "link", errno.ENXIO: "no-file", errno.EACCES: "unreadable"}


# What comes of something that has a name in the low folder, and isn't to be taken away.
OBSTACLES = (errno.EEXIST, errno.EISDIR, errno.EPERM)


class Unfit(Exception):
    """A message isn't copied, for this reason."""


class Blocked(Exception):
    """Something lies in a message's way in the low folder: this is its name."""


class Deeds:
    """`name` is the message's in the high folder. It becomes `raw`, out of its senders' reach, and then `copy`, which
    nobody else has open."""

    def __init__(self, guard, session, name):
        self.guard, self.name, self.raw, self.copy = guard, name, f"{session}.raw", str(session)

    def take(self):
        high, spool = self.guard.high, self.guard.spool
        if spool.status(self.raw):
            return "yes"
        try:
            high.move(self.name, spool, self.raw)
        except FileNotFoundError:
            if high.status(self.name):
                raise
            # (its sender has taken it back)
            return "gone"
        except PermissionError:
            # (a folder of somebody else has its name by now)
            if high.is_file(self.name):
                raise
            return "gone"
        return "yes"

    def copied(self):
        """Copies what was taken, since a sender may still have it open, and tells what it is."""
        try:
            message = self.message()
        except Unfit as fault:
            return f"unfit {fault}"
        self.guard.spool.put(self.copy, 0o400, message)
        return f"bytes {len(message)} sha256 {digest_of(message)}"

    def message(self):
        """The bytes of what was taken, where it is a file and not too long."""
        try:
            fd = self.guard.spool.opened(self.raw)
        except OSError as fault:
            if fault.errno not in FAULTS:
                raise
            raise Unfit(FAULTS[fault.errno]) from fault
        if not stat.S_ISREG(os.fstat(fd).st_mode):
            os.close(fd)
            raise Unfit("no-file")
        with open(fd, "rb") as file:
            message = file.read(self.guard.limit + 1)
        if len(message) > self.guard.limit:
            raise Unfit("too-long")
        return message

    def drop_raw(self):
        self.guard.spool.remove(self.raw)

    def judged(self):
        """The filter's verdict. A yes has the name that the message gets."""
        with open(self.guard.spool.opened(self.copy), "rb") as file:
            is_yes, why, program = self.guard.filter.verdict(file)
        what = f"yes {self.guard.log.low + 1:010}" if is_yes else f"no {why}"
        return f"{what} sha256 {self.checked_digest()} filter {program}"

    def checked_digest(self):
        return self.guard.log.lines["copied"][3]

    def stage(self, new):
        """Makes the file in the low folder, under a name that nobody looks at yet."""
        low = self.guard.low
        with open(self.guard.spool.opened(self.copy), "rb") as file:
            message = file.read()
        if digest_of(message) != self.checked_digest():
            raise Stop(DIFFERS, f"{self.guard.spool.path}/{self.copy}: is not what was checked")
        if low.status(new):
            raise Blocked(new)
        try:
            low.put("." + new, 0o644, message)
        except OSError as fault:
            if fault.errno not in OBSTACLES or fault.errno == errno.EPERM and not low.status("." + new):
                raise
            raise Blocked("." + new) from fault

    def publish(self, new):
        """Gives the file its name. A file that isn't there has got it before a crash, and may have been read and taken
        away since."""
        low = self.guard.low
        if not low.status("." + new):
            return
        try:
            low.name_new("." + new, new)
        except FileNotFoundError:
            # (it was taken away just now)
            return
        except FileExistsError as fault:
            if not self.has_come(new):
                raise Blocked(new) from fault
            self.withdraw(new)
        except OSError as fault:
            if fault.errno not in (errno.EINVAL, errno.ENOSYS):
                raise
            raise Stop(WORDS, f"{low.path}: its file system has no rename that replaces nothing") from fault

    def has_come(self, new):
        """Whether it has its name in the low folder already, since before a crash."""
        try:
            fd = self.guard.low.opened(new)
        except OSError:
            return False
        with open(fd, "rb", closefd=False) as file:
            is_file = stat.S_ISREG(os.fstat(fd).st_mode)
            found = file.read(self.guard.limit + 1) if is_file else b""
        os.close(fd)
        return is_file and digest_of(found) == self.checked_digest()

    def withdraw(self, new):
        """Leaves nothing of it in the low folder, but what isn't its own."""
        try:
            self.guard.low.remove("." + new)
        except OSError as fault:
            if fault.errno not in OBSTACLES:
                raise

    def set_aside(self, name):
        if self.guard.spool.status(name):
            self.guard.spool.move(name, self.guard.refused, self.copy)

    def clear(self):
        """Leaves nothing of it on the way."""
        self.guard.spool.remove(self.raw)
        self.guard.spool.remove(self.copy)
