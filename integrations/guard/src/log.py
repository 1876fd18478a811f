"""The sessions file beside the journal: of each message, whose number is that of its session, what the journal has not.

    SESSION WHAT TIME entry N ..

N is the number of the next entry then; session 0 is the guard itself. A line is on the disk before anything more is
done.
"""
import datetime
import fcntl
import os

from stop import DIFFERS, IN_USE, Stop, sync, write_all

# What a crash may have torn at the end has at most so many bytes.
TORN = 65_536
# The monitor takes no greater number of a session.
LAST_SESSION = 2**32 - 2


class Log:
    """`session` is the number of the last message, `lines` what is told of it, and `entry` the next entry's number
    when the last of them was told; `low` is the last name that was given for the low folder."""

    def __init__(self, path):
        self.path, self.session, self.low, self.lines, self.entry = path, 0, 0, {}, 0
        self.fd = os.open(path, os.O_RDWR | os.O_APPEND | os.O_CREAT, 0o600)
        try:
            fcntl.flock(self.fd, fcntl.LOCK_EX | fcntl.LOCK_NB)
        except BlockingIOError as fault:
            raise Stop(IN_USE, f"{path}: in use") from fault
        self.cut(self.read())
        sync(self.fd, path)

    def read(self):
        """Reads the whole lines, and returns how many bytes they have. A crash leaves half a line, or zeros in it."""
        length = 0
        with open(self.path, "rb") as file:
            for number, line in enumerate(file, 1):
                if b"\0" in line or not line.endswith(b"\n"):
                    break
                try:
                    session, what, _, _, entry, *more = line.decode("ascii").split()
                    self.note(int(session), what, int(entry), more)
                except (ValueError, IndexError) as fault:
                    raise Stop(DIFFERS, f"{self.path}: line {number}: not a line of this file") from fault
                length += len(line)
        return length

    def cut(self, length):
        torn = os.fstat(self.fd).st_size - length
        if torn > TORN:
            raise Stop(DIFFERS, f"{self.path}: damaged behind byte {length}")
        os.ftruncate(self.fd, length)

    def note(self, session, what, entry, more):
        """Takes notice of a line."""
        if session == 0:
            if what in ("started", "ended"):
                self.session, self.low = max(self.session, int(more[1]) - 1), max(self.low, int(more[3]))
            return
        if session != self.session:
            if what != "opened" or session < self.session:
                raise ValueError(session)
            self.session, self.lines = session, {}
        self.lines[what], self.entry = more, entry
        if what == "verdict" and more[0] == "yes":
            self.low = int(more[1])

    def tell(self, session, what, entry, more):
        now = datetime.datetime.now(datetime.timezone.utc).isoformat(timespec="milliseconds").replace("+00:00", "Z")
        write_all(self.fd, f"{session} {what} {now} entry {entry} {more}\n".encode("ascii"))
        sync(self.fd, self.path)
        self.note(session, what, entry, more.split())

    def tell_guard(self, what, entry, more):
        """A line on the guard itself. It has the next numbers, so that a new file may begin with the last such line."""
        self.tell(0, what, entry, f"next {self.session + 1} low {self.low} {more}")

    def next(self):
        """A number that no message had."""
        if self.session >= LAST_SESSION:
            raise Stop(DIFFERS, f"{self.path}: no number is left")
        return self.session + 1

    def judge(self, entries):
        """Whether a journal of so many entries may be the one that this file belongs to."""
        if self.entry > entries or entries and not os.fstat(self.fd).st_size:
            raise Stop(DIFFERS, f"{self.path}: is of another journal")

    def unfinished(self):
        """Whether the last message isn't closed."""
        return bool(self.lines) and "closed" not in self.lines
