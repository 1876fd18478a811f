"""The journal of this machine, which is computed from the log: `mls serve` writes it. Here it is read. What it has
behind its checkpoint at a start is made again from the log, in JOURNAL.again, and takes its place once all of it has
come out again, byte for byte: until then, and where it doesn't, the journal is as it was."""
import fcntl
import hashlib
import os
import re
import time

from . import files
from .ending import FILES, REFUSED, WentBack, stop, tell

# Seconds that the core of a replica that was killed may take to its end.
ORPHAN = 20
# Digests are kept, and told to the other machines, at each so many entries.
EVERY = 1_000
NEWLINE = b"\n"
# What stands behind the request of an entry.
REPLY = re.compile(rb" (yes|no|created|undefined)\b.*", re.S)


def whole_lines(text, entries):
    """The lines at the front that begin as entries do, from a number on: what stands behind is a torn end."""
    place = 0
    while (end := text.find(b"\n", place)) >= 0:
        if not text.startswith(b"%d " % entries, place) or text.find(b"\0", place, end) >= 0:
            break
        place, entries = end + 1, entries + 1
    return text[:place]


def request_of(line):
    """An entry without its reply."""
    return REPLY.sub(b"", line)


class Journal:
    """As far as it was read: so many entries, in so many bytes, with their digest. `live` is the file that the core
    writes."""

    def __init__(self, name):
        self.name, self.again, self.live = name, f"{name}.again", name
        # (where versions before this one kept what they had cut off the journal)
        self.redo = f"{name}.redo"
        self.entries, self.place, self.sum = 0, 0, hashlib.sha256()
        # (the digest of the first N entries, of each N that is told to the others)
        self.digests = {}
        # (what the journal had behind its checkpoint, and from which place on)
        self.had, self.had_at = b"", 0
        self.own_lock = None

    def lock(self):
        """One replica has the journal, from here to its end; the core of one before it may still be ending."""
        with files.at(f"{self.name}.lock"):
            self.own_lock = open(f"{self.name}.lock", "wb")
        try:
            fcntl.flock(self.own_lock, fcntl.LOCK_EX | fcntl.LOCK_NB)
        except OSError:
            stop(FILES, f"{self.name}: another replica has it")

    def wait_for_core(self, file):
        ends = time.monotonic() + ORPHAN
        while True:
            try:
                return fcntl.flock(file, fcntl.LOCK_EX | fcntl.LOCK_NB)
            except OSError:
                if time.monotonic() > ends:
                    stop(FILES, f"{self.name}: in use")
                time.sleep(0.05)

    def recover(self, entries, digest):
        """Goes on from a checkpoint, of so many entries with this digest. What stands behind them is made again."""
        with files.at(self.name), open(os.open(self.name, os.O_RDWR | os.O_CREAT, 0o600), "r+b") as file:
            self.wait_for_core(file)
            self.read(file, entries)
            if self.entries < entries:
                stop(REFUSED, f"{self.name}: has {self.entries} entries, and its checkpoint has {entries}")
            if self.digest() != digest:
                stop(REFUSED, f"{self.name}: differs from its checkpoint within the first {entries} entries")
            rest = file.read()
            # (the journal has nothing that was cut off and isn't made again yet)
            self.had, self.had_at = whole_lines(files.content(self.redo) or rest, self.entries), self.place
            if rest:
                files.write(self.again, files.pieces(file, self.place))
                self.live = self.again
        files.sync_folder(self.name)
        tell(f"going on from entry {self.entries}, {self.had.count(NEWLINE)} entries behind it are made again")

    def settle(self):
        """What was made again is the journal from now on, and has all that the journal had."""
        if not self.is_made_again():
            raise WentBack(f"the journal has more than the log gives, from entry {self.entries} on: the log went back")
        if self.live != self.name:
            files.rename(self.again, self.name)
            self.live = self.name
        files.remove(self.redo)
        self.had = b""

    def read(self, file, entries):
        """Reads on to so many entries, or to the end."""
        file.seek(self.place)
        while self.entries < entries:
            line = file.readline()
            if not line.endswith(b"\n"):
                break
            self.compare(line)
            self.sum.update(line)
            self.entries, self.place = self.entries + 1, self.place + len(line)
            if self.entries % EVERY == 0:
                self.digests[self.entries] = self.digest()

    def read_to(self, entries):
        """Reads the entries that the core has answered, so they are there."""
        with files.at(self.live), open(self.live, "rb") as file:
            self.read(file, entries)
        if self.entries != entries:
            stop(REFUSED, f"{self.live}: has no entry {self.entries}, which was answered")

    def compare(self, line):
        """A line must be the same as the one that the journal had at its place. Another request there is another
        history; the same with another reply is a fault of this machine alone."""
        at = self.place - self.had_at
        if not self.had or at >= len(self.had) or self.had[at : at + len(line)] == line:
            return
        had = self.had[at:].partition(NEWLINE)[0]
        why = f"differs from the log at entry {self.entries}: it has {had!r}, and the log gives {line[:-1]!r}"
        if request_of(had) != request_of(line[:-1]):
            raise WentBack(f"the journal {why}: the log went back")
        stop(REFUSED, f"{self.name}: {why}")

    def is_made_again(self):
        """Whether all that the journal had has come out of the log."""
        return self.place - self.had_at >= len(self.had)

    def digest(self):
        return self.sum.hexdigest()
