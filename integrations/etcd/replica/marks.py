"""The marks of this machine, which `mls serve` writes beside the journal: when each batch of entries was on the disk,
and a chain of digests. No start cuts them: what they cover comes out of the log again, byte for byte, before a core
looks at them. A checkpoint has the digest of all that they were by then, so that they aren't changed at rest. Where a
core has put older marks aside and goes on from them, both files count as one text, the older one first: so a checkpoint
that was made before is still that of its front."""
import hashlib
import os

from . import files
from .ending import REFUSED, stop

# What the first line of a file begins with that may go on from an older one, and the word with which it says so.
HEAD, AFTER = b"marks 2 ", b" after "
# More bytes than that line has.
LINE = 200


class Marks:
    """As far as they were read: so many bytes, with their digest."""

    def __init__(self, journal):
        self.name, self.place, self.sum = f"{journal}.marks", 0, hashlib.sha256()
        # (whether there is a core that writes them: until then a crash may have left them torn)
        self.are_kept = False

    def recover(self, place, digest):
        """They must still begin with so many bytes of this digest. (A crash may take what stands behind.)"""
        self.read(place)
        if (self.place, self.digest()) != (place, digest):
            stop(REFUSED, f"{self.name}: differs from its checkpoint within the first {place} bytes")

    def read_all(self):
        """Reads on to the end, which is the mark of the last batch that was answered."""
        if self.are_kept:
            self.read(-1)

    def read(self, size):
        """Reads on, what is on the disk by then: so many bytes, or all where that is less than none."""
        begin, end = 0, self.place + size if size >= 0 else None
        for name in self.names():
            with files.at(name), open(name, "rb") as file:
                os.fsync(file.fileno())
                length = os.fstat(file.fileno()).st_size
                if begin <= self.place < begin + length:
                    file.seek(self.place - begin)
                    self.take(file.read(-1 if end is None else end - self.place))
            begin += length

    def take(self, piece):
        self.sum.update(piece)
        self.place += len(piece)

    def names(self):
        """The files of the marks, in their order."""
        with files.at(self.name):
            try:
                with open(self.name, "rb") as file:
                    first = file.read(LINE).split(b"\n")[0]
            except FileNotFoundError:
                return []
        goes_on = first.startswith(HEAD) and AFTER in first
        return [f"{self.name}.1", self.name] if goes_on else [self.name]

    def digest(self):
        return self.sum.hexdigest()
