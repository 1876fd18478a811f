"""One client of this machine."""
import asyncio

from . import lines

# Lines that may be under way before no more are read.
UNDER_WAY = 4_096
# A line with its numbers.
LONGEST = lines.LINE_MAX + 100


class Client(asyncio.Protocol):
    """Its connection, the sessions that it has opened there, and how many answers it is owed."""

    def __init__(self, door):
        self.door, self.sessions = door, set()
        self.transport, self.rest, self.told = None, b"", []
        self.owed, self.is_slow, self.is_ending = 0, False, False

    def connection_made(self, transport):
        self.transport = transport

    def data_received(self, data):
        *whole, self.rest = (self.rest + data).split(b"\n")
        self.owed += len(whole)
        for line in whole:
            self.door.take(self, line)
        if len(self.rest) > LONGEST:
            self.transport.abort()
        self.hold()

    def eof_received(self):
        """Who sends no more still gets what is due."""
        self.is_ending = True
        return self.owed > 0

    def tell(self, line):
        """Tells an answer, unless the door is closed."""
        if self.door.is_closed:
            return
        if not self.told:
            asyncio.get_running_loop().call_soon(self.flush)
        self.told.append(line)

    def flush(self):
        """Sends what was told since, at once."""
        self.owed -= len(self.told)
        if not self.transport.is_closing() and not self.door.is_closed:
            self.transport.write(b"".join(self.told))
        self.told = []
        if self.is_ending and self.owed <= 0:
            self.transport.close()
        self.hold()

    def pause_writing(self):
        self.is_slow = True
        self.hold()

    def resume_writing(self):
        self.is_slow = False
        self.hold()

    def hold(self):
        """Reads no more from who is owed much, or doesn't read."""
        if self.is_slow or self.owed > UNDER_WAY:
            self.transport.pause_reading()
        elif not self.is_ending:
            self.transport.resume_reading()
