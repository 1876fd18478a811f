"""The core: one `mls serve` of this machine, and what it owes, in the order in which it was asked."""
import asyncio
import collections
import subprocess

from .ending import CORE_DIED, DISK, FILES, REFUSED, stop

PIECE = 1 << 17
# What an answer must begin with, whose it is and of which line, and the client that reads; None where the log asks.
Due = collections.namedtuple("Due", "front session seq line client")


def version(program):
    """What the program says of itself."""
    try:
        return subprocess.run([program, "--version"], capture_output=True, text=True, check=True).stdout.strip()
    except (OSError, subprocess.SubprocessError) as fault:
        stop(FILES, f"{program}: {fault}")


class Core:
    """`mls serve` behind two pipes."""

    def __init__(self, program, start):
        self.words, self.start = [program, "serve", "--sessions", "--numbers", "--recover", "--journal"], start
        self.child, self.lines, self.due = None, [], collections.deque()
        # (how many answers it owes to the log)
        self.owed, self.is_even = 0, asyncio.Event()
        self.is_even.set()

    async def begin(self, journal, entries, *more):
        """Starts it over a journal of so many entries, with more words or without."""
        words, pipe = [*self.words, journal, *more, self.start], asyncio.subprocess.PIPE
        self.child = await asyncio.create_subprocess_exec(*words, stdin=pipe, stdout=pipe, limit=PIECE)
        ready = await self.child.stdout.readline()
        if not ready:
            await self.end()
        if ready != b"ready %d\n" % entries:
            stop(REFUSED, f"the core says {ready!r}, and its journal has {entries} entries")

    def ask(self, session, seq, line):
        """Asks a line of the log."""
        self.due.append(Due(b"%d " % session, session, seq, line, None))
        self.lines.append(b"%d %s\n" % (session, line))
        self.owed += 1
        self.is_even.clear()

    def question(self, client, session, tag, line):
        """Asks, for a client, what a line would be answered, which changes nothing."""
        self.due.append(Due(b"%d ? " % session, session, tag, line, client))
        self.lines.append(b"%d ? %s\n" % (session, line))

    def flush(self):
        """Sends what was asked: what is sent together shares a sync."""
        if self.lines:
            self.child.stdin.write(b"".join(self.lines))
            self.lines = []

    async def room(self):
        """Waits while it has much to read."""
        try:
            await self.child.stdin.drain()
        except ConnectionError:
            # (its status says why)
            await self.end()

    async def answers(self, take):
        """Hears its answers, in order, until it ends."""
        rest = b""
        while piece := await self.child.stdout.read(PIECE):
            *lines, rest = (rest + piece).split(b"\n")
            for line in lines:
                if not self.due or not line.startswith(self.due[0].front):
                    stop(REFUSED, f"the core answers {line!r}, which isn't due")
                due = self.due.popleft()
                take(due, line[len(due.front) :])
                self.owed -= due.client is None
            if not self.owed:
                self.is_even.set()
        await self.end()

    async def relieve(self):
        """Ends it, which owes nothing: another one goes on."""
        self.child.stdin.close()
        if await self.child.stdout.read(1) or await self.child.wait():
            await self.end()

    async def end(self):
        """Ends this replica with its core."""
        status = await self.child.wait()
        stop(status if status in (FILES, REFUSED, DISK) else CORE_DIED, f"the core ended with status {status}")
