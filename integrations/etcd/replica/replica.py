"""One machine of a replicated monitor: its parts, and how they begin."""
import asyncio
import hashlib
import signal

from . import core as cores
from . import files
from .appender import Appender
from .core import Core
from .door import Door
from .ending import CORE_DIED, FILES, WentBack, stop, tell
from .etcd import Etcd
from .journal import Journal
from .log import Log
from .marks import Marks
from .member import Unavailable
from .order import Order
from .peers import Peers
from .reads import Reads
from .words import tls_of


def log_of(words):
    """The log in etcd, that machines with this start file and program share."""
    start = files.content(words.start)
    if not start:
        stop(FILES, f"{words.start}: isn't there")
    members = [Etcd(words.etcd, tls_of(words)) for _ in ("asked", "watched")]
    return Log(*members, words.name, hashlib.sha256(start).hexdigest(), cores.version(words.program))


class Replica:
    """The parts of one machine."""

    def __init__(self, words):
        self.words, self.journal, self.marks = words, Journal(words.journal), Marks(words.journal)
        self.log, self.core = log_of(words), Core(words.program, words.start)
        self.appender = Appender(self.log)
        self.door = Door(self.appender, self.stats)
        self.peers = Peers(self.log, self.journal, words.name, self.door.close)
        self.order = Order(self.log, self.journal, self.marks, self.core, self.door, self.peers, words)
        self.reads = Reads(self.log, self.order, self.core)

    def stats(self):
        """What an operator may ask."""
        order = self.order
        return {"name": self.words.name, "log": self.log.name(), "batch": order.number,
                "entries": order.entries, "checkpoint": order.saved, "sessions": len(order.sessions.known),
                "batches of this machine": self.appender.batches, "waiting": len(self.appender.waiting),
                "bytes under way": self.appender.under_way, "owed": self.core.owed}

    async def run(self):
        for number in (signal.SIGTERM, signal.SIGINT):
            asyncio.get_running_loop().add_signal_handler(number, lambda: stop(0, "told to end"))
        self.journal.lock()
        await self.log.join()
        try:
            await self.go_on()
            await self.core.begin(self.journal.name, self.order.entries, "--marks", self.marks.name)
            self.marks.are_kept = True
            await beside(self.serve(), self.core.answers(self.order.answered), self.follow())
        except WentBack as fault:
            await self.log.halt(str(fault))

    def follow(self):
        return self.log.follow(self.order.place, self.order.take)

    async def go_on(self):
        """Goes on from the checkpoint with what the log has now, by a core without marks. The journal is another file
        only once all has come out again that it had."""
        await self.order.begin()
        await self.core.begin(self.journal.live, self.order.entries)
        await beside(self.make_again(), self.core.answers(self.order.answered))
        await self.core.relieve()
        self.journal.settle()
        await self.order.save()

    async def make_again(self):
        await beside(self.reach_head(), self.follow(), self.reads.look())
        await self.order.even()

    async def reach_head(self):
        while True:
            try:
                for key, value in await self.log.digests():
                    self.peers.heard(key, value)
                return await self.reads.catch_up()
            except Unavailable as fault:
                await self.log.wait(fault)

    async def serve(self):
        """Serves clients, by a core that keeps marks."""
        await self.door.begin(self.words.socket, self.reads, self.order)
        tell(f"serving at entry {self.order.entries}")
        await beside(self.appender.serve(), self.reads.serve(), self.reads.look(), self.peers.publish())


async def beside(deed, *parts):
    """Does a deed beside parts that have no end: where one has, or the deed fails, the replica ends."""
    tasks = [asyncio.create_task(it) for it in (deed, *parts)]
    done, running = await asyncio.wait(tasks, return_when=asyncio.FIRST_COMPLETED)
    for task in done:
        if isinstance(task.exception(), WentBack):
            raise task.exception()
        if task.exception() or task is not tasks[0]:
            task.print_stack()
            stop(CORE_DIED, f"a part has ended: {task.exception()!r}")
    for task in running:
        task.cancel()
    await asyncio.gather(*running, return_exceptions=True)
