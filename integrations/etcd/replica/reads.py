"""Questions, which go past the log: what a line would be answered. They change nothing."""
import asyncio
import time

from .member import Unavailable

# How many seconds behind the log a local answer may be, by this machine's own clock; how often the log is looked at.
BEHIND, LOOK = 2.0, 0.5
# How many seconds a watch may be silent though the log has more.
SILENT = 1.5


def now():
    """Seconds that also count while the machine is suspended."""
    return time.clock_gettime(time.CLOCK_BOOTTIME)


class Reads:
    """Those that wait until this machine has all that the log had when they came."""

    def __init__(self, log, order, core):
        self.log, self.order, self.core = log, order, core
        self.waiting, self.is_wanted, self.fresh = [], asyncio.Event(), now() - BEHIND

    def add(self, *question):
        """One that is linearizable: it waits for a look at the log that begins after it came."""
        self.waiting.append(question)
        self.is_wanted.set()

    def ask_now(self, *question):
        """One of this machine's state; false where that may be too old."""
        if now() - self.fresh > BEHIND:
            return False
        if not self.core.lines:
            asyncio.get_running_loop().call_soon(self.core.flush)
        self.core.question(*question)
        return True

    async def catch_up(self):
        """Waits until this machine has fed all that the log has now."""
        began, before = now(), self.order.number
        head = await self.log.head()
        if head < before:
            self.order.has_reached(head)
        await self.order.until(head)
        self.fresh = max(self.fresh, began)

    async def serve(self):
        """Answers those that wait, all of them after one look."""
        while True:
            await self.is_wanted.wait()
            self.is_wanted.clear()
            taken, self.waiting = self.waiting, []
            try:
                await self.catch_up()
            except Unavailable as fault:
                self.waiting = taken + self.waiting
                self.is_wanted.set()
                await self.log.wait(fault)
                continue
            for question in taken:
                self.core.question(*question)
            self.core.flush()
            await self.core.room()

    async def look(self):
        """Keeps this machine fresh, and finds out that its watch is silent."""
        patience = SILENT
        while True:
            before = self.order.number
            try:
                # (not wait_for, which may lose that it is cancelled)
                async with asyncio.timeout(patience):
                    await self.catch_up()
                patience = SILENT
            except Unavailable as fault:
                self.log.complaints.tell(f"etcd: {fault}")
            except TimeoutError:
                # (the log has more, and nothing came; or much is coming: then the next watch is given more time)
                if self.order.number == before:
                    self.log.close_watch()
                    patience = min(60, 2 * patience)
            await asyncio.sleep(LOOK)
