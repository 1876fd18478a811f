"""What the clients of this machine ask, gathered into batches."""
import asyncio
import collections

# What a batch takes at most: etcd takes 1.5 MB.
RECORDS, SIZE = 1_000, 200_000


class Appender:
    """Records that wait. One batch is under way at a time, so they come into the log in their order."""

    def __init__(self, log):
        self.log, self.waiting, self.has_some = log, collections.deque(), asyncio.Event()
        self.batches = self.under_way = 0

    def add(self, record):
        self.waiting.append(record)
        self.has_some.set()

    def gathered(self):
        batch, size = [], 0
        while self.waiting and len(batch) < RECORDS and size < SIZE:
            batch.append(self.waiting.popleft())
            size += len(batch[-1])
        return b"".join(batch)

    async def serve(self):
        while True:
            await self.has_some.wait()
            batch = self.gathered()
            self.under_way = len(batch)
            await self.log.append(batch)
            self.batches, self.under_way = self.batches + 1, 0
            if not self.waiting:
                self.has_some.clear()
