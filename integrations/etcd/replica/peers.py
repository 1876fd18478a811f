"""The other machines, whose journals must be the same as this one's."""
import asyncio
import re

from . import keys
from .ending import REFUSED, stop
from .log import text_of

DIGEST = re.compile(rb"([1-9][0-9]{0,17}) ([0-9a-f]{64})")


class Peers:
    """What each machine published last: the digest of its first N entries."""

    def __init__(self, log, journal, name, close_door):
        self.log, self.journal, self.name, self.close_door = log, journal, name, close_door
        self.last, self.is_due, self.published, self.halting = 0, asyncio.Event(), {}, None

    def reached(self, entries):
        """This machine's digest of so many entries is there."""
        self.last = entries
        self.is_due.set()
        for name in self.published:
            self.compare(name)

    async def publish(self):
        """Tells the others the last digest."""
        while True:
            await self.is_due.wait()
            self.is_due.clear()
            entries = self.last
            text = f"{entries} {self.journal.digests[entries]}"
            await self.log.put(keys.DIGEST + self.name.encode(), text.encode())

    def take(self, event):
        """Takes a change in etcd."""
        if event.key.startswith(keys.DIGEST) and not event.is_gone:
            self.heard(event.key, event.value)

    def heard(self, key, value):
        found = DIGEST.fullmatch(value)
        if not found:
            stop(REFUSED, f"{text_of(key)}: is no digest: {text_of(value)[:200]!r}")
        name = text_of(key[len(keys.DIGEST) :])
        self.published[name] = int(found[1]), found[2].decode()
        self.compare(name)

    def compare(self, name):
        entries, digest = self.published[name]
        own = self.journal.digests.get(entries)
        if own and own != digest and not self.halting:
            self.close_door()
            why = f"{self.name} and {name} differ in the first {entries} entries"
            self.halting = asyncio.create_task(self.log.halt(why))
