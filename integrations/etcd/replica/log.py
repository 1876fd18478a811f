"""The log in etcd: the versions of one key, in their order, by all machines."""
import asyncio
import collections
import secrets
import time

from . import etcd, keys
from .ending import REFUSED, Complaints, stop, tell
from .member import Unavailable

# A change of a key: at what revision of etcd, and which version of the key it made.
Event = collections.namedtuple("Event", "key value revision version is_gone")
FENCED = "fenced off: this machine's key was deleted, or taken by a later start of it"
# Seconds for which a halt is tried before this replica ends without one.
HALTING = 10


def text_of(value):
    """A value as text, whoever wrote it."""
    return value.decode(errors="backslashreplace")


def events_of(message):
    """The changes that a message of a watch tells of, in their order."""
    found = []
    for event in message["result"].get("events", []):
        pair = event["kv"]
        version, is_gone = int(pair.get("version", 0)), event.get("type") == "DELETE"
        revision = int(pair["mod_revision"])
        found.append(Event(etcd.decoded(pair["key"]), etcd.value_in(pair), revision, version, is_gone))
    return found


def check_watch(message):
    """Raises, or ends this replica, where a message says that the watch is over."""
    result = message.get("result", {})
    if result.get("compact_revision"):
        stop(REFUSED, "the log is cut off before this machine's place: give it another's journal and checkpoint")
    if "error" in message or result.get("canceled"):
        raise Unavailable(f"watch: {message}")


class Log:
    """The log as one machine sees it, that has joined."""

    def __init__(self, members, watched, name, start, program):
        # (the same members twice: one that fails as the one is not said to fail as the other)
        self.etcd, self.watched = members, watched
        self.member, self.agreed = keys.MEMBER + name.encode(), f"{start} {program}".encode()
        self.config = self.nonce = None
        # (the revision at which this machine joined, and the one before which the log has nothing)
        self.joined = self.first = 0
        self.complaints, self.close_watch = Complaints(), lambda: None

    async def wait(self, fault):
        self.complaints.tell(f"etcd: {fault}")
        await asyncio.sleep(0.05)

    async def join(self):
        """Agrees with the others on what is replicated, and takes the member's key: an older process that has this
        machine's name appends nothing from then on."""
        while self.nonce is None:
            try:
                await self.agree()
                await self.take_key()
            except Unavailable as fault:
                await self.wait(fault)

    async def agree(self):
        fresh = secrets.token_hex(8).encode() + b" " + self.agreed
        await self.etcd.transact([etcd.is_absent(keys.CONFIG)], [etcd.put(keys.CONFIG, fresh)])
        pair = etcd.pair_of(await self.etcd.get(keys.CONFIG))
        log = etcd.pair_of(await self.etcd.get(keys.LOG, keys_only=True))
        if pair is None:
            raise Unavailable("the log is being replaced")
        self.config, self.first = etcd.value_in(pair), int((log or pair)["create_revision"])
        if self.config.partition(b" ")[2] != self.agreed:
            stop(REFUSED, f"the log is of another start or program: it has {self.name()}, and this is "
                          f"{self.agreed.decode()}")

    def name(self):
        """What the machines have agreed on."""
        return text_of(self.config)

    async def take_key(self):
        """Puts a word of its own, if nobody did meanwhile: a put that is asked for twice is done once."""
        nonce = secrets.token_hex(8).encode()
        pair = etcd.pair_of(await self.etcd.get(self.member))
        compare = [etcd.is_of(self.member, pair["mod_revision"] if pair else 0), etcd.is_absent(keys.HALT),
                   etcd.has_value(keys.CONFIG, self.config)]
        await self.etcd.transact(compare, [etcd.put(self.member, nonce)])
        halt = etcd.value_of(await self.etcd.get(keys.HALT))
        if halt is not None:
            stop(REFUSED, f"halted: {text_of(halt)}")
        pair = etcd.pair_of(await self.etcd.get(self.member))
        if pair and etcd.value_in(pair) == nonce:
            self.nonce, self.joined = nonce, int(pair["mod_revision"])

    def conditions(self):
        """What must hold where a batch is ordered: nobody has halted the log, it is the same, and this process is
        still the machine's own."""
        return [etcd.is_absent(keys.HALT), etcd.has_value(keys.CONFIG, self.config),
                etcd.has_value(self.member, self.nonce)]

    async def append(self, batch):
        """Appends a batch. Where replies are lost it may be appended twice: its requests are fed once all the same."""
        while True:
            try:
                reply = await self.etcd.transact(self.conditions(), [etcd.put(keys.LOG, batch)],
                                                 [keys.HALT, keys.CONFIG, self.member])
            except Unavailable as fault:
                await self.wait(fault)
                continue
            if not reply.get("succeeded"):
                self.stop_for(*(etcd.value_of(it["response_range"]) for it in reply["responses"]))
            return

    def stop_for(self, halt, config, nonce):
        """Ends this replica, by what it found instead of its conditions."""
        if halt is not None:
            stop(REFUSED, f"halted: {text_of(halt)}")
        if config != self.config:
            stop(REFUSED, "the log was replaced by another")
        stop(REFUSED, FENCED if nonce != self.nonce else "a transaction failed without a reason")

    async def head(self):
        """The number of the last batch, by a linearizable read."""
        pair = etcd.pair_of(await self.etcd.get(keys.LOG, keys_only=True))
        return int(pair["version"]) if pair else 0

    async def head_at_last(self):
        """The same, however long it takes."""
        while True:
            try:
                return await self.head()
            except Unavailable as fault:
                await self.wait(fault)

    async def halt(self, why):
        """Sees to it that no machine appends to this log any more, and ends this replica. (Another log that is there
        by now isn't halted.)"""
        tell(f"{why}: halting all")
        try:
            async with asyncio.timeout(HALTING):
                await self.put_halt(why.encode())
        finally:
            stop(REFUSED, f"halted: {why}")

    async def put_halt(self, why):
        while True:
            try:
                compare = [etcd.is_absent(keys.HALT), etcd.has_value(keys.CONFIG, self.config)]
                return await self.etcd.transact(compare, [etcd.put(keys.HALT, why)])
            except Unavailable as fault:
                await self.wait(fault)

    async def digests(self):
        """The digest that each machine published last."""
        reply = await self.etcd.get(keys.DIGEST, range_end=etcd.encoded(keys.DIGEST[:-1] + b"0"))
        return [(etcd.decoded(it["key"]), etcd.value_in(it)) for it in reply.get("kvs", [])]

    async def put(self, key, value):
        """Puts a key, however long it takes."""
        while True:
            try:
                return await self.etcd.ask("/v3/kv/put", etcd.put(key, value)["request_put"])
            except Unavailable as fault:
                await self.wait(fault)

    async def follow(self, place, take):
        """Hears what changes from a place on that `place` tells, at one member after another, without end."""
        while True:
            member = self.watched.best()
            body = {"key": etcd.encoded(keys.FIRST), "range_end": etcd.encoded(keys.BEYOND),
                    "start_revision": str(place()), "fragment": True}
            try:
                async for message in member.watch({"create_request": body}, self.opened):
                    check_watch(message)
                    await take(events_of(message))
            except Unavailable as fault:
                self.complaints.tell(f"etcd: {fault}")
            member.failed = time.monotonic()
            await asyncio.sleep(0.05)

    def opened(self, close):
        self.close_watch = close

    def take(self, event):
        """Takes a change that came after this machine had joined: some of them end it."""
        if event.key == keys.HALT and not event.is_gone:
            stop(REFUSED, f"halted: {text_of(event.value)}")
        if event.key == keys.CONFIG:
            stop(REFUSED, "the log was replaced by another")
        if event.key == self.member and event.value != self.nonce:
            stop(REFUSED, FENCED)
