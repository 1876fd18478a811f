"""etcd as a whole: one member is asked, and where it fails or is slow the others too."""
import asyncio
import base64
import time

from .member import Member, Unavailable

# Seconds that a reply may take, at least and at most: three times what the last one took, so that a cluster that is
# slow isn't asked the same thing more and more often. After this part of them the other members are asked too.
SHORTEST, LONGEST, PATIENCE = 0.7, 5.0, 0.4
# Seconds for which a member that failed is asked last.
AVOIDED = 3


def encoded(data):
    return base64.b64encode(data).decode()


def decoded(text):
    return base64.b64decode(text)


def is_absent(key):
    """The condition that a key isn't there."""
    return {"key": encoded(key), "target": "CREATE", "create_revision": "0", "result": "EQUAL"}


def has_value(key, value):
    return {"key": encoded(key), "target": "VALUE", "value": encoded(value), "result": "EQUAL"}


def is_of(key, revision):
    """The condition that a key was put last at a revision, which is 0 where it isn't there."""
    return {"key": encoded(key), "target": "MOD", "mod_revision": str(revision), "result": "EQUAL"}


def put(key, value):
    return {"request_put": {"key": encoded(key), "value": encoded(value)}}


def pair_of(ranged):
    """The first key and value of a range, or None."""
    return ranged.get("kvs", [None])[0]


def value_in(pair):
    """The value of a key. (A reply has no field for an empty one.)"""
    return decoded(pair.get("value", ""))


def value_of(ranged):
    pair = pair_of(ranged)
    return value_in(pair) if pair else None


class Etcd:
    """The members, that of this machine first. Whatever is asked may be done twice."""

    def __init__(self, ends, tls=None):
        self.members, self.seconds = [Member(host, port, tls) for host, port in ends], SHORTEST

    def best(self):
        """The member to ask: the first that has not failed lately."""
        now = time.monotonic()
        return min(self.members, key=lambda it: max(0, it.failed + AVOIDED - now))

    async def ask(self, path, body):
        began = time.monotonic()
        try:
            reply = await self.ask_all(path, body)
        except Unavailable:
            is_slow = time.monotonic() - began > self.seconds
            self.seconds = min(LONGEST, self.seconds * 1.5) if is_slow else self.seconds
            raise
        self.seconds = min(LONGEST, max(SHORTEST, 3 * (time.monotonic() - began)))
        return reply

    async def ask_all(self, path, body):
        """Asks one, and where it fails or is slow the others too."""
        first, faults = self.best(), []
        tasks = [self.asked(first, path, body)]
        try:
            await asyncio.wait(tasks, timeout=self.seconds * PATIENCE)
            if tasks[0].done() and not tasks[0].exception():
                return tasks[0].result()
            first.failed = time.monotonic()
            tasks += [self.asked(it, path, body) for it in self.members if it is not first]
            for reply in asyncio.as_completed(tasks):
                try:
                    return await reply
                except Unavailable as fault:
                    faults.append(str(fault))
            raise Unavailable("; ".join(faults))
        finally:
            for task in tasks:
                task.cancel()

    def asked(self, member, path, body):
        task = asyncio.create_task(member.ask(path, body, self.seconds))
        # (a fault of one that nobody waits for any more is heard here)
        task.add_done_callback(lambda it: it.cancelled() or it.exception())
        return task

    async def transact(self, compare, success, failure=()):
        body = {"compare": compare, "success": success,
                "failure": [{"request_range": {"key": encoded(key)}} for key in failure]}
        return await self.ask("/v3/kv/txn", body)

    async def get(self, key, **more):
        """A linearizable read."""
        return await self.ask("/v3/kv/range", {"key": encoded(key), **more})
