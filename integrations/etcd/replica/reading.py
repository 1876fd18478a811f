"""The log as lines for a fresh `mls serve --sessions`, for an audit or to keep."""
import argparse
import asyncio
import sys

from . import etcd, keys, lines, sessions, words
from .ending import FILES, REFUSED, stop
from .log import check_watch, events_of
from .member import Unavailable


def say(text):
    sys.stdout.buffer.write(text + b"\n")


class Reader:
    """Prints each request of the log that is fed, and of each session, in a note, who opened it."""

    def __init__(self, members):
        self.etcd, self.sessions, self.number = members, sessions.Sessions(), 0

    async def run(self):
        try:
            pair = etcd.pair_of(await self.etcd.get(keys.LOG, keys_only=True))
            config = etcd.pair_of(await self.etcd.get(keys.CONFIG))
            if not config:
                stop(FILES, "etcd has no log")
            say(b"0 ; log " + etcd.value_in(config))
            if pair:
                await self.read(int(pair["create_revision"]), int(pair["version"]))
        except Unavailable as fault:
            stop(FILES, f"etcd: {fault}")

    async def read(self, first, head):
        body = {"key": etcd.encoded(keys.LOG), "start_revision": str(first), "fragment": True}
        messages = self.etcd.best().watch({"create_request": body}, lambda close: None)
        while self.number < head:
            message = await anext(messages)
            check_watch(message)
            for event in events_of(message):
                self.number += 1
                if event.version != self.number:
                    stop(FILES, f"batch {event.version} of the log comes after batch {self.number - 1}")
                self.show(event.value)

    def show(self, batch):
        try:
            records = lines.records(batch)
        except ValueError:
            stop(REFUSED, f"mls/log: batch {self.number} is none that a replica writes")
        for record in records:
            if len(record) == 1:
                say(b"0 ; session %d %s" % (self.sessions.open(record[0]), record[0]))
            elif self.sessions.judge(*record) == sessions.FEED and lines.has_answer(record[2]):
                say(b"%d %s" % (record[0], record[2]))


def main():
    reader = argparse.ArgumentParser(prog="log-lines", description=__doc__, allow_abbrev=False)
    words.add_etcd(reader)
    asked = reader.parse_args()
    asyncio.run(Reader(etcd.Etcd(asked.etcd, words.tls_of(asked))).run())
