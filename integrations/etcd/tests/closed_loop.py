"""A process of clients for bench: each asks its next line once the last is answered. Prints how many were answered, and
their times in milliseconds.

    closed_loop.py SOCKET CLIENTS SECONDS SIGN     SIGN is !, ? or ~
"""
import asyncio
import json
import secrets
import sys
import time

LINES = (b"ann get-read plans", b"ann release read plans")


class LoopClient(asyncio.Protocol):
    """One of them."""

    def __init__(self, sign, times, ends):
        self.sign, self.times, self.ends = b"" if sign == "!" else sign.encode() + b" ", times, ends
        self.count, self.began, self.rest, self.over = 0, 0.0, b"", asyncio.get_running_loop().create_future()

    def connection_made(self, transport):
        self.transport = transport
        transport.write(b"hello bench.%s\n" % secrets.token_hex(8).encode())

    def data_received(self, data):
        *lines, self.rest = (self.rest + data).split(b"\n")
        for line in lines:
            if self.count:
                assert not line.endswith(b"gap"), line
                self.times.append(time.monotonic() - self.began)
            else:
                self.session = line.split()[2]
            self.next()

    def next(self):
        self.began = time.monotonic()
        if self.began > self.ends:
            return self.over.done() or self.over.set_result(None)
        self.count += 1
        self.transport.write(b"%s %d %s%s\n" % (self.session, self.count, self.sign, LINES[self.count % 2]))


async def main(path, clients, seconds, sign):
    times, ends, loop = [], time.monotonic() + float(seconds), asyncio.get_running_loop()
    made = [(await loop.create_unix_connection(lambda: LoopClient(sign, times, ends), path))[1]
            for _ in range(int(clients))]
    await asyncio.gather(*(it.over for it in made))
    print(json.dumps([round(it * 1000, 3) for it in times]))


asyncio.run(main(*sys.argv[1:]))
