"""One member of etcd, asked by its JSON gateway: HTTP/1.1 over connections that are kept."""
import asyncio
import json
import math

# A reply, and a message of a watch, may have some megabytes; this is only what is read ahead.
READ_AHEAD = 1 << 20
FAULTS = (OSError, EOFError, ValueError, IndexError, KeyError, TimeoutError, asyncio.LimitOverrunError)


class Unavailable(Exception):
    """No reply came. What was asked was done, will be done, or won't be: nobody knows."""


async def head_of(reader):
    """The status of a reply, and its fields."""
    lines = (await reader.readuntil(b"\r\n\r\n")).split(b"\r\n")
    fields = (line.partition(b":") for line in lines[1:])
    return int(lines[0].split()[1]), {name.strip().lower(): value.strip() for name, _, value in fields}


async def size_of(reader):
    """How many bytes the next piece of a body has."""
    line = await reader.readline()
    if not line:
        raise ConnectionError("the connection was closed")
    return int(line, 16)


async def chunks(reader):
    while size := await size_of(reader):
        yield (await reader.readexactly(size + 2))[:-2]
    await reader.readline()


async def body_of(reader, fields):
    if b"content-length" in fields:
        return await reader.readexactly(int(fields[b"content-length"]))
    return b"".join([piece async for piece in chunks(reader)])


class Member:
    """Its address, the connections that wait for use, and when it failed last."""

    def __init__(self, host, port, tls=None):
        self.host, self.port, self.tls = host, port, tls
        self.idle, self.failed = [], -math.inf

    async def connected(self):
        return await asyncio.open_connection(self.host, self.port, ssl=self.tls, limit=READ_AHEAD)

    def send(self, writer, path, body, more=""):
        data = json.dumps(body).encode()
        head = f"POST {path} HTTP/1.1\r\nHost: {self.host}\r\n{more}Content-Length: {len(data)}\r\n\r\n"
        writer.write(head.encode() + data)

    async def ask(self, path, body, seconds):
        """Asks once, and returns the reply, if it comes within so many seconds."""
        reader = writer = None
        try:
            async with asyncio.timeout(seconds):
                reader, writer = self.idle.pop() if self.idle else await self.connected()
                self.send(writer, path, body)
                status, fields = await head_of(reader)
                data = await body_of(reader, fields)
            if status != 200:
                raise Unavailable(f"{self.host}: {data.decode(errors='replace')}")
            reply = json.loads(data)
            self.idle.append((reader, writer))
            writer = None
            return reply
        except FAULTS as fault:
            self.idle.clear()
            raise Unavailable(f"{self.host}: {fault!r}") from fault
        finally:
            if writer:
                writer.close()

    async def watch(self, body, opened):
        """The messages of a watch, until it ends. `opened` is given what closes it."""
        writer = None
        try:
            async with asyncio.timeout(2):
                reader, writer = await self.connected()
                opened(writer.close)
                # (without this a watch at a member that has lost its leader is silent)
                self.send(writer, "/v3/watch", body, "Grpc-Metadata-hasleader: true\r\n")
                await head_of(reader)
            rest = b""
            async for piece in chunks(reader):
                *whole, rest = (rest + piece).split(b"\n")
                for message in whole:
                    yield json.loads(message)
        except FAULTS as fault:
            raise Unavailable(f"{self.host}: watch: {fault!r}") from fault
        finally:
            if writer:
                writer.close()
