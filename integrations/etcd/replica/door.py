"""The door: the clients of this machine, on a socket, and what they wait for."""
import asyncio
import json
import os

from . import files, lines
from .client import Client


class Door:
    """Who waits for which answer."""

    def __init__(self, appender, stats):
        self.appender, self.stats = appender, stats
        self.reads = self.order = None
        self.is_closed = False
        # (by session, number and line, and by the name of a session that is to be opened)
        self.waiting, self.opening = {}, {}

    async def begin(self, path, reads, order):
        self.reads, self.order = reads, order
        with files.at(path):
            if os.path.exists(path):
                os.remove(path)
            before = os.umask(0o177)
            await asyncio.get_running_loop().create_unix_server(lambda: Client(self), path)
            os.umask(before)

    def close(self):
        """From now on nobody is answered."""
        self.is_closed = True

    def take(self, client, line):
        """Takes a line of a client."""
        word, _, rest = line.partition(b" ")
        tag, _, text = rest.partition(b" ")
        if word == b"hello" and lines.is_name(rest):
            self.opening.setdefault(rest, []).append(client)
            self.appender.add(lines.opening(rest))
        elif line == b"stats":
            client.tell(json.dumps(self.stats()).encode() + b"\n")
        elif not lines.is_number(word) or not lines.is_number(tag):
            client.tell(b"- bad form\n")
        elif int(word) not in client.sessions:
            client.tell(b"%s %s not open\n" % (word, tag))
        elif text[:2] in (b"? ", b"~ "):
            self.question(client, int(word), int(tag), text[:1], text[2:])
        else:
            self.request(client, int(word), int(tag), text.strip(b" "))

    def request(self, client, session, seq, line):
        """Has a line asked once, whoever asked it before."""
        line = lines.as_fed(line)
        self.waiting[session, seq, line] = client
        if self.order.sessions.is_fed(session, seq):
            self.order.answer_again(session, seq, line)
        else:
            self.appender.add(lines.request(session, seq, line))

    def question(self, client, session, tag, sign, line):
        if not lines.has_answer(line):
            client.tell(b"%d %d ? bad form\n" % (session, tag))
        elif sign == b"?":
            self.reads.add(client, session, tag, line)
        elif not self.reads.ask_now(client, session, tag, line):
            client.tell(b"%d %d ? stale\n" % (session, tag))

    def opened(self, name, session):
        """A session was opened, or was open."""
        for client in self.opening.pop(name, ()):
            if session is None:
                client.tell(b"hello %s full\n" % name)
            else:
                client.sessions.add(session)
                client.tell(b"hello %s %d\n" % (name, session))

    def answered(self, session, seq, line, answer):
        """Tells an answer to who waits for it here, if anybody does."""
        client = self.waiting.pop((session, seq, line), None)
        if client:
            client.tell(b"%d %d %s\n" % (session, seq, answer))
