"""Clients that ask at random, each at one machine and after a fault at the next, and what they were answered when."""
import asyncio
import collections
import random
import secrets
import threading
import time

# What was asked by a session: the number of its request (None of a question), the line, the answer, and when it was
# asked and answered. `about` says that a question was answered by one machine's state alone.
Deed = collections.namedtuple("Deed", "session seq line answer began ended about")
SUBJECTS, OBJECTS = ("ann", "bob", "sec", "aud"), ("root", "plans", "memo", "tool", "#4", "#5", "#6")
MODES, LABELS = ("read", "append", "write", "execute"), ("U", "C", "S", "S:A", "T:A,B")
PATIENCE = 4.0


def random_line(chance):
    """A line of any form, with a fault now and then."""
    subject, thing, mode = chance.choice(SUBJECTS), chance.choice(OBJECTS), chance.choice(MODES)
    forms = [f"get-{mode} {thing}", f"get-{mode} {thing}", f"release {mode} {thing}", f"release {mode} {thing}",
             f"give {mode} {chance.choice(SUBJECTS)} {thing}", f"rescind {mode} {chance.choice(SUBJECTS)} {thing}",
             f"create root {chance.choice(LABELS)} hi", f"delete {chance.choice(OBJECTS[4:])}",
             f"level {chance.choice(LABELS)}", f"check {mode} {thing}", f"frob {thing}", f"get-read nothing"]
    return f"{subject} {chance.choice(forms)}"


def random_question(chance):
    return f"{chance.choice(SUBJECTS)} check {chance.choice(MODES)} {chance.choice(OBJECTS)}"


class LoadClient:
    """One client, with a session of its own."""

    def __init__(self, load, sockets, seed, moves=True):
        self.load, self.sockets, self.chance, self.moves = load, list(sockets), random.Random(seed), moves
        self.name, self.number, self.seq = f"load.{secrets.token_hex(8)}", None, 0
        self.reader = self.writer = None

    async def run(self):
        while not self.load.is_over:
            kind = self.chance.random()
            if kind < self.load.questions:
                sign = "~" if kind < self.load.questions / 4 else "?"
                await self.deed(None, sign, random_question(self.chance))
            else:
                self.seq += 1
                await self.deed(self.seq, "", random_line(self.chance))
            await asyncio.sleep(self.load.pause)
        self.close()

    async def deed(self, seq, sign, line):
        """One line, which is asked until it is answered."""
        began = time.monotonic()
        asked = f"{seq or 0} {sign + ' ' if sign else ''}{line}"
        answer = await self.answer(asked, f"{seq or 0} ?" if sign else f"{seq}")
        if answer != "stale":
            self.load.deeds.append(Deed(self.number, seq, line, answer, began, time.monotonic(), sign == "~"))

    async def answer(self, asked, front):
        while True:
            try:
                async with asyncio.timeout(PATIENCE):
                    if not self.writer:
                        await self.connect()
                    return await self.exchange(f"{self.number} {asked}", f"{self.number} {front} ")
            except (OSError, EOFError, TimeoutError):
                self.close()
                if self.moves:
                    self.sockets.append(self.sockets.pop(0))
                await asyncio.sleep(0.05)

    async def connect(self):
        self.reader, self.writer = await asyncio.open_unix_connection(self.sockets[0])
        number = int(await self.exchange(f"hello {self.name}", f"hello {self.name} "))
        assert self.number in (None, number), f"session {self.number} is {number} now"
        self.number = number

    async def exchange(self, line, front):
        self.writer.write(line.encode() + b"\n")
        while answer := (await self.reader.readline()).decode():
            if answer.startswith(front) and answer.endswith("\n"):
                return answer[len(front) : -1]
        raise EOFError

    def close(self):
        if self.writer:
            self.writer.close()
        self.writer = None


class Load:
    """Clients in a thread of their own, until they are told to end."""

    def __init__(self, cluster, clients, seed=1, questions=0.25, pause=0.0, moves=True):
        self.deeds, self.is_over, self.questions, self.pause = [], False, questions, pause
        rings = [cluster.sockets()[k:] + cluster.sockets()[:k] for k in range(3)]
        self.clients = [LoadClient(self, rings[k % 3], f"{seed} {k}", moves) for k in range(clients)]
        self.fault = None
        self.thread = threading.Thread(target=self.go, daemon=True)

    def go(self):
        async def all_of_them():
            await asyncio.gather(*(it.run() for it in self.clients))
        try:
            asyncio.run(all_of_them())
        except Exception as fault:
            self.fault = fault

    def __enter__(self):
        self.thread.start()
        return self

    def __exit__(self, *_):
        self.is_over = True
        self.thread.join(180)
        assert not self.thread.is_alive(), "a client has no answer yet"
        if self.fault:
            raise self.fault

    def answered(self, machine=None):
        """How many deeds are answered."""
        return len(self.deeds)

    def goes_on(self, more=20, seconds=90):
        """Waits until so many more are answered, and returns the longest time without an answer until then."""
        first, before, longest = len(self.deeds), time.monotonic(), 0.0
        ends = before + seconds
        while len(self.deeds) < first + more:
            assert time.monotonic() < ends, f"only {len(self.deeds) - first} answers in {seconds} s"
            assert not self.fault, self.fault
            count = len(self.deeds)
            time.sleep(0.005)
            if len(self.deeds) > count:
                longest, before = max(longest, time.monotonic() - before), time.monotonic()
        return longest
