"""The order: the batches of the log, each fed to the core once, in their order, and what comes of it."""
import asyncio
import hashlib

from . import keys, lines, sessions
from .checkpoint import Checkpoint
from .ending import REFUSED, WentBack, stop
from .journal import EVERY


# Lines that are sent to the core at once, at most, but for those of one batch.
MANY = 10_000


def digest(batch):
    return hashlib.sha256(batch).hexdigest()


class Order:
    """The place in the log up to which this machine has fed it."""

    def __init__(self, log, journal, marks, core, door, peers, words):
        self.log, self.journal, self.marks = log, journal, marks
        self.core, self.door, self.peers = core, door, peers
        self.checkpoint_file, self.every = f"{words.journal}.checkpoint", words.every
        self.moved, self.is_found = asyncio.Event(), False

    async def begin(self):
        """Goes on from the checkpoint, with the journal as it was there, if the log still has that place."""
        at = Checkpoint.read(self.checkpoint_file, self.log.name())
        self.number, self.revision, self.batch, self.sessions = at.number, at.revision, at.batch, at.sessions
        # (those that were answered, and those of the last checkpoint)
        self.entries = self.saved = at.entries
        self.has_reached(await self.log.head_at_last())
        self.marks.recover(at.marks, at.marks_digest)
        self.journal.recover(at.entries, at.digest)

    def has_reached(self, head):
        """The log must end no earlier than what was fed of it."""
        if head < self.number:
            self.went_back(f"the log went back: it ends with batch {head}, and batch {self.number} was fed")

    def went_back(self, why):
        """Nobody is answered any more, on no machine."""
        self.door.close()
        raise WentBack(why)

    def place(self):
        """Where a watch begins: with the batch that was fed last, to see that the log still has it."""
        self.is_found = self.number == 0
        return self.revision or self.log.first

    async def until(self, number):
        """Waits until a batch is fed."""
        while self.number < number:
            await self.moved.wait()

    async def take(self, events):
        """Takes what has changed in etcd."""
        for event in events:
            if event.key == keys.LOG:
                await self.take_batch(event)
            elif event.revision > self.log.joined:
                self.log.take(event)
                self.peers.take(event)
        self.core.flush()
        self.moved.set()
        self.moved.clear()
        await self.core.room()

    async def take_batch(self, event):
        if event.is_gone:
            self.went_back("the log was deleted")
        place = (event.version, event.revision, digest(event.value))
        if place == (self.number, self.revision, self.batch):
            self.is_found = True
            return
        if event.version != self.number + 1 or not self.is_found:
            self.went_back(f"the log is another than it was: batch {event.version} at revision {event.revision} after "
                           f"batch {self.number} at revision {self.revision}")
        if self.entries - self.saved >= self.every:
            await self.save()
        self.feed(event.version, event.value)
        self.number, self.revision, self.batch = place
        if len(self.core.lines) > MANY:
            self.core.flush()
            await self.core.room()

    def feed(self, number, batch):
        try:
            records = lines.records(batch)
        except ValueError:
            stop(REFUSED, f"mls/log: batch {number} is none that a replica writes")
        for record in records:
            if len(record) == 1:
                self.door.opened(record[0], self.sessions.open(record[0]))
            else:
                self.feed_request(*record)

    def feed_request(self, session, seq, line):
        judged = self.sessions.judge(session, seq, line)
        if judged == sessions.FEED and lines.has_answer(line):
            self.core.ask(session, seq, line)
        elif judged == sessions.FEED:
            self.keep(session, seq, line, b"bad form")
        elif judged == sessions.AGAIN:
            self.answer_again(session, seq, line)
        else:
            self.door.answered(session, seq, line, judged)

    def answer_again(self, session, seq, line):
        """Answers a request that was fed, if its answer is there: else it comes."""
        answer = self.sessions.answered(session, seq, line)
        if answer is not None:
            self.door.answered(session, seq, line, answer)

    def keep(self, session, seq, line, answer):
        self.sessions.answer(session, seq, answer)
        self.door.answered(session, seq, line, answer)

    def answered(self, due, answer):
        """Takes an answer of the core: to the log, or to a client's question."""
        if due.client:
            due.client.tell(b"%d %d ? %s %d\n" % (due.session, due.seq, answer, self.entries))
            return
        # (of the answers to the log just those that have an entry end with a number)
        if answer[-1:].isdigit():
            self.count(int(answer.rpartition(b" ")[2]))
        self.keep(due.session, due.seq, due.line, answer)

    def count(self, number):
        if number != self.entries:
            stop(REFUSED, f"the core has made entry {number}, and entry {self.entries} was due")
        self.entries += 1
        if self.entries % EVERY == 0:
            self.journal.read_to(self.entries)
            self.peers.reached(self.entries)

    async def even(self):
        """Waits until all that was fed is answered, and reads it in the journal."""
        self.core.flush()
        await self.core.is_even.wait()
        self.journal.read_to(self.entries)

    async def save(self):
        """Writes a checkpoint, unless the journal is still made again elsewhere."""
        await self.even()
        self.marks.read_all()
        if self.journal.live == self.journal.name:
            self.checkpoint().write(self.checkpoint_file)
        self.saved = self.entries

    def checkpoint(self):
        log, place, marks = self.log.name(), (self.number, self.revision, self.batch), self.marks
        return Checkpoint(log, *place, self.entries, self.journal.digest(), marks.place, marks.digest(), self.sessions)
