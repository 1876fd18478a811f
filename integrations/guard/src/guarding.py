"""The guard: its folders, its log and its monitor, and the messages one after the other."""
import os
import select
import signal
import urllib.parse

from filter import Filter
from folder import Folder
from log import Log
from message import Message
from service import Service
from stop import DENIED, DIFFERS, WORDS, Stop


class Guard:
    def __init__(self, words, box):
        self.limit = words.limit
        self.filter = Filter(words.filter, box, words.seconds)
        self.high, self.low, self.state = Folder(words.high), Folder(words.low), Folder(words.state)
        self.judge_places()
        self.log = Log(f"{words.state}/journal.sessions")
        self.spool, self.refused = self.part("spool"), self.part("refused")
        self.state.sync()
        self.service = Service(words.program, f"{words.state}/journal", words.start)
        self.told, self.ending = set(), os.pipe()

    def judge_places(self):
        """A message is taken by a rename, so the high folder and what is kept of it lie on one file system."""
        high, low, state = (os.fstat(folder.fd) for folder in (self.high, self.low, self.state))
        if len({(it.st_dev, it.st_ino) for it in (high, low, state)}) < 3:
            raise Stop(WORDS, "HIGH, LOW and STATE are three folders")
        if high.st_dev != state.st_dev:
            raise Stop(WORDS, "HIGH and STATE lie on two file systems")

    def part(self, name):
        """A folder within the state."""
        if not self.state.status(name):
            # (what was taken is in the spool)
            if name == "spool" and self.log.session:
                raise Stop(DIFFERS, f"{self.state.path}/{name}: is gone")
            os.mkdir(name, 0o700, dir_fd=self.state.fd)
        return Folder(f"{self.state.path}/{name}")

    def spool_is_there(self):
        if not self.spool.is_there():
            raise Stop(DIFFERS, f"{self.spool.path}: is gone")

    def ask(self, session, request):
        """Asks the monitor. Nothing more is done once it said no."""
        reply = self.service.ask(session, request)
        if not reply.startswith(("yes", "created")):
            self.tell(session, "denied", f"{request}: {reply}")
            raise Stop(DENIED, f"session {session}: {request}: {reply}")
        return reply

    def tell(self, session, what, more):
        self.log.tell(session, what, self.service.next, more)

    def run(self, once, every):
        """Moves what there is and what comes, until it is told to end; or what there is, once."""
        try:
            self.moves(once, every)
        except OSError:
            self.spool_is_there()
            raise

    def moves(self, once, every):
        for number in (signal.SIGTERM, signal.SIGINT):
            signal.signal(number, lambda *_: os.write(self.ending[1], b"."))
        self.log.judge(self.service.next)
        words = quoted(" ".join([*self.filter.box, self.filter.program]))
        self.log.tell_guard("started", self.service.next, f"pid {os.getpid()} filter {words}")
        if self.log.unfinished():
            self.go_on()
        while True:
            for name in self.messages():
                if self.is_told_to_end(0):
                    break
                self.spool_is_there()
                session = self.log.next()
                self.tell(session, "opened", quoted(name))
                Message(self, session, name).live()
            if once or self.is_told_to_end(every):
                break
        self.service.end()
        self.log.tell_guard("ended", self.service.next, "")

    def go_on(self):
        """Goes on with the message that a crash has interrupted."""
        session, name = self.log.session, self.log.lines["opened"][0]
        Message(self, session, os.fsdecode(urllib.parse.unquote_to_bytes(name)), self.service.granted(session)).live()

    def messages(self):
        """The names of the files in the high folder; of what else lies there it is told once."""
        names = self.high.names()
        files = [name for name in names if self.high.is_file(name)]
        others = {name for name in set(names).difference(files) if self.high.status(name)}
        for name in sorted(others - self.told):
            self.tell(0, "skipped", quoted(name))
        self.told = others
        return files

    def is_told_to_end(self, seconds):
        return bool(select.select([self.ending[0]], [], [], seconds)[0])


def quoted(name):
    """A name as printable ASCII without a space."""
    return urllib.parse.quote_from_bytes(os.fsencode(name))
