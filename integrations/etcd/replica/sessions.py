"""The sessions of the log, and which request is fed once. All of it is a function of the log alone, so that all
machines feed the same lines as the same sessions, and a request that is asked again, at any machine, has the answer of
the first time. It is the same request where its number and its line are the same."""
import hashlib

# The sessions that are known: where one more opens, the one that asked least lately is forgotten.
SESSIONS = 4_096
# The answers that are kept for each, and so the requests that it may have under way.
KEPT = 8
# The greatest number that `mls serve --sessions` takes.
LAST = 4_294_967_294

FEED, AGAIN = "feed", "again"
FORGOTTEN, GAP, TOO_OLD, ANOTHER = b"forgotten", b"gap", b"too old", b"another line"


def digest_of(line):
    """What is kept of a line: half of its SHA-256."""
    return hashlib.sha256(line).hexdigest()[:32]


class Session:
    """Its name, the number of its last request, and by number the last lines' digests with their answers: None of one
    that is still owed."""

    def __init__(self, name, last=0, answers=None):
        self.name, self.last, self.answers = name, last, answers or {}


class Sessions:
    """Those that are known, by number, the one that asked least lately first."""

    def __init__(self):
        self.next, self.known, self.named = 1, {}, {}

    def open(self, name):
        """The number of the session that has a name, or else of a new one; None where there are no more numbers."""
        if name in self.named:
            return self.named[name]
        if self.next > LAST:
            return None
        self.add(self.next, Session(name))
        self.next += 1
        if len(self.known) > SESSIONS:
            oldest = next(iter(self.known))
            del self.named[self.known.pop(oldest).name]
        return self.named[name]

    def add(self, number, session):
        self.known[number], self.named[session.name] = session, number

    def judge(self, number, seq, line):
        """What is done with a request of the log: FEED, which counts it as fed; AGAIN; or its answer."""
        session = self.known.get(number)
        if session is None:
            return FORGOTTEN
        if seq != session.last + 1:
            return AGAIN if seq <= session.last else GAP
        session.last, session.answers[seq] = seq, (digest_of(line), None)
        session.answers.pop(seq - KEPT, None)
        self.known[number] = self.known.pop(number)
        return FEED

    def answer(self, number, seq, answer):
        """Keeps the answer of a request that was fed."""
        session = self.known.get(number)
        if session and seq in session.answers:
            session.answers[seq] = (session.answers[seq][0], answer)

    def answered(self, number, seq, line):
        """The answer of a request that was fed, as far as it is kept; None where it is still owed."""
        session = self.known.get(number)
        if session is None:
            return FORGOTTEN
        if seq not in session.answers:
            return TOO_OLD
        digest, answer = session.answers[seq]
        return answer if digest == digest_of(line) else ANOTHER

    def is_fed(self, number, seq):
        session = self.known.get(number)
        return session is not None and seq <= session.last

    def as_json(self):
        rows = [[number, it.name.decode(), it.last,
                 {seq: (digest, text.decode()) for seq, (digest, text) in it.answers.items()}]
                for number, it in self.known.items()]
        return {"next": self.next, "known": rows}

    @classmethod
    def of_json(cls, text):
        found = cls()
        found.next = text["next"]
        for number, name, last, answers in text["known"]:
            kept = {int(seq): (digest, answer.encode()) for seq, (digest, answer) in answers.items()}
            found.add(number, Session(name.encode(), last, kept))
        return found
