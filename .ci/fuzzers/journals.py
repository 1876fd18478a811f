"""Fuzzes mls_resume: journals over the starts of the examples, and over one of the most levels and categories."""
import json
import random

import c_calls
import journal_inputs
import journal_rows
import replay_rows
from c_calls import DENIED, GET, JOURNAL, OK, REPLAY, START, Opened, Request, label_of
from formats import MODES, OPERANDS, REASONS, entries_of
from fuzzing import Fuzzer
from labels import LARGEST
from outside import example, examples
from start_format import start_of

# How many journals are made of each start, and how many entries each has at most.
JOURNALS, ENTRIES = 60, 24
SESSIONS = (0, 0, 1, 7, 4_294_967_295)
ACTIONS = (0, 0, 0, 0, 1, 2, 3, 4, 4, 5, 6, 6, 7)
NO_START, OF_NO_START = b"{}", (2, 0, 0)
OF_LINES = ["1 BadForm", "2 BadNumber", "3 BadLabel", "4 BadReply"]
CREATED = 1
# The texts of replies by their numbers, but that of an object that was made.
REPLIES = {0: b"yes", 2: b"undefined", **{DENIED + number: b"no " + reason for reason, number in REASONS.items()}}
# The numbers of the actions that aren't gets, and the member of a request for each kind of operand.
NUMBERS = {b"release": 1, b"give": 2, b"rescind": 3, b"create": 4, b"delete": 5, b"level": 6, b"relabel": 7}
MEMBERS = {"m": "mode", "s": "other", "o": "object", "l": "security", "i": "integrity"}


def some(rng, names):
    """A number that mostly is one of a name."""
    return rng.randrange(len(names) + rng.choice((0, 0, 4)))


def label(rng, scheme):
    levels, categories = scheme
    bits = rng.getrandbits(len(categories)) if categories and rng.random() < 0.3 else 0
    return label_of(rng.randrange(len(levels)), bits)


def request(rng, start):
    """A request, mostly of what there is in a start."""
    subject, other, obj = some(rng, start.subjects), some(rng, start.subjects), some(rng, start.objects)
    labels = {"security": label(rng, start.security), "integrity": label(rng, start.integrity)}
    action, mode = rng.choice(ACTIONS), rng.randrange(4)
    return Request(action=action, mode=mode, subject=subject, other=other, object=obj, **labels)


def by_requests(rng, calls, text):
    """A journal of requests by chance over a start."""
    with Opened(calls, text) as opened:
        start = start_of(text)
        for _ in range(rng.randrange(1, ENTRIES)):
            opened.submit(rng.choice(SESSIONS), request(rng, start))
        return opened.journal()


def value_of(operand):
    """An operand of an entry as it is in a request."""
    if isinstance(operand, bytes):
        return MODES[operand]
    return label_of(*operand) if isinstance(operand, tuple) else operand


def request_of(entry):
    """The request of an entry."""
    members = {MEMBERS[kind]: value_of(it) for kind, it in zip(OPERANDS[entry.action], entry.operands)}
    if entry.action not in NUMBERS:
        members["mode"] = MODES[entry.action.removeprefix(b"get-")]
    return Request(action=NUMBERS.get(entry.action, GET), subject=entry.subject, **members)


def by_hand():
    """The journals over the standard start that were worked out by hand."""
    rows = [b"".join(b"%b\n" % line.encode() for line in it) for it in (replay_rows.CLIMB, replay_rows.FAMILY)]
    return rows + [it for _, it, told in journal_rows.REPLAYS if isinstance(told, int) and it]


class Journals(Fuzzer):
    name, count, room = "journals", 100_000, 1 << 26
    wanted = {*OF_LINES, "replay 1 Number", "replay 2 Differs", "no start", "no entry"}

    def __init__(self, library):
        self.library = library

    def prepare(self):
        self.calls, rng = c_calls.loaded(self.library), random.Random(1)
        self.starts = [*(example(f"{name}.json") for name in examples()), json.dumps(LARGEST).encode()]
        self.seeds = [[by_requests(rng, self.calls, text) for _ in range(JOURNALS)] for text in self.starts]
        self.seeds[examples().index("standard")] += by_hand()

    def made(self, rng):
        """A start file, which isn't one now and then, and a journal."""
        at = rng.randrange(len(self.starts))
        journal = journal_inputs.made(rng, self.seeds[at])
        return self.starts[at] if rng.random() < 0.99 else NO_START, journal

    def kept(self, made):
        return b"%b\n%b" % made

    def judged(self, made):
        start, text = made
        with Opened(self.calls, start, text) as opened:
            found = opened.status, opened.fault
            if start == NO_START:
                assert found == (START, OF_NO_START), f"{found} of no start"
                return False, ["no start"]
            entries, fault = entries_of(text)
            if fault:
                refused = (JOURNAL, (int(fault[0]), 0, len(entries)))
                assert found == refused, f"{found}, and not {fault} of line {len(entries)}"
                return False, [fault]
            due = self.due(start, entries)
            if due:
                assert found == (REPLAY, due), f"{found}, and not {due}"
                return False, ["replay 1 Number" if due[0] == 1 else "replay 2 Differs"]
            assert opened.status == OK, f"{found} of a journal"
            assert opened.journal() == text, "another text is written back"
            half = opened.entries() // 2
            assert opened.forgets(half) == half, "other entries are forgotten"
            return True, [] if entries else ["no entry"]

    def due(self, start, entries):
        """The fault that entries have as a journal of a start, if any: their requests are submitted, in their order."""
        with Opened(self.calls, start) as opened:
            for place, entry in enumerate(entries):
                if entry.number != place:
                    return 1, 0, place
                answer = opened.submit(entry.session, request_of(entry))
                reply = b"created %d" % answer.object if answer.reply == CREATED else REPLIES[answer.reply]
                if reply != entry.reply:
                    return 2, answer.reply, place
        return None
