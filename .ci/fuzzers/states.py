"""Fuzzes mls_open_state: texts of states over the starts of the examples."""
import random
import re

import c_calls
from c_calls import OK, STATE, Opened
from formats import MODES
from fuzzing import Fuzzer
from journals import SESSIONS, request
from mutations import mutated, with_other_token
from outside import example, examples
from policy import State
from start_format import start_of
from state_format import NO_STATE, NOT_SECURE, OTHER_START, fault_of

# How many states are made of each start, and by how many requests each at most.
STATES, REQUESTS = 40, 120
LINE, TOKEN = re.compile(rb"[^\n]*\n|[^\n]+"), re.compile(rb"[^ \n]+")
KEYED = re.compile(rb"(maximum|current|security|integrity|parent) (\S+)")
NUMBERS = [0, 1, 2, 6, 7, 4095, 4096, 1 << 32, 1 << 63]
TOKENS = [b"profile", b"next", b"subject", b"object", b"permit", b"access", b"trusted", b"maximum", b"current", b"parent", b"security",
          b"integrity", *MODES, *(b"%d" % it for it in NUMBERS), b"#0", b"#4", b"#5", b"#04", b"#4095", b"#4096", b"#", b"", b"\xff", b"\r"]
FAULTS = {NO_STATE: "1 no state", OTHER_START: "2 other start", NOT_SECURE: "3 not secure"}


def by_requests(rng, calls, text):
    """The text of a state that requests by chance lead to, those of creations and deletions among them."""
    with Opened(calls, text) as opened:
        start = start_of(text)
        for _ in range(rng.randrange(REQUESTS)):
            opened.submit(rng.choice(SESSIONS), request(rng, start))
        return opened.state()


def words_changed(rng, text, other):
    """A text in which some word is a word of another text."""
    return with_other_token(rng, text, TOKEN, TOKEN.findall(other))


def labels_changed(rng, text, other):
    """A text in which some label, or parent, is one of another text, which has the same key before it, mostly."""
    found, others = list(KEYED.finditer(text)), KEYED.findall(other)
    it = rng.choice(found)
    new = rng.choice([word for key, word in others if key == it[1] or rng.random() < 0.05] or [b""])
    return text[:it.start(2)] + new + text[it.end(2):]


def lines_changed(rng, text, other):
    """A text of which a line is left out, stands twice, stands elsewhere, or is one of another text."""
    lines, others, at = LINE.findall(text), LINE.findall(other), rng.randrange(text.count(b"\n"))
    way = rng.randrange(5)
    if way == 0:
        lines.insert(at, lines[at])
    elif way == 1:
        lines.insert(rng.randrange(len(lines)), lines.pop(at))
    elif way == 2:
        lines[at] = rng.choice(others)
    elif way == 3:
        lines.insert(at, rng.choice(others))
    else:
        del lines[at]
    return b"".join(lines)


def triples_changed(rng, text, other):
    """A text that has another one's permissions and accesses too, or some of them not, in their order or not."""
    lines = LINE.findall(text)
    first = next((n for n, it in enumerate(lines) if it.startswith((b"permit ", b"access "))), len(lines))
    triples = [it for it in lines[first:] if rng.random() < 0.9]
    more = [it for it in LINE.findall(other) if it.startswith((b"permit ", b"access ")) and it not in triples]
    for it in rng.sample(more, min(len(more), rng.randrange(3))):
        triples.insert(rng.randrange(len(triples) + 1), it)
    return b"".join(lines[:first] + triples)


def next_changed(rng, text, _):
    """A text with another next number, or another profile."""
    if rng.random() < 0.3:
        return b"profile %b" % rng.choice((b"1", b"2", b"3")) + text[len("profile 1"):]
    return re.sub(rb"next (\d+)", lambda it: b"next %d" % abs(int(it[1]) + rng.choice((1, 2, 100, -1))), text, count=1)


WAYS = (words_changed, labels_changed, labels_changed, lines_changed, triples_changed, triples_changed, next_changed)


def made(rng, seeds):
    """A text: that of a state, or one that is changed in its lines, its words or its bytes."""
    text, other, way = rng.choice(seeds), rng.choice(seeds), rng.random()
    if way < 0.1:
        return text
    if way < 0.25:
        return mutated(rng, text, other)
    if way < 0.4:
        return with_other_token(rng, text, TOKEN, TOKENS)
    for _ in range(rng.choice((1, 1, 2))):
        text = rng.choice(WAYS)(rng, text, other)
    return text


class States(Fuzzer):
    name, count, room = "states", 30_000, 1 << 27
    wanted = {*FAULTS.values(), "a state"}

    def __init__(self, library):
        self.library = library

    def prepare(self):
        self.calls, rng = c_calls.loaded(self.library), random.Random(1)
        self.starts = [example(f"{name}.json") for name in examples()]
        self.opening = [State(text) for text in self.starts]
        self.seeds = [[by_requests(rng, self.calls, text) for _ in range(STATES)] for text in self.starts]

    def made(self, rng):
        """A start, the text of a state, and the number of entries that led to it."""
        at = rng.randrange(len(self.starts))
        of = at if rng.random() < 0.95 else rng.randrange(len(self.starts))
        return at, made(rng, self.seeds[of]), rng.choice(NUMBERS)

    def kept(self, made):
        return b"%b\n%b" % (self.starts[made[0]], made[1])

    def judged(self, made):
        at, text, number = made
        due = fault_of(text, self.opening[at])
        with Opened(self.calls, self.starts[at], state=(text, number)) as opened:
            if due:
                assert opened.status == STATE and opened.fault[:2] == (due, 0), f"{opened.fault}, and not {due}"
                most = text.count(b"\n") if due == NO_STATE else 0
                assert opened.fault[2] <= most, f"place {opened.fault[2]} of {most}"
                return False, [FAULTS[due]]
            assert opened.status == OK, f"{opened.fault} of a state"
            assert opened.state() == text, "another text is written back"
            assert opened.entries() == number and self.calls.mls_forgotten(opened.at) == number, "other entries"
            return True, ["a state"]
