"""Fuzzes mls_read_label: texts of labels, in schemes of a few names and of as many as there may be."""
import json
import re

import c_calls
from formats import Refused, label_of, label_text
from fuzzing import Fuzzer
from mutations import mutated, with_other_token
from outside import example
from start_format import start_of

TOKEN = re.compile(rb"[A-Za-z0-9_-]+|[:,]")
# Names of which some begin another or differ in capitals, and one is as long as a name may be.
LEVELS = ["a", "A", "aa", "a-", "_", "-", "0", "00", "9", "level", "Level", "LEVEL", 32 * "x", 31 * "x", "a_b", "z"]
CATEGORIES = ["a", "A", "aa", *(f"c{number}" for number in range(252)), 32 * "c"]
NO_NAMES = [b"Q", b"", b"a b", b"a.b", b"lo", b"U", b"c252", 33 * b"x", 30 * b"x", b"\xc3\xa9", b":", b","]
LARGEST = {"security": {"levels": LEVELS, "categories": CATEGORIES},
           "integrity": {"levels": CATEGORIES[:16], "categories": LEVELS},
           "subjects": [{"name": "s", "maximum": "a", "current": "a", "integrity": "a", "trusted": False}],
           "objects": [{"name": "r", "parent": None, "security": "a", "integrity": "a"}], "matrix": []}
KINDS, NO_KINDS = (c_calls.SECURITY, c_calls.INTEGRITY), (2, 3, -1, 256, 1 << 16)


def valid(rng, scheme):
    """The text of a label of a scheme, its categories in some order."""
    levels, categories = map(list, scheme)
    most = rng.choice((0, 1, 2, 4, len(categories)))
    chosen = rng.sample(categories, rng.randrange(min(most, len(categories)) + 1))
    return rng.choice(levels) + (b":" + b",".join(chosen) if chosen else b"")


def spoilt(rng, text, scheme):
    """A label's text with a change: of bytes, of a name, or with one category more."""
    levels, categories = map(list, scheme)
    way = rng.randrange(4)
    if way == 0:
        return mutated(rng, text, valid(rng, scheme))
    if way == 1:
        return with_other_token(rng, text, TOKEN, [*levels, *categories, *NO_NAMES])
    own = text.replace(b":", b",").split(b",")[-3:]
    return text + (b"," if b":" in text else b":") + rng.choice(own if way == 2 else categories + NO_NAMES)


class Labels(Fuzzer):
    name, count, room = "labels", 100_000, 1 << 26
    wanted = {"1 BadForm", "2 UnknownLevel", "3 UnknownCategory", "4 RepeatedCategory", "no kind"}

    def __init__(self, library):
        self.library = library

    def prepare(self):
        starts = [json.dumps(LARGEST).encode(), *(example(f"{name}.json") for name in ("standard", "guard", "office"))]
        calls = c_calls.loaded(self.library)
        self.handles = [c_calls.Opened(calls, text) for text in starts]
        assert not any(handle.status for handle in self.handles), "a start is refused"
        self.schemes = [(it.security, it.integrity) for it in map(start_of, starts)]

    def made(self, rng):
        """The number of a handle, a kind and a text."""
        at, kind = rng.randrange(len(self.handles)), rng.choice(KINDS)
        text = valid(rng, self.schemes[at][kind])
        if rng.random() < 0.7:
            text = spoilt(rng, text, self.schemes[at][kind])
        return at, rng.choice(NO_KINDS) if rng.random() < 0.01 else kind, text

    def kept(self, made):
        return b"start %d, kind %d: %b" % made

    def judged(self, made):
        at, kind, text = made
        found = self.handles[at].label(kind, text)
        if kind not in KINDS:
            assert found is None, "a label of no kind"
            return False, ["no kind"]
        try:
            wanted = label_of(text, self.schemes[at][kind])
        except Refused as fault:
            assert found is None, f"read, and not: {fault}"
            return False, [str(fault)]
        assert found == wanted, f"read as {found}, and not as {wanted}"
        written = self.handles[at].label_text(kind, found)
        assert written == label_text(wanted, self.schemes[at][kind]), f"written as {written}"
        again = self.handles[at].label(kind, written)
        assert again == found, f"{written} is read as {again}, and not as {found}"
        return True, []
