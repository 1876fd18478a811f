"""Fuzzes mls_open: start files."""
import json

import c_calls
import start_changes
import start_inputs
from formats import MODES, Refused
from fuzzing import Fuzzer
from mutations import mutated, with_other_token
from outside import example, examples
from start_format import start_of
from start_rows import SMALL

OF_SCHEMES = ["1 NoLevels", "2 TooManyLevels", "3 TooManyCategories", "4 BadName", "5 RepeatedName"]
# (4 BadLabel and 9 NoSuchCell are faults of starts that no file has)
OF_STARTS = ["1 NoSubjects", "2 TooManySubjects", "3 TooManyObjects", "5 BadParent", "6 CurrentAboveMaximum",
             "7 NotCompatible", "8 IntegrityAboveParent", "10 NotSecure"]
FAULTS = {"1 Json", "2 Members", *(f"3 Scheme {it}" for it in OF_SCHEMES), "4 Name", "5 Label", "6 Unknown",
          *(f"7 Start {it}" for it in OF_STARTS)}
TOKENS = [b"{", b"}", b"[", b"]", b",", b":", b"null", b"true", b"false", b"0", b"-1", b"1.5e3", b"1e300", b"1e400",
          b"-", b"01", b"NaN", b'"\\ud800"', b'"\\ud83d\\ude00"', b'"\\u00e9"', b'"\\x"', b'"a\nb"', b'"\xff"', b'"',
          b'"name":0,', 125 * b"[" + 125 * b"]", 128 * b"[" + 128 * b"]", b"\xef\xbb\xbf"]
# How many triples are looked at of each start.
TRIPLES = 4


def seeds():
    """The valid files that inputs are made of, beside those by chance."""
    return [SMALL.encode(), *(example(f"{name}.json") for name in examples())]


def made(rng, files):
    """A start file: changed as JSON or as bytes, or the same but otherwise written."""
    way = rng.random()
    data = start_inputs.valid(rng) if rng.random() < 0.5 else json.loads(rng.choice(files))
    if way < 0.5:
        start_changes.changed(rng, data)
        return start_inputs.written(rng, data)
    text = start_inputs.written(rng, data)
    if way < 0.6:
        return with_other_token(rng, text, start_inputs.TOKEN, TOKENS)
    if way < 0.75:
        return mutated(rng, text, rng.choice(files))
    for _ in range(rng.randrange(4)):
        text = start_inputs.respelt(rng, text)
    return text


def numbers_of(fault):
    """The numbers of a fault and of its cause, where it has one, as its text says."""
    words = fault.split(" ")
    return int(words[0]), int(words[2]) if len(words) > 2 else 0


class Starts(Fuzzer):
    name, count, room, wanted = "starts", 100_000, 1 << 27, FAULTS

    def __init__(self, library):
        self.library = library

    def prepare(self):
        self.calls, self.files = c_calls.loaded(self.library), seeds()

    def made(self, rng):
        """A file, and which of its subjects and objects are looked at."""
        return made(rng, self.files), [(rng.random(), rng.random()) for _ in range(TRIPLES)]

    def kept(self, made):
        return made[0]

    def judged(self, made):
        text, chosen = made
        with c_calls.Opened(self.calls, text) as opened:
            try:
                wanted = start_of(text)
            except Refused as fault:
                found = opened.status, opened.fault
                assert found == (c_calls.START, (*numbers_of(str(fault)), 0)), f"{found}, and not: {fault}"
                return False, [str(fault)]
            assert opened.status == c_calls.OK, f"a start file is refused: {opened.fault}"
            assert opened.entries() == 0, "an opening has entries"
            self.compare_names(opened, wanted)
            self.compare_matrix(opened, wanted, chosen)
            return True, []

    def compare_names(self, opened, wanted):
        for find, names in ((self.calls.mls_subject, wanted.subjects), (self.calls.mls_object, wanted.objects)):
            for name in [*[*names][:4], [*names][-1], b"", b"n", b"s"]:
                found = opened.number(find, name)
                assert found == names.get(name), f"{name} is {found}, and not {names.get(name)}"

    def compare_matrix(self, opened, wanted, chosen):
        """What isn't permitted is denied for that, before any other reason; what is accessed is held."""
        pairs = [(int(one * len(wanted.subjects)), int(other * len(wanted.objects))) for one, other in chosen]
        for subject, obj in pairs:
            for mode in MODES.values():
                reply = opened.decided(action=c_calls.GET, subject=subject, object=obj, mode=mode)
                is_permitted = reply != c_calls.DENIED + c_calls.DISCRETIONARY
                assert is_permitted == ((subject, obj, mode) in wanted.cells), f"{subject} {obj} {mode}: reply {reply}"
                is_held = opened.holds(subject, obj, mode)
                assert is_held == ((subject, obj, mode) in wanted.accesses), f"{subject} {obj} {mode}: held {is_held}"
