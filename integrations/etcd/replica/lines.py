"""What stands in the log for what a client asks."""
import re

NAME = re.compile(rb"[A-Za-z0-9_.-]{1,64}")
NUMBER = re.compile(rb"0|[1-9][0-9]{0,17}")
LINE_MAX = 20_000
RECORD = re.compile(rb"\+ ([A-Za-z0-9_.-]{1,64})|(0|[1-9][0-9]{0,17}) (0|[1-9][0-9]{0,17}) ([^\n]*)")


def is_name(text):
    return NAME.fullmatch(text) is not None


def is_number(text):
    return NUMBER.fullmatch(text) is not None


def has_answer(line):
    """Whether `mls serve` answers a line: it does but for blank ones and notes. Too long ones are kept from it."""
    bare = line.strip(b" ")
    return bare != b"" and bare[:1] != b";" and len(line) <= LINE_MAX


def opening(name):
    """The record that opens a session."""
    return b"+ %s\n" % name


def as_fed(line):
    """A line as it stands in the log: one that has no answer stands there without its text, and is counted."""
    return line if has_answer(line) else b""


def request(session, seq, line):
    """The record of a request."""
    return b"%d %d %s\n" % (session, seq, as_fed(line))


def records(batch):
    """The records of a batch: `(name,)` of an opening, `(session, seq, line)` of a request. ValueError where it is no
    batch, which these machines don't write."""
    *whole, rest = batch.split(b"\n")
    if rest or not whole:
        raise ValueError("no batch")
    return [record_of(line) for line in whole]


def record_of(line):
    found = RECORD.fullmatch(line)
    if not found or len(found[4] or b"") > LINE_MAX:
        raise ValueError("no record")
    name, session, seq, text = found.groups()
    return (name,) if name else (int(session), int(seq), text)
