"""Marks of a journal, read, checked and made in Python from docs/FORMATS.md ("Marks"), and the entries that times ask for: what
checks compare with. It shares nothing with the program but that text."""
import collections
import datetime
import hashlib
import re

# What a chain of digests begins from where there is no head, and nothing else is said.
ZEROS = bytes(32)
# The number of a batch's last entry, its time as its text, and the chain's digest behind it, 32 bytes.
Mark = collections.namedtuple("Mark", "number time digest")
TIME = re.compile(rb"(\d{4})-(\d\d)-(\d\d)T(\d\d):(\d\d):(\d\d)\.(\d{6})Z", re.A)
LINE = re.compile(rb"(0|[1-9]\d*) (\S{27}) ([0-9a-f]{64})", re.A)
HEAD = re.compile(rb"marks 2 ([0-9a-f]{64})(?: after ([0-9a-f]{64}))?\n", re.A)
SECOND = 1_000_000_000


def days_of(year, month):
    """How many days a month has, of the year 0 too."""
    return (datetime.date(year % 400 + 2001 if month == 12 else year % 400 + 2000, month % 12 + 1, 1) - datetime.timedelta(1)).day


def is_time(text):
    found = TIME.fullmatch(text)
    if not found:
        return False
    year, month, day, hour, minute, second, _ = map(int, found.groups())
    return 1 <= month <= 12 and 1 <= day <= days_of(year, month) and hour <= 23 and minute <= 59 and second <= 59


def mark_of(line):
    """The mark that a line without its newline writes, or None."""
    found = LINE.fullmatch(line)
    if not found or int(found[1]) >= 2**64 or not is_time(found[2]):
        return None
    return Mark(int(found[1]), found[2], bytes.fromhex(found[3].decode()))


# heads


def digest(text):
    """From the line of a head the digest that its chain begins from."""
    return hashlib.sha256(text).digest()


def head(start, after=None):
    """The head of the marks of a start file of these bytes, which go on from an older file where its last digest is given."""
    return b"marks 2 %s" % digest(start).hex().encode() + (b" after %s" % after.hex().encode() if after else b"") + b"\n"


def cut(text):
    """The head with which a text begins, empty where it has none, and what stands behind it."""
    found = HEAD.match(text)
    return (found[0], text[found.end():]) if found else (b"", text)


def after_of(text):
    """The last digest of the older file from which a text goes on; None where it goes on from none."""
    found = HEAD.match(text)
    return bytes.fromhex(found[2].decode()) if found and found[2] else None


# marks


def read(text):
    """All marks of a file, with a head or without, each other line of which must be one."""
    lines = cut(text)[1].split(b"\n")
    assert lines.pop() == b"", f"the last mark has no newline: {text[-120:]}"
    marks = [mark_of(line) for line in lines]
    assert None not in marks, f"no mark: {lines[marks.index(None)]}"
    return marks


def text_of(marks, begins=b""):
    """The lines of marks, behind a head where there is one."""
    return begins + b"".join(b"%d %s %s\n" % (it.number, it.time, it.digest.hex().encode()) for it in marks)


def after(before, batch, stamp=b""):
    """The digest of a chain behind a batch, whose mark has this number and time, where they are digested too."""
    return hashlib.sha256(before + batch + stamp).digest()


def stamp(number, time):
    return b"%d %s" % (number, time)


def made(journal, ends, times, begins=ZEROS, timed=False, first=0):
    """The marks of a journal whose batches end before entries of these numbers, the first of which begins with entry `first`. Behind a head,
    `timed`, each digest is of the mark's number and time too."""
    lines, before, marks = journal.splitlines(keepends=True), begins, []
    for end, time in zip(ends, times, strict=True):
        before = after(before, b"".join(lines[first:end]), stamp(end - 1, time) if timed else b"")
        marks.append(Mark(end - 1, time, before))
        first = end
    return marks


def headed(journal, ends, times, begins):
    """The same behind a head."""
    return made(journal, ends, times, digest(begins), True)


def covered(journal, marks, begins=ZEROS, timed=False, first=0):
    """How many entries of a journal marks cover from one on, each of which must agree with it."""
    lines, before = journal.splitlines(keepends=True), begins
    for it in marks:
        assert first <= it.number < len(lines), f"a mark of entry {it.number}, behind {first} of {len(lines)}"
        before = after(before, b"".join(lines[first : it.number + 1]), stamp(it.number, it.time) if timed else b"")
        assert before == it.digest, f"the mark of entry {it.number} is of other bytes"
        first = it.number + 1
    return first


def begin_of(text):
    """The digest from which the chain of a text begins."""
    begins = cut(text)[0]
    return digest(begins) if begins else ZEROS


def checked(journal, text, older=b""):
    """How many entries of a journal the marks of a text cover, behind those of an older one where it goes on from that. Each must agree, and
    the older one must end with the digest that is told."""
    first, told = 0, after_of(text)
    if told:
        before = read(older)
        first = covered(journal, before)
        assert before[-1].digest == told, "the older marks end otherwise"
    return covered(journal, read(text), begin_of(text), bool(cut(text)[0]), first)


def count_back(marks):
    """How many marks are earlier than the one before."""
    return sum(it.time < before.time for before, it in zip(marks, marks[1:]))


# instants, in nanoseconds since the year 1


def instant(text):
    """That of the text of a mark's time, of a year from 1 on and a day that there is."""
    year, month, day, hour, minute, second, micros = map(int, TIME.fullmatch(text).groups())
    days = datetime.date(year, month, day).toordinal() - 1
    return (((days * 24 + hour) * 60 + minute) * 60 + second) * SECOND + micros * 1_000


def parts(at):
    """The date of an instant, and its hours, minutes, seconds and nanoseconds."""
    seconds, nanos = divmod(at, SECOND)
    minutes, second = divmod(seconds, 60)
    hours, minute = divmod(minutes, 60)
    days, hour = divmod(hours, 24)
    return datetime.date.fromordinal(days + 1), hour, minute, second, nanos


def time_text(at):
    """The text of a mark's time: what is less than a microsecond is left out."""
    date, hour, minute, second, nanos = parts(at)
    return f"{date.isoformat()}T{hour:02}:{minute:02}:{second:02}.{nanos // 1_000:06}Z".encode()


# what questions find by times


def time_of(marks, number):
    """The time of an entry: that of the first mark that covers it; None behind the last."""
    return next((it.time for it in marks if number <= it.number), None)


def since(marks, at):
    """The first entry of the first mark whose time is this one or behind it; None where there is none."""
    first = 0
    for it in marks:
        if at <= instant(it.time):
            return first
        first = it.number + 1
    return None


def until(marks, at):
    """The last entry of the last mark whose time is this one or before it; None where there is none."""
    return next((it.number for it in reversed(marks) if instant(it.time) <= at), None)
