"""Journals by chance: changes of valid ones, of their lines, tokens and bytes."""
import re

from formats import MODES, OPERANDS, REASONS
from mutations import mutated, with_other_token

TOKEN = re.compile(rb"[^ \n]+")
LINE = re.compile(rb"[^\n]*\n|[^\n]+")
REPLIES = [b"yes", b"undefined", b"created 4", b"created 65535", *(b"no " + reason for reason in REASONS)]
NUMBERS = [b"0", b"1", b"2", b"3", b"4", b"5", b"7", b"255", b"4095", b"65535", b"65536", b"4294967295",
           b"4294967296", b"18446744073709551615", b"18446744073709551616", b"00", b"01", b"-1", b"+1", b"0x1", b"1.0"]
LABELS = [b"0", b"1:0", b"3:0,1", b"15:63", b"15:0,64,255", b"1:256", b"16", b"1:1,0", b"1:0,0", b"1:64", b"1:", b":", b"1:0,", b"1:00",
          b"2:0,1,2"]
SESSIONS = [b"0", b"1", b"63", b"64", b"4294967295"]
TOKENS = [*OPERANDS, *MODES, *REPLIES, *NUMBERS, *LABELS, b"maybe", b"check", b"get", b"created", b"no", b"yes yes",
          b"\t", b"\xff", b"\xc3\xa9"]


def renumbered(lines):
    """Lines whose numbers are their places."""
    return [b"%d %b" % (number, line.partition(b" ")[2]) for number, line in enumerate(lines)]


def parts_of(line):
    """An entry's number, its session, and its subject, action, operands and reply."""
    number, session, rest = line.split(b" ", 2)
    return number, session, rest.split(b" ")


def relabelled(rng, parts):
    """The subject, action, operands and reply of an entry, with other labels, where it has any."""
    kinds = "sa" + OPERANDS[parts[1]] + "rr"
    return [rng.choice(LABELS) if kind in "li" else part for kind, part in zip(kinds, parts)]


def entry_changed(rng, line, other):
    """An entry's line of which the number, the session, the reply, the labels or the request is another."""
    number, session, parts = parts_of(line)
    way = rng.randrange(5)
    if way == 0:
        number = rng.choice(NUMBERS)
    elif way == 1:
        session = rng.choice(SESSIONS)
    elif way == 2:
        parts = [*parts[:2 + len(OPERANDS[parts[1]])], rng.choice(REPLIES) + b"\n"]
    elif way == 3:
        parts = relabelled(rng, parts)
    else:
        parts = parts_of(other)[2]
    return b" ".join([number, session, *parts])


def lines_changed(rng, lines, others):
    """Other lines of entries: they stand otherwise, or one is another."""
    way, at = rng.randrange(10), rng.randrange(len(lines))
    if way == 0:
        return lines[:at]
    if way == 1:
        return renumbered(lines[:at] + lines[at:at + 1] + lines[at:])
    if way == 2:
        return renumbered(lines[:at] + lines[at + 1:])
    if way == 3:
        return lines[:at] + rng.choice((2 * lines[at:at + 1], [], lines[at:][::-1]))
    if way == 4:
        return renumbered(lines[:at] + others)
    if way == 5:
        return lines[:at] + others[at:]
    labelled = [number for number, line in enumerate(lines) if {*OPERANDS[parts_of(line)[2][1]]} & {*"li"}]
    at = rng.choice(labelled) if way == 6 and labelled else at
    return [*lines[:at], entry_changed(rng, lines[at], rng.choice(others)), *lines[at + 1:]]


def made(rng, seeds):
    """A journal: a valid one, or one that is changed in its lines, its tokens or its bytes."""
    text, other, way = rng.choice(seeds), rng.choice(seeds), rng.random()
    if way < 0.5:
        lines = LINE.findall(text)
        for _ in range(rng.randrange(3)):
            lines = lines_changed(rng, lines, LINE.findall(other)) if lines else []
        return b"".join(lines)
    if way < 0.75:
        return with_other_token(rng, text, TOKEN, TOKENS)
    return mutated(rng, text, other) if way < 0.98 else text
