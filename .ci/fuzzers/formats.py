"""Readers of labels, lines of scripts and entry lines, written from docs/FORMATS.md alone: what the readers of the
program and of the library for C are compared with.

Each returns what it read, or raises Refused with the text of the first fault.
"""
import re
from typing import NamedTuple

NAME = re.compile(rb"[A-Za-z0-9_-]{1,32}")
DECIMAL = re.compile(rb"0|[1-9][0-9]*")
TOKEN = re.compile(rb"[\x21-\x7e]+")
MODES = {b"execute": 0, b"read": 1, b"append": 2, b"write": 3}
REASONS = {word: number for number, word in enumerate(
    b"discretionary simple star integrity authority compatibility ceiling root full".split(), 1)}
# The operands of each action: a mode, a subject, an object, a security label, an integrity label.
OPERANDS = {**{b"get-" + mode: "o" for mode in MODES}, b"release": "mo", b"give": "mso", b"rescind": "mso",
            b"create": "oli", b"delete": "o", b"level": "l", b"relabel": "ol"}
SCRIPT_LIMIT, LINE_LIMIT, START_LIMIT = 1_048_576, 20_000, 8_388_608
U16, U32, U64 = 1 << 16, 1 << 32, 1 << 64


class Refused(Exception):
    """What was read is refused: its argument is the fault's text."""


class Start(NamedTuple):
    """The numbers of names, levels and categories of a start file, what its matrix permits, its accesses and its profile."""
    subjects: dict
    objects: dict
    security: tuple
    integrity: tuple
    cells: set
    accesses: set
    profile: int


class Ask(NamedTuple):
    """What a line of a script asks: operands are numbers, modes are words, labels are a level and a set of bits."""
    subject: int
    action: bytes
    operands: list
    variable: bytes


class Entry(NamedTuple):
    """An entry of a journal, as an Ask; its reply is words."""
    number: int
    session: int
    subject: int
    action: bytes
    operands: list
    reply: bytes


def require(condition, fault):
    if not condition:
        raise Refused(fault)


def label_of(text, scheme):
    """The level and the bits of the categories of a label's text."""
    levels, categories = scheme
    level, colon, rest = text.partition(b":")
    names = rest.split(b",") if colon else []
    require(all(map(NAME.fullmatch, [level, *names])), "1 BadForm")
    require(level in levels, "2 UnknownLevel")
    require(all(name in categories for name in names), "3 UnknownCategory")
    require(len({*names}) == len(names), "4 RepeatedCategory")
    return levels[level], sum(1 << categories[name] for name in names)


def label_text(label, scheme):
    """The text of a label, its categories ascending by number."""
    levels, categories = map(list, scheme)
    names = [name for number, name in enumerate(categories) if label[1] >> number & 1]
    return levels[label[0]] + (b":" + b",".join(names) if names else b"")


def has_label(text, scheme):
    try:
        label_of(text, scheme)
    except Refused:
        return False
    return True


def is_number(token, limit):
    return bool(DECIMAL.fullmatch(token)) and len(token) <= 20 and int(token) < limit


def has_form(kind, token):
    """Whether a token of a script's line has the form of an operand of this kind."""
    if kind == "m":
        return token in MODES
    if kind in "li":
        return bool(TOKEN.fullmatch(token))
    if kind == "o" and token[:1] == b"$":
        return bool(NAME.fullmatch(token[1:]))
    return is_number(token[1:], U16) if token[:1] == b"#" else bool(NAME.fullmatch(token))


def operand(kind, token, start, bound):
    """What an operand of good form stands for; None where it is a name that nothing has."""
    if kind == "m":
        return token
    if kind in "li":
        return label_of(token, start.security if kind == "l" else start.integrity)
    if token[:1] == b"#":
        return int(token[1:])
    if token[:1] == b"$":
        return bound.get(token[1:])
    return (start.subjects if kind == "s" else start.objects).get(token)


def ask_of(line, start, bound):
    """What a line of a script asks, with these variables bound; None where it asks nothing."""
    require(len(line) <= LINE_LIMIT, "bad form")
    tokens = [token for token in line.split(b" ") if token]
    if not tokens or tokens[0][:1] == b";":
        return None
    variable = None
    if tokens[0][:1] == b"$":
        variable = tokens[0][1:]
        require(NAME.fullmatch(variable) and tokens[1:2] == [b"="], "bad form")
        tokens = tokens[2:]
    require(len(tokens) > 1, "bad form")
    subject, action, *words = tokens
    kinds = "mo" if action == b"check" else OPERANDS.get(action)
    require(kinds and len(words) == len(kinds) and (variable is None or action == b"create"), "bad form")
    parts = [*zip("s" + kinds, [subject, *words])]
    require(all(has_form(*part) for part in parts), "bad form")
    require(None not in [operand(*part, start, bound) for part in parts if part[0] not in "li"], "bad name")
    try:
        number, *operands = [operand(*part, start, bound) for part in parts]
    except Refused:
        raise Refused("bad label") from None
    return Ask(number, action, operands, variable)


def numbered_label(token):
    """The level and the bits of the categories of a label that is written by number."""
    level, colon, rest = token.partition(b":")
    numbers = rest.split(b",") if colon else []
    require(is_number(level, 16) and all(is_number(it, 256) for it in numbers), "3 BadLabel")
    found = [int(it) for it in numbers]
    require(all(a < b for a, b in zip(found, found[1:])), "3 BadLabel")
    return int(level), sum(1 << it for it in found)


def is_reply(words):
    return (words in ([b"yes"], [b"undefined"]) or len(words) == 2 and
            (words[0] == b"no" and words[1] in REASONS or words[0] == b"created" and is_number(words[1], U16)))


def entry_of(line):
    """The entry of a journal's line, which is given without its newline."""
    tokens = line.split(b" ")
    try:
        line.decode()
    except UnicodeDecodeError:
        raise Refused("1 BadForm") from None
    require(b"" not in tokens and len(tokens) > 3 and tokens[3] in OPERANDS, "1 BadForm")
    kinds = OPERANDS[tokens[3]]
    parts, reply = [*zip(kinds, tokens[4:])], tokens[4 + len(kinds):]
    require(len(parts) == len(kinds) and all(it in MODES for kind, it in parts if kind == "m"), "1 BadForm")
    numbers = [*zip(tokens, (U64, U32, U16)), *((it, U16) for kind, it in parts if kind in "so")]
    require(all(is_number(*it) for it in numbers), "2 BadNumber")
    operands = [it if kind == "m" else int(it) if kind in "so" else numbered_label(it) for kind, it in parts]
    require(is_reply(reply), "4 BadReply")
    return Entry(*map(int, tokens[:3]), tokens[3], operands, b" ".join(reply))


def entries_of(journal):
    """The entries of a journal's bytes, and the fault of the first line that is no entry's, if one is."""
    *lines, last = journal.split(b"\n")
    entries = []
    try:
        for line in lines:
            entries.append(entry_of(line))
        require(last == b"", "1 BadForm")
    except Refused as refused:
        return entries, str(refused)
    return entries, None
