"""A reader of the text of a state, written from docs/FORMATS.md ("state") and docs/POLICY.md: what mls_open_state is
compared with."""
import re
import sys

from outside import TOP

sys.path.insert(1, f"{TOP}/.ci")
from policy import MODES, OBJECTS, dominates

NO_STATE, OTHER_START, NOT_SECURE = 1, 2, 3
HEAD = re.compile(r"profile ([12])\nnext (0|[1-9][0-9]{0,3})\n")
SUBJECT = re.compile(r"subject (\S+) maximum (\S+) current (\S+) integrity (\S+)( trusted)?\n")
OBJECT = re.compile(r"object (\S+) security (\S+) integrity (\S+)(?: parent (\S+))?\n")
TRIPLE = re.compile(r"(permit|access) (\S+) (\S+) (\S+)\n")
NUMBER = re.compile(r"#(0|[1-9][0-9]{0,3})")


class NoState(Exception):
    """The text is that of no state."""


def require(condition):
    if not condition:
        raise NoState


def label_of(text, scheme):
    """The label that a text spells, as it is written."""
    try:
        label = scheme.read(text)
    except ValueError:
        raise NoState from None
    require(scheme.text(label) == text)
    return label


def number_of(word, names, most):
    """The number of a word: by its name, or where there is none by the number behind a #."""
    written = NUMBER.fullmatch(word)
    if not written:
        require(word in names)
        return names.index(word)
    require(len(names) <= int(written[1]) < most)
    return int(written[1])


class Read:
    """What a text says, by the names of a start."""

    def __init__(self, text, start):
        self.start = start
        try:
            text = text.decode("ascii")
        except UnicodeDecodeError:
            raise NoState from None
        head = HEAD.match(text)
        require(head)
        self.profile, self.next = int(head[1]), int(head[2])
        lines = re.findall(r"[^\n]*\n|[^\n]+", text[head.end():])
        self.subjects = [self.subject(n, it) for n, it in enumerate(self.matching(SUBJECT, lines))]
        objects = [self.object(it) for it in self.matching(OBJECT, lines)]
        self.objects = dict(objects)
        triples = [self.triple(it) for it in self.matching(TRIPLE, lines)]
        require(not lines and triples == sorted(set(triples)))
        require([number for number, _ in objects] == sorted(self.objects))
        self.matrix, self.accesses = ({it[1:] for it in triples if it[0] == table} for table in (0, 1))
        self.require_tree()

    @staticmethod
    def matching(pattern, lines):
        """The first lines that match, which are taken out."""
        found = []
        while lines and (it := pattern.fullmatch(lines[0])):
            found.append(it)
            lines.pop(0)
        return found

    def subject(self, number, told):
        require(told[1] == self.start.subject(number))
        maximum, current = (label_of(told[it], self.start.security) for it in (2, 3))
        return maximum, current, label_of(told[4], self.start.integrity), bool(told[5])

    def object(self, told):
        labels = label_of(told[2], self.start.security), label_of(told[3], self.start.integrity)
        parent = None if told[4] is None else number_of(told[4], self.start.objects, OBJECTS)
        return number_of(told[1], self.start.objects, OBJECTS), (*labels, parent)

    def triple(self, told):
        require(told[3] in MODES)
        subject = number_of(told[2], self.start.subjects, len(self.subjects))
        thing = number_of(told[4], self.start.objects, OBJECTS)
        require(subject < len(self.subjects) and thing in self.objects)
        return int(told[1] == "access"), subject, thing, MODES.index(told[3])

    def require_tree(self):
        """Below the root stand all objects, and the next number is that of the profile."""
        require(self.subjects and 0 in self.objects)
        for number, (_, _, parent) in self.objects.items():
            require((parent is None) == (number == 0))
            require(parent is None or parent in self.objects)
            seen = set()
            while number:
                require(number not in seen)
                seen.add(number)
                number = self.objects[number][2]
                require(number in self.objects)
        if self.profile == 1:
            require(max(self.objects) < self.next <= OBJECTS)
        else:
            require(self.next == next(it for it in range(OBJECTS + 1) if it not in self.objects))

    def is_of_start(self):
        start, count = self.start, len(self.subjects)
        fixed = [(start.maximum[n], start.own[n], n in start.trusted) for n in range(len(start.subjects))]
        found = [(maximum, own, trusted) for maximum, _, own, trusted in self.subjects]
        return self.profile == start.profile and count == len(start.subjects) and found == fixed

    def is_secure(self):
        if not all(dominates(maximum, current) for maximum, current, _, _ in self.subjects):
            return False
        for security, integrity, parent in self.objects.values():
            above = self.objects.get(parent)
            if above and not (dominates(security, above[0]) and dominates(above[1], integrity)):
                return False
        return all(map(self.is_allowed, self.accesses))

    def is_allowed(self, access):
        """Whether an access has all four: by the matrix, simple security, star and integrity."""
        s, o, mode = access
        maximum, current, own, trusted = self.subjects[s]
        label, trust, _ = self.objects[o]
        simple = mode not in (1, 3) or dominates(maximum, label)
        star = trusted or (True, dominates(current, label), dominates(label, current), current == label)[mode]
        strict = (mode == 2 or dominates(trust, own)) and (mode < 2 or dominates(own, trust))
        return access in self.matrix and simple and star and strict


def fault_of(text, start):
    """The number of the fault of a text, with the state that a start opens with; None where it is that of a secure
    state of that start."""
    try:
        read = Read(text, start)
    except NoState:
        return NO_STATE
    if not read.is_of_start():
        return OTHER_START
    return None if read.is_secure() else NOT_SECURE
