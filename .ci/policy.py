"""The policy, written in Python from docs/POLICY.md alone: what answers of the program are compared with. Labels are pairs of a level and a
frozen set of categories, all by number."""
import copy
import json
from typing import NamedTuple

MODES = ("execute", "read", "append", "write")
REASONS = ("discretionary", "simple", "star", "integrity", "authority", "compatibility", "ceiling", "root", "full")
OBJECTS = 4096


class Scheme(NamedTuple):
    levels: list
    categories: list

    def read(self, text):
        level, _, categories = text.partition(":")
        return self.levels.index(level), frozenset(self.categories.index(it) for it in categories.split(",") if it)

    def text(self, label):
        level, categories = label
        if level >= len(self.levels) or any(it >= len(self.categories) for it in categories):
            return outside_text(label)
        return joined(self.levels[level], [self.categories[it] for it in sorted(categories)])

    def has(self, label):
        return label[0] < len(self.levels) and all(it < len(self.categories) for it in label[1])


def joined(level, categories):
    return level + (":" + ",".join(categories) if categories else "")


def number_text(label):
    return joined(str(label[0]), [str(it) for it in sorted(label[1])])


def outside_text(label):
    """The text of a label that a scheme hasn't: by numbers, each behind a #."""
    return joined(f"#{label[0]}", [f"#{it}" for it in sorted(label[1])])


def number_label(text):
    level, _, categories = text.partition(":")
    return int(level), frozenset(int(it) for it in categories.split(",") if it)


def dominates(one, other):
    return one[0] >= other[0] and one[1] >= other[1]


def join(one, other):
    return max(one[0], other[0]), one[1] | other[1]


def meet(one, other):
    return min(one[0], other[0]), one[1] & other[1]


def below(label):
    """All labels that a label dominates."""
    level, categories = label
    sets = [frozenset()]
    for it in sorted(categories):
        sets += [other | {it} for other in sets]
    return [(height, it) for height in range(level + 1) for it in sets]


class State:
    """The state that a start file, which is accepted, opens with; requests change it."""

    def __init__(self, text):
        data = json.loads(text)
        self.security, self.integrity = (Scheme(**data[it]) for it in ("security", "integrity"))
        self.subjects = [it["name"] for it in data["subjects"]]
        self.objects = [it["name"] for it in data["objects"]]
        read = lambda rows, kind, scheme: {n: scheme.read(it[kind]) for n, it in enumerate(rows)}
        self.maximum = read(data["subjects"], "maximum", self.security)
        self.current = read(data["subjects"], "current", self.security)
        self.own = read(data["subjects"], "integrity", self.integrity)
        self.trusted = {n for n, it in enumerate(data["subjects"]) if it["trusted"]}
        self.label = read(data["objects"], "security", self.security)
        self.trust = read(data["objects"], "integrity", self.integrity)
        self.parent = {n: self.objects.index(it["parent"]) for n, it in enumerate(data["objects"]) if n}
        self.matrix = self.triples(data["matrix"])
        self.accesses = self.triples(data.get("accesses", []))
        self.profile = data.get("profile", 1)
        self.next = len(self.objects)

    def triples(self, rows):
        return {(self.subjects.index(it["subject"]), self.objects.index(it["object"]), MODES.index(mode)) for it in rows
                 for mode in it["modes"]}

    # names

    def subject(self, number):
        return self.subjects[number] if number < len(self.subjects) else f"#{number}"

    def object(self, number):
        return self.objects[number] if number < len(self.objects) else f"#{number}"

    def numbers(self, word, names):
        return int(word[1:]) if word.startswith("#") else names.index(word)

    # what holds

    def simple(self, s, label, mode):
        return mode not in (1, 3) or dominates(self.maximum[s], label)

    def star(self, s, current, label, mode):
        if s in self.trusted or mode == 0:
            return True
        return {1: dominates(current, label), 2: dominates(label, current), 3: current == label}[mode]

    def strict(self, s, o, mode):
        above, below = dominates(self.trust[o], self.own[s]), dominates(self.own[s], self.trust[o])
        return {0: above, 1: above, 2: below, 3: above and below}[mode]

    def writes(self, s, o):
        return (s, o, 3) in self.accesses

    def controls(self, s, o):
        return s in self.trusted if o == 0 else self.writes(s, self.parent[o])

    def children(self, o):
        return sorted(it for it, parent in self.parent.items() if parent == o)

    def is_defined(self, s, action):
        word, operands = action[0], action[1:]
        kinds = KINDS[word]
        known = s in self.maximum
        for kind, value in zip(kinds, operands):
            known &= {"mode": lambda v: True, "subject": lambda v: v in self.maximum, "object": lambda v: v in self.label,
                      "security": self.security.has, "integrity": self.integrity.has}[kind](value)
        return known

    def untrusted(self, s):
        """The same state, but for the trust of a subject."""
        other = copy.copy(self)
        other.trusted = self.trusted - {s}
        return other

    def uses_trust(self, s, action):
        """Whether a request is granted, and would not be if the subject that asks were not trusted."""
        return self.grants(s, action) and not self.untrusted(s).grants(s, action)

    def grants(self, s, action):
        return self.decide(s, action).split()[0] in ("yes", "created")

    def conditions(self, s, action):
        """The conditions of a request in its domain: reason, whether it holds, what it rests on, and the accesses in the way."""
        return getattr(self, "of_" + action[0].partition("-")[0])(s, *action[1:])

    def decide(self, s, action):
        if not self.is_defined(s, action):
            return "undefined"
        for reason, holds, _, _ in self.conditions(s, action):
            if not holds:
                return f"no {reason}"
        return f"created {self.next}" if action[0] == "create" else "yes"

    # each rule

    def of_get(self, s, mode, o):
        name, thing, word = self.subject(s), self.object(o), MODES[mode]
        maximum, current, label = self.maximum[s], self.current[s], self.label[o]
        permitted = (s, o, mode) in self.matrix
        sec = self.security.text
        if mode in (1, 3):
            simple = said(dominates(maximum, label), f"maximum {sec(maximum)}", "dominates", f"{sec(label)} of {thing}")
        else:
            simple = f"{word} does not observe"
        here, there = f"current {sec(current)}", f"{sec(label)} of {thing}"
        if mode == 0:
            star = "execute neither observes nor alters"
        elif mode == 1:
            star = said(dominates(current, label), here, "dominates", there)
        elif mode == 2:
            star = said(dominates(label, current), there, "dominates", here)
        else:
            star = said(current == label, here, "equals", there)
        own, trust = f"{self.integrity.text(self.own[s])} of {name}", f"{self.integrity.text(self.trust[o])} of {thing}"
        strict = self.strict(s, o, mode)
        if mode in (0, 1):
            integrity = said(strict, trust, "dominates", own)
        elif mode == 2:
            integrity = said(strict, own, "dominates", trust)
        else:
            integrity = said(strict, own, "equals", trust)
        return [("discretionary", permitted, f"{name} is {'' if permitted else 'not '}permitted {word} of {thing}", []),
                ("simple", self.simple(s, label, mode), simple, []),
                ("star", self.star(s, current, label, mode), star, []), ("integrity", strict, integrity, [])]

    def of_release(self, s, mode, o):
        return []

    def authority(self, s, o):
        if o == 0:
            return self.trusts(s)
        return self.controls(s, o), holding(self.controls(s, o), self.subject(s), self.object(self.parent[o]))

    def trusts(self, s):
        return s in self.trusted, f"{self.subject(s)} is {'' if s in self.trusted else 'not '}trusted"

    def of_give(self, s, mode, t, o):
        return [("authority", *self.authority(s, o), [])]

    of_rescind = of_give

    def of_create(self, s, p, label, trust):
        name, thing = self.subject(s), self.object(p)
        alters = (s, p, 2) in self.accesses or self.writes(s, p)
        above, below = dominates(label, self.label[p]), dominates(self.trust[p], trust)
        free = self.next < OBJECTS
        return [("authority", alters,
                 f"{name} holds {'append or write' if alters else 'neither append nor write'} on {thing}", []),
                ("compatibility", above, said(above, f"new {self.security.text(label)}", "dominates",
                 f"{self.security.text(self.label[p])} of {thing}"), []),
                ("integrity", below, said(below, f"{self.integrity.text(self.trust[p])} of {thing}", "dominates",
                 f"new {self.integrity.text(trust)}"), []),
                ("full", free, f"next number is {self.next}" if free else "no number is left", [])]

    def of_delete(self, s, o):
        if o == 0:
            authority = False, f"{self.object(o)} has no parent"
        else:
            authority = self.authority(s, o)
        return [("root", o != 0, f"{self.object(o)} is {'not ' if o else ''}the root", []), ("authority", *authority, [])]

    def of_level(self, s, label):
        ceiling = dominates(self.maximum[s], label)
        new = f"new {self.security.text(label)}"
        failing = [it for it in sorted(self.accesses) if it[0] == s and not self.star(s, label, self.label[it[1]], it[2])]
        basis = f"{'not ' if failing else ''}all that {self.subject(s)} holds meets star at {new}"
        return [("ceiling", ceiling, said(ceiling, f"maximum {self.security.text(self.maximum[s])}", "dominates", new),
                 []), ("star", not failing, basis, [f"{self.object(o)} {MODES[x]}" for _, o, x in failing])]

    def of_relabel(self, s, o, label):
        name, thing, sec = self.subject(s), self.object(o), self.security.text
        new, old = f"new {sec(label)}", f"{sec(self.label[o])} of {thing}"
        if o == 0:
            holds, authority = self.trusts(s)
        else:
            parts = [(self.controls(s, o), holding(self.controls(s, o), name, self.object(self.parent[o]))),
                     (dominates(self.current[s], self.label[o]), f"current {sec(self.current[s])}"),
                     (dominates(label, self.label[o]), new)]
            holds = s in self.trusted or all(it for it, _ in parts)
            authority = ", ".join([parts[0][1]] + [said(it, word, "dominates", old) for it, word in parts[1:]])
        below = all(dominates(self.label[it], label) for it in self.children(o))
        fits = f"{'' if below else 'not '}each child of {thing} dominates {new}"
        above = True
        if o:
            parent = self.parent[o]
            above = dominates(label, self.label[parent])
            fits = f"{said(above, new, 'dominates', f'{sec(self.label[parent])} of {self.object(parent)}')}, {fits}"
        held = [it for it in sorted(self.accesses) if it[1] == o]
        simple = [it for it in held if not self.simple(it[0], label, it[2])]
        star = [it for it in held if not self.star(it[0], self.current[it[0]], label, it[2])]
        told = lambda rows: [f"{self.subject(t)} {MODES[x]}" for t, _, x in rows]
        return [("authority", holds, authority, []), ("compatibility", above and below, fits, []),
                ("simple", not simple, f"{'not ' if simple else ''}all that observe {thing} meet simple at {new}",
                 told(simple)),
                ("star", not star, f"{'not ' if star else ''}all that hold {thing} meet star at {new}", told(star))]

    # what a granted request changes

    def apply(self, s, action):
        reply = self.decide(s, action)
        if reply == "yes" or reply.startswith("created"):
            getattr(self, "do_" + action[0].partition("-")[0])(s, *action[1:])
        return reply

    def do_get(self, s, mode, o):
        self.accesses.add((s, o, mode))

    def do_release(self, s, mode, o):
        self.accesses.discard((s, o, mode))

    def do_give(self, s, mode, t, o):
        self.matrix.add((t, o, mode))

    def do_rescind(self, s, mode, t, o):
        self.matrix.discard((t, o, mode))
        self.accesses.discard((t, o, mode))

    def do_create(self, s, p, label, trust):
        o = self.next
        self.parent[o], self.label[o], self.trust[o] = p, label, trust
        self.set_next(o + 1)

    def do_delete(self, s, o):
        gone, more = set(), [o]
        while more:
            it = more.pop()
            gone.add(it)
            more += self.children(it)
        for it in gone:
            del self.parent[it], self.label[it], self.trust[it]
        self.matrix = {it for it in self.matrix if it[1] not in gone}
        self.accesses = {it for it in self.accesses if it[1] not in gone}
        self.set_next(self.next)

    def do_level(self, s, label):
        self.current[s] = label

    def do_relabel(self, s, o, label):
        self.label[o] = label

    def set_next(self, grown):
        self.next = grown if self.profile == 1 else next(it for it in range(OBJECTS + 1) if it not in self.label)

    # the remedy of a get

    def remedy(self, s, mode, o):
        """The least label under which the get is granted, found by trying all joins of labels that matter; None where there is none."""
        helping = [it for it in self.candidates(s) if self.helps(s, mode, o, it)]
        least = [it for it in helping if all(dominates(other, it) for other in helping)]
        return least[0] if least else None

    def candidates(self, s):
        found = {(0, frozenset())}
        for label in self.label.values():
            found |= {join(it, label) for it in found}
        return found

    def way(self, s, mode, o):
        """What a get takes of its subject alone: releases, and the label to take behind them; None where nothing helps. A release only widens
        what labels can be taken, so nothing helps where with nothing held none of all labels below the maximum does."""
        least = self.remedy(s, mode, o)
        if least is not None:
            return [], least
        if s not in self.maximum or o not in self.label:
            return None
        held, free = [it for it in sorted(self.accesses) if it[0] == s], copy.copy(self)
        free.accesses = self.accesses - {*held}
        if not any(free.helps(s, mode, o, it) for it in below(self.maximum[s])):
            return None
        label = meet(self.label[o], self.maximum[s]) if mode == 2 else self.label[o]
        releases = [it for it in held if not self.star(s, label, self.label[it[1]], it[2])]
        for kept in [None, *releases]:
            free.accesses = self.accesses - {it for it in releases if it != kept}
            assert free.helps(s, mode, o, label) == (kept is None), "just the releases that are named are needed, and they are enough"
        return releases, label

    def helps(self, s, mode, o, label):
        if self.decide(s, ("level", label)) != "yes":
            return False
        kept, self.current[s] = self.current[s], label
        granted = self.decide(s, (f"get-{MODES[mode]}", mode, o)) == "yes"
        self.current[s] = kept
        return granted

    # the remedy of a request that is denied: steps, each with the subjects of whom any may make it; and what they lead to, None
    # where the request is granted then, the same request of others, or the words that say that there is none

    def after(self, steps):
        """The state after steps, of which each has to be granted, whoever makes it."""
        then = copy.copy(self)
        for name in ("matrix", "accesses", "current", "label", "trust", "parent"):
            setattr(then, name, copy.copy(getattr(self, name)))
        for subjects, action in steps:
            assert subjects and all(then.grants(it, action) for it in subjects), "each step of a remedy is granted"
            then.apply(subjects[0], action)
        return then

    def able(self, action):
        """The first three subjects that are granted an action."""
        return [it for it in sorted(self.maximum) if self.grants(it, action)][:3]

    def remedy_steps(self, s, action):
        found = self.get_steps(s, *action[1:]) if action[0].startswith("get-") else self.change_steps(s, action)
        if found[1] is None:
            assert self.after(found[0]).grants(s, action), "after a remedy the request is granted"
        elif isinstance(found[1], tuple):
            self.after(found[0] + [found[1]])
        return found

    def own_steps(self, s, mode, o):
        way = self.way(s, mode, o)
        if way is None:
            return [], "none by level"
        return [([s], ("release", it, p)) for _, p, it in way[0]] + [([s], ("level", way[1]))], None

    def get_steps(self, s, mode, o):
        get, give = (f"get-{MODES[mode]}", mode, o), ("give", mode, s, o)
        if (s, o, mode) in self.matrix:
            return self.own_steps(s, mode, o)
        if not self.simple(s, self.label[o], mode) or not self.strict(s, o, mode):
            return [], "none by level"
        giving = self.by_others(give)
        if not giving:
            return [], f"none now: nobody gives {MODES[mode]} {self.object(o)} to {self.subject(s)}"
        given = self.after(giving)
        if given.grants(s, get):
            return giving, None
        steps, ending = given.own_steps(s, mode, o)
        return (giving if steps else []) + steps, ending

    def change_steps(self, s, action):
        word, free = action[0], []
        if word == "level":
            free = [(s, p, it) for t, p, it in sorted(self.accesses) if t == s and not self.star(s, action[1], self.label[p], it)]
        if word == "relabel":
            o, label = action[1:]
            free = [(t, p, it) for t, p, it in sorted(self.accesses)
                    if p == o and not (self.simple(t, label, it) and self.star(t, self.current[t], label, it))]
        free = [([t], ("release", it, p)) for t, p, it in free]
        freed = self.after(free)
        if freed.grants(s, action):
            return free, None
        own = freed.own_get(s, action)
        if own is not None:
            return free + [([s], own)], None
        others = freed.by_others(action) if word != "level" else []
        return (free + others[:-1], others[-1]) if others else ([], "none found")

    def own_get(self, s, action):
        """The get of append or write of the parent after which a subject is granted an action."""
        place = {"create": 1, "give": 3, "rescind": 3, "delete": 1, "relabel": 1}.get(action[0])
        parent = None if place is None else action[place] if action[0] == "create" else self.parent.get(action[place])
        for mode in (2, 3) if parent is not None else ():
            get = (f"get-{MODES[mode]}", mode, parent)
            if self.grants(s, get) and self.after([([s], get)]).grants(s, action):
                return get
        return None

    def by_others(self, action):
        """The steps of those who are granted an action; where nobody is, of the first that is after a get of its own."""
        now = self.able(action)
        if now:
            return [(now, action)]
        for t in sorted(self.maximum):
            own = self.own_get(t, action)
            if own is not None:
                return [([t], own), ([t], action)]
        return []


KINDS = {**{f"get-{mode}": ("mode", "object") for mode in MODES}, "release": ("mode", "object"),
         "give": ("mode", "subject", "object"), "rescind": ("mode", "subject", "object"),
         "create": ("object", "security", "integrity"), "delete": ("object", ), "level": ("security", ),
         "relabel": ("object", "security")}


def said(holds, one, verb, other):
    return f"{one} {verb if holds else 'does not ' + verb.removesuffix('s')} {other}"


def holding(holds, name, thing):
    return f"{name} {'holds' if holds else 'does not hold'} write on {thing}"


# what the program prints


def action_of(state, words):
    """The action of a script line's words behind the subject, by numbers."""
    word, operands = words[0], words[1:]
    if word.startswith("get-"):
        return word, MODES.index(word[4:]), state.numbers(operands[0], state.objects)
    read = {"mode": MODES.index, "subject": lambda it: state.numbers(it, state.subjects),
            "object": lambda it: state.numbers(it, state.objects), "security": state.security.read, "integrity": state.integrity.read}
    return (word, *(read[kind](it) for kind, it in zip(KINDS[word], operands)))


def words_of(state, action):
    """An action as a script line has it, by name."""
    word = action[0]
    if word.startswith("get-"):
        return f"{word} {state.object(action[2])}"
    write = {"mode": lambda it: MODES[it], "subject": state.subject, "object": state.object,
             "security": state.security.text, "integrity": state.integrity.text}
    return " ".join([word] + [write[kind](it) for kind, it in zip(KINDS[word], action[1:])])


def entry_text(action):
    """An action as an entry line has it, by number."""
    word = action[0]
    if word.startswith("get-"):
        return f"{word} {action[2]}"
    write = {"mode": lambda it: MODES[it], "subject": str, "object": str, "security": number_text, "integrity": number_text}
    return " ".join([word] + [write[kind](it) for kind, it in zip(KINDS[word], action[1:])])


def explained(state, s, action):
    """What `mls explain` prints of a request, and its status."""
    reply = state.decide(s, action)
    lines = [reply]
    if reply == "undefined":
        lines += unknowns(state, s, action)
    else:
        lines += condition_lines(state, s, action)
        if reply.startswith("no"):
            lines += [f"remedy: {it}" for it in remedies(state, s, action)]
    return "".join(f"{it}\n" for it in lines), 0 if reply == "yes" or reply.startswith("created") else 4


def condition_lines(state, s, action):
    """The lines of the conditions, each with what it rests on without trust in the subject that asks. One that holds by trust alone says so; what
    rests on trust itself tells it as it is."""
    lines = []
    for (reason, holds, basis, failing), (_, alone, plain, _) in zip(state.conditions(s, action), state.untrusted(s).conditions(s, action)):
        word = "fails" if not holds else "holds" if alone else "holds by trust"
        lines.append(f"{reason} {word}: {basis if plain == state.untrusted(s).trusts(s)[1] else plain}")
        lines += [] if holds else [f"  {it}" for it in failing]
    return lines


def remedies(state, s, action):
    """The lines of the remedy of a request that is denied."""
    steps, ending = state.remedy_steps(s, action)
    lines = [step_text(state, *it) for it in steps]
    if ending is None:
        return lines
    return lines + [ending if isinstance(ending, str) else f"{step_text(state, *ending)} instead"]


def step_text(state, subjects, action):
    names = " or ".join(map(state.subject, subjects))
    if action[0] == "give":
        return f"{names} gives {MODES[action[1]]} {state.object(action[3])} to {state.subject(action[2])}"
    return f"{names} {words_of(state, action)}"


def way_text(state, way):
    """The same in a line of `mls who`."""
    if way is None:
        return ", never"
    releases = ", ".join(f"{MODES[x]} {state.object(o)}" for _, o, x in way[0])
    return f", level {state.security.text(way[1])}" + (f" after releasing {releases}" if releases else "")


def unknowns(state, s, action):
    lines = [] if s in state.maximum else [f"unknown subject: {state.subject(s)}"]
    for kind, value in zip(KINDS[action[0]], action[1:]):
        if kind == "subject" and value not in state.maximum and value != s:
            lines.append(f"unknown subject: {state.subject(value)}")
        if kind == "object" and value not in state.label:
            lines.append(f"inactive object: {state.object(value)}")
        if kind in ("security", "integrity") and not getattr(state, kind).has(value):
            lines.append(f"{kind} label outside the scheme: {outside_text(value)}")
    return lines


def lasting(state, s, action):
    """The reply to a get that is never granted, with the condition that fails at each level, whatever is released: the first, but for star."""
    return next(f"no {reason}" for reason, holds, *_ in state.conditions(s, action) if not holds and reason != "star")


def who(state, o, modes=range(4)):
    """What `mls who` prints of an object, and its status."""
    lines = []
    for s in sorted(state.maximum) if o in state.label else []:
        for x in modes:
            if (s, o, x) not in state.matrix:
                continue
            action = (f"get-{MODES[x]}", x, o)
            reply = state.decide(s, action)
            way = None if reply == "yes" else state.way(s, x, o)
            tail = "" if reply == "yes" else way_text(state, way)
            told = lasting(state, s, action) if tail and way is None else reply
            lines.append(f"{state.subject(s)} {MODES[x]} {told}{tail}\n")
    return "".join(lines), 0 if any(it.endswith(" yes\n") for it in lines) else 4
