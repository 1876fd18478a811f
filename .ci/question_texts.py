"""What `mls journal`, `mls state`, `mls lint` and `mls powers` print, and the pairs that `mls lattice` draws, in Python from docs/FORMATS.md over the policy of policy.py."""
import copy

import json

import closures
from policy import KINDS, MODES, REASONS, below, dominates, explained, number_label, words_of

REPLIES = ("yes", "created", "no", "undefined")


class Entry:
    def __init__(self, number, session, subject, action, reply):
        self.number, self.session, self.subject, self.action, self.reply = number, session, subject, action, reply

    def objects(self):
        """The objects that an entry names or makes."""
        named = [it for kind, it in zip(KINDS[self.action[0]], self.action[1:]) if kind == "object"]
        return named + ([int(self.reply.split()[1])] if self.reply.startswith("created") else [])

    def subjects(self):
        """The subjects that an entry is about: the one that asked, and one that a permission is given to or rescinded."""
        return [self.subject] + [it for kind, it in zip(KINDS[self.action[0]], self.action[1:]) if kind == "subject"]


def entry_of(line):
    """The entry of an entry line."""
    number, session, subject, word, *rest = line.split()
    is_get = word.startswith("get-")
    kinds = KINDS[word][is_get:]
    read = {"mode": MODES.index, "security": number_label, "integrity": number_label}
    operands = [read.get(kind, int)(it) for kind, it in zip(kinds, rest)]
    action = (word, *([MODES.index(word[4:])] if is_get else []), *operands)
    return Entry(int(number), int(session), int(subject), action, " ".join(rest[len(kinds):]))


def listed(state, entries, subject=None, by=None, object=None, session=None, reply=None, first=0, last=None):
    """The entries that meet all that is asked for."""
    words = reply.split() if reply else []
    return [it for it in entries if (subject is None or subject in it.subjects()) and (by is None or it.subject == by)
             and (object is None or object in it.objects()) and (session is None or it.session == session)
             and it.reply.split()[: len(words)] == words and it.number >= first and (last is None or it.number <= last)]


def entry_line(state, entry):
    return f"{entry.number} session {entry.session} {state.subject(entry.subject)} {words_of(state, entry.action)}: {entry.reply}\n"


def journal(state, entries):
    return "".join(entry_line(state, it) for it in entries), 0 if entries else 4


def under(text):
    """What stands under the line of an entry: of what explains it the lines behind the first, each behind two spaces."""
    return "".join(f"  {it}\n" for it in text.splitlines()[1:])


def explained_entry(before, state, entry):
    """The line of an entry, and what stands under it in the state before it, which is that before its number."""
    return entry_line(state, entry) + under(explained(before(entry.number), entry.subject, entry.action)[0])


def explained_journal(before, state, entries):
    return "".join(explained_entry(before, state, it) for it in entries), 0 if entries else 4


JSON_KEYS = {"mode": "mode", "subject": "whose", "object": "object", "security": "security", "integrity": "integrity"}


def entry_json(state, entry):
    """The JSON object of an entry, in a line."""
    row = {"number": entry.number, "session": entry.session}

    def put(key, number, names):
        row[key] = number
        if number < len(names):
            row[f"{key}_name"] = names[number]

    put("subject", entry.subject, state.subjects)
    word = row["action"] = entry.action[0]
    for kind, value in zip(KINDS[word], entry.action[1:]):
        key = "parent" if word == "create" and kind == "object" else JSON_KEYS[kind]
        if kind in ("subject", "object"):
            put(key, value, getattr(state, f"{kind}s"))
        elif kind == "mode":
            row.update({} if word.startswith("get-") else {key: MODES[value]})
        else:
            row[key] = getattr(state, kind).text(value)
    row["reply"], _, rest = entry.reply.partition(" ")
    if rest:
        row["created" if row["reply"] == "created" else "reason"] = int(rest) if rest.isdigit() else rest
    return json.dumps(row, separators=(",", ":")) + "\n"


def objects(state, entries):
    return "".join(entry_json(state, it) for it in entries), 0 if entries else 4


def summary(state, entries):
    lines = [f"entries {len(entries)}\n"]
    for s in sorted({it.subject for it in entries}):
        for word in REPLIES:
            count = sum(it.subject == s and it.reply.split()[0] == word for it in entries)
            lines += [f"{state.subject(s)} {word} {count}\n"] if count else []
    for reason in REASONS:
        count = sum(it.reply == f"no {reason}" for it in entries)
        lines += [f"no {reason} {count}\n"] if count else []
    return "".join(lines), 0 if entries else 4


def state_lines(state):
    sec, own = state.security.text, state.integrity.text
    lines = [f"profile {state.profile}\n", f"next {state.next}\n"]
    for s in sorted(state.maximum):
        trusted = " trusted" if s in state.trusted else ""
        lines.append(
            f"subject {state.subject(s)} maximum {sec(state.maximum[s])} current {sec(state.current[s])} integrity {own(state.own[s])}{trusted}\n")
    for o in sorted(state.label):
        parent = f" parent {state.object(state.parent[o])}" if o else ""
        lines.append(f"object {state.object(o)} security {sec(state.label[o])} integrity {own(state.trust[o])}{parent}\n")
    for word, table in (("permit", state.matrix), ("access", state.accesses)):
        lines += [f"{word} {state.subject(s)} {MODES[x]} {state.object(o)}\n" for s, o, x in sorted(table)]
    return "".join(lines), 0


def dead(state, s, mode, o):
    """The reason of a permission that is dead, found by trying all labels; None where it isn't."""
    free = copy.copy(state)
    free.accesses, free.current = set(), dict(state.current)
    tests = []
    for label in below(state.maximum[s]):
        free.current[s] = label
        tests.append([(reason, holds) for reason, holds, _, _ in free.conditions(s, (f"get-{MODES[mode]}", mode, o))])
    if any(all(holds for _, holds in test) for test in tests):
        return None
    return next(tests[0][k][0] for k in range(4) if not any(test[k][1] for test in tests))


def lint(state):
    cells = sorted(state.matrix)
    reasons = {it: dead(state, it[0], it[2], it[1]) for it in cells}
    alive = [it for it in cells if reasons[it] is None]
    lines = [f"dead: {state.subject(s)} {MODES[x]} {state.object(o)}: {reasons[s, o, x]}\n" for s, o, x in cells if reasons[s, o, x]]
    lines += [f"unused: {state.object(o)}\n" for o in sorted(state.label) if all(it[1] != o for it in alive)]
    lines += [f"idle: {state.subject(s)}\n" for s in sorted(state.maximum) if all(it[0] != s for it in alive)]
    for s in sorted(state.trusted):
        seen = sorted({o for t, o, x in alive if t == s and x in (1, 3)})
        changed = sorted({o for t, o, x in alive if t == s and x in (2, 3)})
        pairs = [(a, b) for a in seen for b in changed if not dominates(state.label[b], state.label[a])]
        if pairs:
            count = "1 pair" if len(pairs) == 1 else f"{len(pairs)} pairs"
            lines.append(f"downflow: {state.subject(s)}: {count}, as {state.object(pairs[0][0])} to {state.object(pairs[0][1])}\n")
    lines += brought(state)
    return "".join(lines), 4 if lines else 0


def brought(state):
    """What `mls lint` prints of what untrusted subjects could bring about."""
    found = [f"{state.subject(s)} {MODES[x]} {state.object(o)}" for s, o, x in closures.brought(state)]
    more = [f"{len(found) - 20} more"] if len(found) > 20 else []
    return [f"could: {it}, by untrusted subjects\n" for it in found[:20] + more]


def covering(labels):
    """The pairs of labels of which the second covers the first."""
    above = lambda a, b: a != b and dominates(b, a)
    return {(a, b) for a in labels for b in labels if above(a, b) and not any(above(a, c) and above(c, b) for c in labels)}


def labels(state):
    return {*state.maximum.values(), *state.current.values(), *state.label.values()}



def in_use(state):
    """The labels of a state, each once, in the order in which they are met: of subjects, the maximum first, and of objects."""
    met = [it for s in sorted(state.maximum) for it in (state.maximum[s], state.current[s])]
    return list(dict.fromkeys(met + [state.label[o] for o in sorted(state.label)]))


def powers(state, subject=None, down=False):
    """What `mls powers` prints, and its status: each line by trying all requests that it speaks of."""
    top = len(state.security.levels) - 1, frozenset(range(len(state.security.categories)))
    high = len(state.integrity.levels) - 1, frozenset(range(len(state.integrity.categories)))
    lines, objects, labels = [], sorted(state.label), in_use(state)
    for s in sorted(state.maximum) if subject is None else [subject]:
        may = lambda *action: state.decide(s, action).split()[0] in ("yes", "created")
        taken = lambda present, word, *operand: [it for it in labels if it != present and may(word, *operand, it)]
        row = lambda words, found: lines.append(" ".join([state.subject(s), words, *map(state.security.text, found)]) + "\n") if found else None
        if not down:
            tried = {o: {may(word, x, t, o) for word in ("give", "rescind") for x in range(4) for t in state.maximum} for o in objects}
            assert all(len(it) == 1 for it in tried.values()), "the rules of a give and a rescind look at more than who asks and the object"
            lines += [f"{state.subject(s)} gives and rescinds {state.object(o)}\n" for o in objects if True in tried[o]]
            lines += [f"{state.subject(s)} creates under {state.object(o)}\n" for o in objects
                      if any(may("create", o, l, i) for l in below(top) for i in below(high))]
            lines += [f"{state.subject(s)} deletes {state.object(o)}\n" for o in objects if may("delete", o)]
            row("level", taken(state.current[s], "level"))
        for o in objects:
            found = taken(state.label[o], "relabel", o)
            is_below, is_above = lambda it: dominates(state.label[o], it), lambda it: dominates(it, state.label[o])
            row(f"relabels {state.object(o)} down to", [it for it in found if is_below(it)])
            row(f"relabels {state.object(o)} aside to", [it for it in found if not is_below(it) and not is_above(it)])
            row(f"relabels {state.object(o)} up to", [it for it in found if is_above(it) and not down])
    return "".join(lines), 0 if lines else 4
