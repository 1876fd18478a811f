"""What `mls compare` prints, in Python from docs/FORMATS.md over the policy of policy.py."""
import copy

import closures
from policy import KINDS, MODES, words_of


def by_name(names, others):
    """The number among other names of each name that is one of them."""
    return {n: others.index(it) for n, it in enumerate(names) if it in others}


def only(word, kind, names, others):
    return [f"only in {word}: {kind} {it}\n" for it in names if it not in others]


def ended(lines):
    return "".join(lines), 4 if lines else 0


def changed(what, here, there):
    return [] if here == there else [f"{what}: {here} > {there}\n"]


def order(kind, names, others):
    """The levels that both have, where they stand otherwise."""
    common = lambda some, them: ",".join(it for it in some if it in them)
    return changed(f"{kind} levels", common(names, others), common(others, names))


def label_line(what, scheme, other, label, there):
    names = lambda its, of: (its.levels[of[0]], {its.categories[it] for it in of[1]})
    return [] if names(scheme, label) == names(other, there) else [f"{what}: {scheme.text(label)} > {other.text(there)}\n"]


def subject_lines(first, second, s, t):
    what, trusted = f"subject {first.subjects[s]}", lambda state, n: "yes" if n in state.trusted else "no"
    return [*label_line(f"{what} maximum", first.security, second.security, first.maximum[s], second.maximum[t]),
            *label_line(f"{what} current", first.security, second.security, first.current[s], second.current[t]),
            *label_line(f"{what} integrity", first.integrity, second.integrity, first.own[s], second.own[t]),
            *changed(f"{what} trusted", trusted(first, s), trusted(second, t))]


def object_lines(first, second, o, p):
    what, parent = f"object {first.objects[o]}", lambda state, n: state.objects[state.parent[n]] if n in state.parent else "(none)"
    return [*changed(f"{what} parent", parent(first, o), parent(second, p)),
            *label_line(f"{what} security", first.security, second.security, first.label[o], second.label[p]),
            *label_line(f"{what} integrity", first.integrity, second.integrity, first.trust[o], second.trust[p])]


def alone(words, here, there):
    """The file that alone has something, None where both or neither have it."""
    return None if here == there else words[0 if here else 1]


def only_lines(words, first, second):
    lines = []
    for kind, names in (
        ("security level", lambda it: it.security.levels), ("security category", lambda it: it.security.categories),
        ("integrity level", lambda it: it.integrity.levels), ("integrity category", lambda it: it.integrity.categories),
        ("subject", lambda it: it.subjects), ("object", lambda it: it.objects),
    ):
        lines += only(words[0], kind, names(first), names(second)) + only(words[1], kind, names(second), names(first))
    return lines


def pairs_of_gets(first, second):
    """The gets of subjects and objects that two starts share, by the numbers that these have in each."""
    subjects, objects = by_name(first.subjects, second.subjects), by_name(first.objects, second.objects)
    return [(s, t, o, p, x) for s, t in subjects.items() for o, p in objects.items() for x in range(len(MODES))]


def gets_of(first, second):
    """Those gets by the first's numbers, with the replies of both openings."""
    for s, t, o, p, x in pairs_of_gets(first, second):
        yield s, o, x, first.decide(s, (f"get-{MODES[x]}", x, o)), second.decide(t, (f"get-{MODES[x]}", x, p))


def get_words(first, s, o, x):
    return f"{first.subjects[s]} {MODES[x]} {first.objects[o]}"


def starts(words, first, second):
    """What is printed of two starts, and the status."""
    subjects, objects = by_name(first.subjects, second.subjects), by_name(first.objects, second.objects)
    gets = pairs_of_gets(first, second)
    named = lambda s, o, x: get_words(first, s, o, x)
    lines = changed("profile", first.profile, second.profile)
    lines += order("security", first.security.levels, second.security.levels)
    lines += order("integrity", first.integrity.levels, second.integrity.levels)
    for s, t in subjects.items():
        lines += subject_lines(first, second, s, t)
    for o, p in objects.items():
        lines += object_lines(first, second, o, p)
    for word, here, there in (("permit", first.matrix, second.matrix), ("access", first.accesses, second.accesses)):
        for s, t, o, p, x in gets:
            if file := alone(words, (s, o, x) in here, (t, p, x) in there):
                lines.append(f"{word} {named(s, o, x)}: only in {file}\n")
    lines += only_lines(words, first, second)
    for s, o, x, here, there in gets_of(first, second):
        lines += changed(named(s, o, x), here, there)
    return ended(lines)


def label_there(scheme, other, label):
    """The label of the same names, None where there is none."""
    if not scheme.has(label):
        return None
    level, categories = scheme.levels[label[0]], [scheme.categories[it] for it in label[1]]
    if level not in other.levels or any(it not in other.categories for it in categories):
        return None
    return other.levels.index(level), frozenset(other.categories.index(it) for it in categories)


def action_there(first, second, subjects, objects, action):
    """An action by the counterparts of what it names, None where one lacks."""
    carry = {"mode": lambda it: it, "subject": subjects.get, "object": objects.get,
             "security": lambda it: label_there(first.security, second.security, it),
             "integrity": lambda it: label_there(first.integrity, second.integrity, it)}
    operands = [carry[kind](it) for kind, it in zip(KINDS[action[0]], action[1:])]
    return None if None in operands else (action[0], *operands)


def made(reply):
    """The number of the object that was made, None where none was."""
    return int(reply.split()[1]) if reply.startswith("created") else None


def objects_after(objects, here, there):
    """The counterparts of objects after two replies."""
    left = {o: p for o, p in objects.items() if p != made(there) and o != made(here)}
    return left if None in (made(here), made(there)) else {**left, made(here): made(there)}


def replies_there(first, second, entries):
    """The replies of the second of two starts to entries of the first, each beside its entry."""
    subjects, objects = by_name(first.subjects, second.subjects), by_name(first.objects, second.objects)
    second = copy.deepcopy(second)
    for it in entries:
        asked = action_there(first, second, subjects, objects, it.action)
        known = asked is not None and it.subject in subjects
        there = second.apply(subjects[it.subject], asked) if known else "undefined"
        yield it, there
        objects = objects_after(objects, it.reply, there)


def agree(here, there):
    """Whether two replies agree: whatever the numbers of objects that were made."""
    return here == there or None not in (made(here), made(there))


def entry_line(first, it, there):
    return f"entry {it.number} {first.subject(it.subject)} {words_of(first, it.action)}: {it.reply} > {there}\n"


def journal(first, second, entries):
    """What is printed of a journal of the first of two starts, and the status."""
    return ended([entry_line(first, it, there) for it, there in replies_there(first, second, entries) if not agree(it.reply, there)])


def coulds(words, first, second):
    """What `compare --could` prints, and its status."""
    one, other = (closures.closure(it, closures.untrusted(it))[0] for it in (first, second))
    subjects, objects = by_name(first.subjects, second.subjects), by_name(first.objects, second.objects)
    lines = []
    for s in subjects:
        for o in objects:
            for x, mode in enumerate(MODES):
                word = alone(words, (s, o, x) in one, (subjects[s], objects[o], x) in other)
                lines += [f"could {first.subjects[s]} {mode} {first.objects[o]}: only in {word}\n"] if word else []
    return ended(lines)
