"""What `mls about` prints, in Python from docs/FORMATS.md ("about"), over the policy of policy.py. Which entries deleted an object is
told by what it is below in the state before each, and not by whether it is there after it."""
import question_texts as texts
from evers import entry_text
from policy import MODES, who


def lines_of(state, words):
    """The lines of `mls state` that begin with these words."""
    return [it for it in texts.state_lines(state)[0].splitlines(keepends=True) if it.startswith(f"{words} ")]


def entry_lines(state, entries, found):
    """The lines of entries as `mls journal` has them, with their times where marks are told."""
    stamped = lambda it: "" if found is None else f"{entry_text(it.number, found).split()[1]} "
    return [stamped(it) + texts.entry_line(state, it) for it in entries]


def permission(state, s, o, x):
    """The line of a permission, with what `mls who` says of it."""
    front = f"{state.subject(s)} {MODES[x]} "
    [told] = [it for it in who(state, o, [x])[0].splitlines() if it.startswith(front)]
    return f"permit {front}{state.object(o)}: {told.removeprefix(front)}\n"


def asked(s, entries, found):
    mine = [it for it in entries if it.subject == s]
    denied = sum(it.reply.startswith("no ") for it in mine)
    last = f", last {entry_text(mine[-1].number, found)}" if mine else ""
    return f"{len(mine)} {'entry' if len(mine) == 1 else 'entries'}, {denied} denied{last}\n"


def of_subject(state, s, entries=None, found=None):
    """What is told of a subject and the entries before the state, where there is a journal; and its status."""
    name = state.subject(s)
    lines = lines_of(state, f"subject {name}") + [permission(state, *it) for it in sorted(state.matrix) if it[0] == s]
    lines += lines_of(state, f"access {name}") + [texts.powers(state, s)[0]]
    if entries is not None:
        given = [it for it in entries if it.action[0] in ("give", "rescind") and it.action[2] == s]
        lines += [asked(s, entries, found), *entry_lines(state, given, found)]
    return "".join(lines), 0


def is_below(state, o, top):
    """Whether an object that is there is another one, or below it."""
    while o != top and o:
        o = state.parent[o]
    return o == top


def has_changed(before, entry, o):
    """Whether an entry changed an object: in the state before it."""
    word, *operands = entry.action
    if entry.reply != "yes":
        return entry.reply == f"created {o}"
    if word == "delete":
        return o in before.label and is_below(before, o, operands[0])
    return word in ("give", "rescind", "relabel") and operands[-1 if word != "relabel" else 0] == o


def of_object(states, o, entries=None, found=None):
    """What is told of an object in the last of some states, and of the entries between them, where there is a journal."""
    state = states[-1]
    name = state.object(o)
    lines = lines_of(state, f"object {name}") + [f"child {state.object(it)}\n" for it in state.children(o)]
    lines += [who(state, o)[0], *[it for it in lines_of(state, "access") if it.split()[3] == name]]
    if entries is not None:
        changes = [it for before, it in zip(states, entries) if has_changed(before, it, o)]
        lines += entry_lines(state, changes, found)
    text = "".join(lines)
    return text, 0 if text else 4
