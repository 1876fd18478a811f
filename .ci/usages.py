"""How permissions were used, in Python from docs/FORMATS.md ("usage"): from the matrices of all states of a journal, one by one."""
from evers import entry_text
from policy import MODES


def uses(states, entries, access):
    """Those of some entries that are the get of an access in a state that permits it."""
    s, o, x = access
    asked = [it for it in entries if (it.subject, *it.action[:3]) == (s, f"get-{MODES[x]}", x, o) and access in states[it.number].matrix]
    assert all(it.reply in ("yes", "no simple", "no star", "no integrity") for it in asked)
    return asked


def use_of(opening, first, access, asked, found):
    """The line of a permission with these uses, where a state is the first, with the times of marks, where these are told; and whether it
    was granted, in one of them or before."""
    s, o, x = access
    is_held = access in first.accesses
    granted = sum(it.reply == "yes" for it in asked)
    last = entry_text(asked[-1].number, found) + (", held at start" if is_held else "") if asked else "start"
    text = f"{granted} granted, {len(asked) - granted} denied, last {last}" if asked or is_held else "never asked"
    return f"{opening.subject(s)} {MODES[x]} {opening.object(o)}: {text}\n", granted > 0 or is_held


def trust_of(states, entries, s, found):
    """The line of a subject's trust: those of some entries that it grants."""
    used = [it for it in entries if it.subject == s and states[it.number].uses_trust(s, it.action)]
    text = f"{len(used)} granted, last {entry_text(used[-1].number, found)}" if used else "never used"
    return f"{states[0].subject(s)} trust: {text}\n"


def listed(states, entries, first=0, last=None, marks=None):
    """What `mls usage` prints of the permissions of the states from `first` to `last`, and its status."""
    last = len(entries) if last is None else min(last, len(entries))
    permissions = sorted({it for state in states[first : last + 1] for it in state.matrix})
    rows = [use_of(states[0], states[first], it, uses(states, entries[first:last], it), marks) for it in permissions]
    unused = sum(not granted for _, granted in rows)
    ending = f"{len(rows)} permission{'s' * (len(rows) != 1)}, {unused} never granted\n"
    trust = [trust_of(states, entries[first:last], it, marks) for it in sorted(states[0].trusted) if first <= last]
    return "".join([text for text, _ in rows] + trust) + ending, 4 if unused else 0
