"""Who held what, in Python from docs/FORMATS.md ("held"): from all states of a journal, one by one, and not from what its entries do."""
import collections

from evers import entry_text
from policy import MODES

# An access (subject, object, mode), and the first and the last state in which it is held, one after the other; state N is the one before
# entry N.
Span = collections.namedtuple("Span", "access first last")


def spans(states):
    """The longest spans of states in which an access is held: those of state 0 by access, the others by the entry that made them."""
    found = []
    for access in {it for state in states for it in state.accesses}:
        held = [access in state.accesses for state in states]
        for first in range(len(held)):
            if held[first] and (first == 0 or not held[first - 1]):
                last = first
                while last + 1 < len(held) and held[last + 1]:
                    last += 1
                found.append(Span(access, first, last))
    return sorted(found, key=lambda it: (it.first, it.access))


def line_of(opening, entries, span, found):
    """The line of a span, with the times of marks, where these are told."""
    s, o, x = span.access
    begin = entry_text(span.first - 1, found) if span.first else "start"
    end = f" to {entry_text(span.last, found)}, {entries[span.last].action[0]}" if span.last < len(entries) else " on"
    return f"{opening.subject(s)} {MODES[x]} {opening.object(o)}: {begin}{end}\n"


def listed(states, entries, subject=None, object=None, mode=None, first=0, last=None, marks=None):
    """What `mls held` prints of the spans that meet all that is asked for, and its status: of those in which some state is from `first` to
    `last`."""
    asked = range(first, len(states) if last is None else min(last + 1, len(states)))
    found = [it for it in spans(states) if (subject is None or it.access[0] == subject) and (object is None
              or it.access[1] == object) and (mode is None or it.access[2] == mode) and any(it.first <= state <= it.last
              for state in asked)]
    return "".join(line_of(states[0], entries, it, marks) for it in found), 0 if found else 4
