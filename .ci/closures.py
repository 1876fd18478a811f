"""Which accesses could ever come about, in Python from docs/POLICY.md ("What could come about"): by a fixpoint over all triples."""
from policy import MODES

LEAST, WRITE = (0, frozenset()), 3


def meets(state, actors, s, o, x):
    """Whether nothing but a permission can keep an actor from an access: integrity, and simple security at the lowest label that it could have."""
    lowest = LEAST if actors & state.trusted else state.label[o]
    return s in actors and state.strict(s, o, x) and state.simple(s, lowest, x)


def givers(state, actors, could, o):
    """The actors that could permit accesses of an object."""
    return actors & state.trusted if o == 0 else {s for s in actors if (s, state.parent[o], WRITE) in could}


def closure(state, actors):
    """All accesses that the actors could get, and the cells that they could have permitted."""
    every = {(s, o, x) for s in state.maximum for o in state.label for x in range(len(MODES))}
    cells, could, grown = set(state.matrix), set(), True
    while grown:
        more = {it for it in cells if meets(state, actors, *it)}
        given = {it for it in every if givers(state, actors, more, it[1])}
        grown = not (more <= could and given <= cells)
        cells, could = cells | given, could | more
    return could, cells


def untrusted(state):
    return set(state.maximum) - state.trusted


def brought(state):
    """The accesses that untrusted subjects could get and that are not permitted."""
    return sorted(closure(state, untrusted(state))[0] - state.matrix)
