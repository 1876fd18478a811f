"""What could ever come about, in Python from docs/POLICY.md ("What could come about"): the requests that bring about what closures.py finds.
Run by itself it tries both against the rules: `.ci/futures.py [SEED [WORLDS]]`."""
import copy
import json
import random
import sys

from closures import LEAST, WRITE, closure, givers
from policy import MODES, State
from question_worlds import action, some_action, start

def released(state):
    """The releases of all that is held."""
    return [(s, ("release", x, o)) for s, o, x in sorted(state.accesses)]


def giver_of(state, actors, could, o):
    """Who gives permissions of an object: the first of those who could, or of those among them that are permitted write of its parent."""
    some = givers(state, actors, could, o)
    return min({it for it in some if o and (it, state.parent[o], WRITE) in state.matrix} or some)


def script(state, actors, could, s, o, x):
    """Requests that bring an access about where nothing is held, as (s, o, x) in `could` says; the state is changed as they say."""
    asked = []

    def ask(*request):
        asked.append(request)
        assert state.apply(*request) == "yes", (request, state.decide(*request))

    if (s, o, x) not in state.matrix:
        giver = giver_of(state, actors, could, o)
        if o:
            asked += script(state, actors, could, giver, state.parent[o], WRITE)
        ask(giver, ("give", x, s, o))
        if o:
            ask(giver, ("release", WRITE, state.parent[o]))
    if not state.simple(s, state.label[o], x):
        path = [o]
        while path[0]:
            path.insert(0, state.parent[path[0]])
        for it in path:
            if state.label[it] != LEAST:
                ask(min(actors & state.trusted), ("relabel", it, LEAST))
    if not state.star(s, state.current[s], state.label[o], x):
        ask(s, ("level", LEAST if x == MODES.index("append") else state.label[o]))
    ask(s, (f"get-{MODES[x]}", x, o))
    return asked


# What follows tries these answers.


def duplicate(state):
    found = copy.copy(state)
    for name in ("current", "label", "trust", "parent", "matrix", "accesses"):
        setattr(found, name, getattr(state, name).copy())
    return found


def world(rnd):
    """A state with few permissions, few trusted subjects and some accesses, and some of its subjects."""
    data = json.loads(start(rnd))
    few, trusted = rnd.choice((0.1, 0.3, 0.6)), rnd.random() < 0.3
    held = [(it["subject"], it["object"], mode) for it in data["accesses"] for mode in it["modes"]]
    for row in data["matrix"]:
        row["modes"] = [it for it in row["modes"] if (row["subject"], row["object"], it) in held or rnd.random() < few]
    for row in data["subjects"]:
        row["trusted"] &= trusted or any(it["subject"] == row["name"] for it in data["accesses"])
    state = State(json.dumps(data))
    return state, {it for it in state.maximum if rnd.random() < 0.7}


def by_actors(rnd, state, actors, some):
    while True:
        s, asked = some(rnd, state)
        if s in actors:
            return s, asked


def stays(state, actors, could, held, old):
    """Whether all that is held of the old objects was held at first by one who doesn't act, or is in the answer."""
    return all(it in (could if it[0] in actors else held) for it in state.accesses if it[1] in old)


def ask_one(state, old, s, asked):
    """The old objects that are there after a request."""
    state.apply(s, asked)
    return {it for it in old if it in state.label} if asked[0] == "delete" else old


def walk(rnd, state, actors, could, steps):
    held, old = set(state.accesses), set(state.label)
    for _ in range(steps):
        old = ask_one(state, old, *by_actors(rnd, state, actors, some_action))
        assert stays(state, actors, could, held, old), sorted(state.accesses)


def search(rnd, state, actors, could, bound):
    """From each state that is met, every way on of a fixed list of requests, up to so many states."""
    asks = [by_actors(rnd, state, actors, action) for _ in range(40)]
    held, seen, left = set(state.accesses), set(), [(state, frozenset(state.label))]
    while left and len(seen) < bound:
        state, old = left.pop(0)
        for s, asked in asks:
            if state.decide(s, asked).startswith(("yes", "created")):
                after = duplicate(state)
                still = ask_one(after, old, s, asked)
                assert stays(after, actors, could, held, still), (s, asked, sorted(after.accesses))
                key = repr([sorted(it) if isinstance(it, (set, frozenset)) else sorted(it.items()) for it in (
                    still, after.matrix, after.accesses, after.current, after.label, after.parent)])
                if key not in seen:
                    seen.add(key)
                    left.append((after, still))
    return len(seen)


def main(seed=1, worlds=300):
    rnd, counts = random.Random(int(seed)), [0] * 4
    for _ in range(int(worlds)):
        state, actors = world(rnd)
        could = closure(state, actors)[0]
        for it in sorted(could):
            after = duplicate(state)
            for request in released(state):
                assert after.apply(*request) == "yes"
            asked = script(after, actors, could, *it)
            assert it in after.accesses and {s for s, _ in asked} <= actors
        counts[0] += len(could)
        counts[1] += len(could - state.matrix)
        counts[2] += sum(it[0] in actors for it in state.matrix - could)
        if actors:
            for fresh in (False, True):
                state.accesses -= state.accesses if fresh else set()
                walk(rnd, duplicate(state), actors, could, 200)
                counts[3] += search(rnd, duplicate(state), actors, could, 150)
    print(f"{worlds} worlds: {counts[0]} accesses could come about, {counts[1]} of them not permitted at first; "
          f"{counts[2]} that are permitted never could; {counts[3]} states searched")


if __name__ == "__main__":
    main(*sys.argv[1:])
