"""Where the content of an object could flow, in Python from docs/POLICY.md ("Where content could flow"): by a fixpoint over all subjects and
objects; and the requests that carry it there, from docs/FORMATS.md ("flow"). Run by itself it tries both against the rules:
`.ci/flows.py [SEED [WORLDS]]`."""
import random
import sys
from collections import Counter, deque

import futures
from closures import WRITE, closure
from policy import MODES, OBJECTS, dominates
from question_worlds import some_action

READ, APPEND = MODES.index("read"), MODES.index("append")
OBSERVES, ALTERS = (READ, WRITE), (APPEND, WRITE)
SUBJECT, OBJECT = 0, 1


def cleared(state, actors, t, p):
    """Whether a subject's maximum dominates the lowest label that an object could have."""
    return bool(actors & state.trusted) or dominates(state.maximum[t], state.label[p])


def maker(state, actors, could, t):
    """Who could make an object for a subject, below which object; None if nobody could."""
    some = [(s, p) for s, p, x in sorted(could) if x == WRITE and dominates(state.trust[p], state.own[t]) and cleared(state, actors, t, p)]
    return min(some, key=lambda it: (it[1], it[0])) if some and state.next < OBJECTS else None


def next_places(state, actors, could, makers, place):
    """Where content goes from a place by one hand, and by which: subjects before objects, by number."""
    kind, n = place
    if kind == OBJECT:
        return [((SUBJECT, s), x) for s in sorted(actors) for x in OBSERVES if (s, n, x) in could]
    handed = [((SUBJECT, t), makers[t]) for t in sorted(actors) if makers[t] and t != n and dominates(state.own[n], state.own[t])]
    return handed + [((OBJECT, o), x) for o in sorted(state.label) for x in ALTERS if (n, o, x) in could]


def flows(state, actors, o):
    """Each place that content of an object could reach, with its hands: place, and how it comes there from the one before."""
    could = closure(state, actors)[0]
    makers = {t: maker(state, actors, could, t) for t in actors}
    found, left = {(OBJECT, o): ()}, deque([(OBJECT, o)])
    while left:
        place = left.popleft()
        if place[0] == SUBJECT and place[1] not in actors:
            continue
        for other, hand in next_places(state, actors, could, makers, place):
            if other not in found:
                found[other] = (*found[place], (other, hand))
                left.append(other)
    return found


def script(state, actors, o, way):
    """Requests that carry content of an object along a way where nothing is held; the state is changed as they say."""
    asked = []

    def ask(s, *action):
        assert state.grants(s, action), (s, action, state.decide(s, action))
        state.apply(s, action)
        asked.append((s, action))

    def bring(s, p, x):
        asked.extend(futures.script(state, actors, closure(state, actors)[0], s, p, x))

    def carry(s, p, x):
        bring(s, p, x)
        ask(s, "release", x, p)

    def hand_on(s, t, by, p):
        bring(by, p, WRITE)
        new = state.next
        ask(by, "create", p, state.label[p], state.own[t])
        ask(by, "give", APPEND, s, new)
        ask(by, "give", READ, t, new)
        ask(by, "release", WRITE, p)
        carry(s, new, APPEND)
        carry(t, new, READ)

    before = OBJECT, o
    for place, hand in way:
        if isinstance(hand, tuple):
            hand_on(before[1], place[1], *hand)
        elif place[0] == SUBJECT:
            carry(place[1], before[1], hand)
        else:
            carry(before[1], place[1], hand)
        before = place
    return asked


# What follows tries these answers.


def spread(state, actors, tainted):
    """The places that have the content by what is held now."""
    grown = True
    while grown:
        more = {(SUBJECT, s) for s, o, x in state.accesses if s in actors and x in OBSERVES and (OBJECT, o) in tainted}
        more |= {(OBJECT, o) for s, o, x in state.accesses if s in actors and x in ALTERS and (SUBJECT, s) in tainted}
        grown = not more <= tainted
        tainted = tainted | more
    return tainted


def carried(state, actors, tainted, s, action):
    """The places that have the content after a request; the state is changed as it says."""
    state.apply(s, action)
    return spread(state, actors, {it for it in tainted if it[0] == SUBJECT or it[1] in state.label})


def walk(rnd, state, actors, o, steps):
    """No random walk of the actors brings content to an old place that the answer hasn't."""
    found, old = flows(state, actors, o), set(state.label)
    tainted = spread(state, actors, {(OBJECT, o)})
    for _ in range(steps):
        s, asked = futures.by_actors(rnd, state, actors, some_action)
        tainted = carried(state, actors, tainted, s, asked)
        old &= set(state.label) if asked[0] == "delete" else old
        assert all(it in found for it in tainted if it[0] == SUBJECT or it[1] in old), (sorted(tainted), sorted(found))


def arrived(state, actors, o, asked):
    """The places that have the content of an object after requests of actors, each granted, of which none deletes; it is in that object alone at
    first. The state is changed as they say."""
    tainted = spread(state, actors, {(OBJECT, o)})
    for s, action in asked:
        assert s in actors and action[0] != "delete" and state.grants(s, action), (s, action, state.decide(s, action))
        tainted = carried(state, actors, tainted, s, action)
    return tainted


def brought(state, actors, o, way):
    """The script along a way carries the content to its end. Its requests."""
    for request in futures.released(state):
        assert state.apply(*request) == "yes"
    asked = script(futures.duplicate(state), actors, o, way)
    tainted = arrived(state, actors, o, asked)
    assert not state.accesses and {(OBJECT, o), *(place for place, _ in way)} <= tainted, (way, sorted(tainted))
    return asked


def main(seed=1, worlds=300):
    rnd, counts, words = random.Random(int(seed)), [0] * 4, Counter()
    for _ in range(int(worlds)):
        state, actors = futures.world(rnd)
        for o in sorted(state.label):
            found = flows(state, actors, o)
            for way in found.values():
                words.update(action[0] for _, action in brought(futures.duplicate(state), actors, o, way))
            counts[0] += len(found) - 1
            counts[1] += sum(any(isinstance(hand, tuple) for _, hand in path) for path in found.values())
            counts[2] += len(state.maximum) + len(state.label) - len(found)
            counts[3] += max(map(len, found.values()))
            if actors:
                for fresh in (False, True):
                    state.accesses -= state.accesses if fresh else set()
                    walk(rnd, futures.duplicate(state), actors, o, 150)
    print(f"{worlds} worlds: content could reach {counts[0]} places, {counts[1]} of them through an object that is made; {counts[2]} it never could; "
          f"{counts[3]} hands on the longest ways; the requests: {', '.join(f'{count} {it}' for it, count in sorted(words.items()))}")


if __name__ == "__main__":
    main(*sys.argv[1:])
