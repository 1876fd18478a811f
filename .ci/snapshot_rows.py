"""What `mls state --start` prints: texts that were worked out by hand from docs/POLICY.md and docs/FORMATS.md, and the start file of any state
in Python, from docs/FORMATS.md over the policy of policy.py."""
import json

import question_worlds as worlds
from asking import REUSED as IN_REUSED
from asking import GONE, STANDARD, asks, said, shown_below
from outside import EXAMPLES, example, examples, needs_proof, put, ran_program, same
from policy import KINDS, MODES, State, words_of

# A number that no object has.
NOBODY = 4000


_, refused, not_understood = asks("state", "--start")


def snapshot(*words):
    text, status = said("state", "--start", *words)
    same(status, 0)
    return text


# the start file of a state, in Python


def order(state):
    """The objects of a state: parents first, and of those that may come next the least."""
    found = []
    while len(found) < len(state.label):
        found.append(min(it for it in state.label if it not in found and (it == 0 or state.parent[it] in found)))
    return found


def names(state):
    """The new names of a state's objects, by their places."""
    found = []
    for o in order(state):
        number = o
        while o >= len(state.objects) and (f"o{number}" in state.objects or f"o{number}" in found):
            number += 1
        found.append(state.objects[o] if o < len(state.objects) else f"o{number}")
    return found


def rows(key, members):
    return f' "{key}": [' + (",".join("\n  " + it for it in members) + "\n " if members else "") + "]"


def start_text(state):
    sec, own = state.security.text, state.integrity.text
    objects, named = order(state), names(state)
    name = dict(zip(objects, named))

    def cells(table):
        found = []
        for s in sorted(state.maximum):
            for o in objects:
                modes = [it for x, it in enumerate(MODES) if (s, o, x) in table]
                found += [json.dumps({"subject": state.subjects[s], "object": name[o], "modes": modes})] if modes else []
        return found

    parts = [f' "profile": {state.profile}', f' "security": {json.dumps(state.security._asdict())}',
             f' "integrity": {json.dumps(state.integrity._asdict())}',
             rows("subjects", [json.dumps({"name": state.subjects[s], "maximum": sec(state.maximum[s]),
              "current": sec(state.current[s]), "integrity": own(state.own[s]), "trusted": s in state.trusted})
              for s in sorted(state.maximum)]),
             rows("objects", [json.dumps({"name": name[o], "parent": name[state.parent[o]] if o else None,
              "security": sec(state.label[o]), "integrity": own(state.trust[o])}) for o in objects]),
             rows("matrix", cells(state.matrix)), rows("accesses", cells(state.accesses))]
    return "{\n" + ",\n".join(parts) + "\n}\n"


def is_carried_over(state, text):
    """Asserts that a start file opens with a state, but for numbers."""
    found, objects = State(text), order(state)
    place = {o: k for k, o in enumerate(objects)}
    moved = lambda table: {(s, place[o], x) for s, o, x in table}
    of = lambda table: {k: table[o] for o, k in place.items()}
    same((found.profile, found.security, found.integrity, found.subjects), (state.profile, state.security, state.integrity, state.subjects))
    same((found.maximum, found.current, found.own, found.trusted), (state.maximum, state.current, state.own, state.trusted))
    same((found.label, found.trust, found.next), (of(state.label), of(state.trust), len(objects)))
    same(found.parent, {place[o]: place[parent] for o, parent in state.parent.items()})
    same((found.matrix, found.accesses), (moved(state.matrix), moved(state.accesses)))
    return place


def counts(state):
    """What `mls check` prints of a state that a start opens with."""
    held = f"accesses {len(state.accesses)}\n" if state.accesses else ""
    return f"subjects {len(state.subjects)}\nobjects {len(state.label)}\ncells {len(state.matrix)}\n{held}secure yes\n", 0


def goes_on(rnd, state, text, count=12):
    """Asserts that requests are answered over a start file as after the journal, with numbers carried over."""
    place, new = is_carried_over(state, text), State(text)
    lines, answers = [], []
    for _ in range(count):
        s, action = worlds.some_action(rnd, state)
        moved = [place.get(it, NOBODY) if kind == "object" else it for kind, it in zip(KINDS[action[0]], action[1:])]
        number, made = state.next, new.next
        reply = state.apply(s, action)
        answer = new.apply(s, (action[0], *moved))
        same(answer.split()[0] if reply.startswith("created") else answer, reply.split()[0] if reply.startswith("created") else reply)
        lines.append(f"#{s} {by_number(new, (action[0], *moved))}\n")
        answers.append(f"{answer}\n")
        if reply.startswith("created"):
            place[number] = made
        place = {o: k for o, k in place.items() if o in state.label}
    put("next.json", text.encode())
    put("next.script", "".join(lines).encode())
    same(said("run", "--serial", "next.json", "next.script"), (f"session 0\n{''.join(answers)}entries {count}\nsecure yes\n", 0))


def by_number(state, action):
    """An action as a script line has it, with the numbers of subjects and objects."""
    bare = State.__new__(State)
    bare.__dict__ = {**state.__dict__, "subjects": [], "objects": []}
    return words_of(bare, action)


# worked out by hand

# sec holds write on the root, has made an object in it, and gave bob read on that.
REUSED = b"0 0 2 get-write 0 yes\n1 0 2 create 0 2:1 1 created 4\n2 0 2 give read 1 4 yes\n"
AGAIN = {"profile": 2, "security": {"levels": ["U", "S"], "categories": ["A"]},
         "integrity": {"levels": ["lo", "hi"], "categories": []},
         "subjects": [{"name": "sec", "maximum": "S:A", "current": "U", "integrity": "hi", "trusted": True},
          {"name": "ann", "maximum": "S", "current": "U", "integrity": "lo", "trusted": False}, ],
         "objects": [{"name": "root", "parent": None, "security": "U", "integrity": "hi"}, {"name": "a",
          "parent": "root", "security": "U", "integrity": "hi"}, {"name": "o4", "parent": "root", "security": "U",
          "integrity": "lo"}, {"name": "b", "parent": "a", "security": "U", "integrity": "hi"}, ],
         "matrix": [{"subject": "sec", "object": "root", "modes": ["write"]}, {"subject": "sec", "object": "a",
          "modes": ["write"]}, {"subject": "ann", "object": "o4", "modes": ["read"]}, ]}
# The numbers of a and b are used again, for children of the object 4, whose own name has to be another than o4.
AGAIN_SCRIPT = b"""\
sec get-write root
sec create root U hi
sec create root U lo
sec give write sec #4
sec get-write #4
sec delete a
sec create #4 U hi
sec create #4 S lo
ann get-read o4
ann level S
"""
AGAIN_ANSWERS = "yes\ncreated 4\ncreated 5\nyes\nyes\nyes\ncreated 1\ncreated 3\nyes\nyes\n"
AGAIN_TEXT = """\
{
 "profile": 2,
 "security": {"levels": ["U", "S"], "categories": ["A"]},
 "integrity": {"levels": ["lo", "hi"], "categories": []},
 "subjects": [
  {"name": "sec", "maximum": "S:A", "current": "U", "integrity": "hi", "trusted": true},
  {"name": "ann", "maximum": "S", "current": "S", "integrity": "lo", "trusted": false}
 ],
 "objects": [
  {"name": "root", "parent": null, "security": "U", "integrity": "hi"},
  {"name": "o4", "parent": "root", "security": "U", "integrity": "lo"},
  {"name": "o5", "parent": "root", "security": "U", "integrity": "hi"},
  {"name": "a", "parent": "o5", "security": "U", "integrity": "hi"},
  {"name": "b", "parent": "o5", "security": "S", "integrity": "lo"},
  {"name": "o6", "parent": "root", "security": "U", "integrity": "lo"}
 ],
 "matrix": [
  {"subject": "sec", "object": "root", "modes": ["write"]},
  {"subject": "sec", "object": "o5", "modes": ["write"]},
  {"subject": "ann", "object": "o4", "modes": ["read"]}
 ],
 "accesses": [
  {"subject": "sec", "object": "root", "modes": ["write"]},
  {"subject": "sec", "object": "o5", "modes": ["write"]},
  {"subject": "ann", "object": "o4", "modes": ["read"]}
 ]
}
"""
# The first seven entries: a and b are gone, and nothing has their numbers.
AGAIN_BEFORE = """\
 "objects": [
  {"name": "root", "parent": null, "security": "U", "integrity": "hi"},
  {"name": "o4", "parent": "root", "security": "U", "integrity": "lo"},
  {"name": "o5", "parent": "root", "security": "U", "integrity": "hi"},
  {"name": "o6", "parent": "root", "security": "U", "integrity": "lo"}
 ],
"""


def state_in_the_documents():
    put("reused.journal", REUSED)
    first = next(shown_below("mls state --start"))
    same(snapshot(IN_REUSED, "reused.journal"), first[1])


def made_again():
    """A child of a smaller number than its parent, numbers and names that were used, names that are taken, accesses."""
    start = put("again.json", json.dumps(AGAIN).encode())
    put("again.script", AGAIN_SCRIPT)
    same(said("run", "--journal", "again.journal", start, "again.script"), (f"session 0\n{AGAIN_ANSWERS}entries 10\nsecure yes\n", 0))
    same(snapshot(start, "again.journal"), AGAIN_TEXT)
    found = snapshot("--at", "6", start, "again.journal")
    assert AGAIN_BEFORE in found, found
    # profile 1: numbers aren't used again, and are free in the new start
    one = put("one.json", json.dumps({**AGAIN, "profile": 1}).encode())
    put("one.script", AGAIN_SCRIPT.replace(b"sec create #4 S lo\n", b""))
    said("run", "--journal", "one.journal", one, "one.script")
    found = snapshot(one, "one.journal")
    assert '"name": "o6", "parent": "root"' in found and '"name": "o7", "parent": "o5"' in found, found
    assert "next 5\n" in said("state", put("next.json", found.encode()), put("no.journal", b""))[0]


def starts_that_stay():
    """A start without entries has its own text, and so has a text."""
    none = put("none.journal", b"")
    for name in examples():
        opening = State(example(f"{name}.json").decode())
        text = snapshot(f"{EXAMPLES}/{name}.json", none)
        same(text, start_text(opening))
        same(snapshot(put("same.json", text.encode()), none), text)


def journals_of_the_examples():
    for name in examples():
        start = f"{EXAMPLES}/{name}.json"
        said("run", "--journal", "run.journal", start, f"{EXAMPLES}/{name}.script")
        listed, _ = said("state", start, "run.journal")
        text = snapshot(start, "run.journal")
        new, _ = said("state", put("run.json", text.encode()), put("none.journal", b""))
        without = lambda lines, word: sorted(it for it in lines.split("\n") if not it.startswith(word))
        # the lines are the same, but for names: none of these has taken names, so only the number's sign differs
        same(without(new, "next"), sorted(it.replace("#", "o") for it in without(listed, "next")))
        same(said("check", "run.json"), counts(State(text)))


def services_that_go_on():
    """A service ends, and the next one has its state and a new journal."""
    start = put("again.json", json.dumps(AGAIN).encode())
    serve = lambda journal, file, script: ran_program(["serve", "--journal", journal, file], script)
    same(serve("first.journal", start, AGAIN_SCRIPT), (0, f"ready 0\n{AGAIN_ANSWERS}".encode(), b""))
    put("second.json", snapshot(start, "first.journal").encode())
    script = b"ann check read o4\nsec check write o5\nann get-read b\nsec create o5 U lo\nsec check write #2\n"
    same(serve("second.journal", "second.json", script), (0, b"ready 0\nheld\nheld\nno discretionary\ncreated 6\nheld\n", b""))
    same(said("replay", "second.json", "second.journal"), ("entries 2\nsecure yes\n", 0))


def faults_of_snapshots():
    put("one.journal", b"0 0 0 get-read 1 yes\n")
    put("torn.journal", b"0 0 0 get-read 1 yes")
    put("forged.journal", b"0 0 0 get-read 1 no star\n")
    refused(["--at", "2", STANDARD, "one.journal"], "one.journal: the journal has 1 entry")
    refused([STANDARD, "torn.journal"], "torn.journal: line 1: entry 1 BadForm")
    refused([STANDARD, "forged.journal"], "forged.journal: replay 2 Differs at 0 expected yes, found no star: another start's journal?", 3)
    refused(["no.json", "one.journal"], f"no.json: {GONE}")
    not_understood([STANDARD])


def many_cells(objects):
    """A start, without spaces, whose matrix has a cell for each of 256 subjects and so many objects."""
    data = {key: AGAIN[key] for key in ("security", "integrity")}
    data["subjects"] = [{**AGAIN["subjects"][1], "name": f"s{k}"} for k in range(256)]
    data["objects"] = [{**AGAIN["objects"][0], "name": f"x{k}", "parent": "x0" if k else None} for k in range(objects)]
    data["matrix"] = [{"subject": f"s{s}", "object": f"x{o}", "modes": ["read"]} for s in range(256) for o in range(objects)]
    return json.dumps(data, separators=(",", ":")).encode()


@needs_proof
def texts_at_their_limit():
    none = put("none.journal", b"")
    text = snapshot(put("fits.json", many_cells(500)), none)
    assert 7_000_000 < len(text) <= 8_388_608, len(text)
    same(said("check", put("fits.next.json", text.encode())), ("subjects 256\nobjects 500\ncells 128000\nsecure yes\n", 0))
    long = many_cells(590)
    assert len(long) <= 8_388_608, len(long)
    refused([put("long.json", long), none], "output: too long")


CHECKS = [state_in_the_documents, made_again, starts_that_stay, journals_of_the_examples, services_that_go_on,
          faults_of_snapshots, texts_at_their_limit]
