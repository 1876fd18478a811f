"""Whether an access could ever come about, and by which script: `mls could`, with answers by hand, and over random states, where each script is
fed to a service over a copy of the journal, and none of its lines behind the releases can be left out."""
import copy
import shutil

import could_rows
import futures
from asking import GONE, HELD, STANDARD, asks, put_faulty, shown_below
from outside import in_its_folder, ran_program, same
from policy import MODES
from question_texts import entry_of

# The examples of FORMATS.md: the words behind `mls could`, and the status.
SHOWN = [(["--all", STANDARD, "bob get-read plans"], "--all examples/standard.json 'bob get-read plans'", 0),
         ([STANDARD, "bob get-read plans"], "examples/standard.json 'bob get-read plans'", 4)]
answered, refused, not_understood = asks("could")

LISTED = [
    # the matrix permits it: bob needs a level
    (STANDARD, "bob get-read memo", "yes\nbob level C\nbob get-read memo\n", 0),
    (STANDARD, "ann get-read plans", "yes\nann get-read plans\n", 0),
    # what ann holds is released first
    (HELD, "bob get-read memo", "yes\nann release read plans\nbob level C\nbob get-read memo\n", 0),
    # sec gives at the root without holding anything, and the permission of a child while it holds write of the root
    (STANDARD, "--all ann get-write root", "yes\nsec give write ann root\nann level U\nann get-write root\n", 0),
    (STANDARD, "--by sec sec get-read plans", "yes\nsec get-write root\nsec give read sec plans\nsec get-read plans\n", 0),
    # bob appends at the least label, and nobody gives what integrity forbids
    (STANDARD, "--all bob get-append plans", "never\nintegrity: lo of bob does not dominate hi of plans\n", 4),
    (STANDARD, "--all ann get-write memo", "never\nintegrity: lo of memo does not dominate hi of ann\n", 4),
    (STANDARD, "--by ann sec get-read memo", "never\nactor: sec does not act\npermission: sec is not permitted read of memo, and nobody acts who could ever write root\n"
     "integrity: lo of memo does not dominate hi of sec\n", 4),
    (STANDARD, "ann get-append root", "never\npermission: ann is not permitted append of root, and no trusted subject acts\n", 4),
    (STANDARD, "#9 get-read #7", "never\nsubject: #9 is unknown\nobject: #7 is not active\n", 4),
    # it speaks of the object that is there now, and of those who act: sec could make #4 for bob, and ann holds what she is asked about
    (STANDARD, "--all bob get-read #4", "never\nobject: #4 is not active\n", 4),
    (HELD, "--by bob ann get-read plans", "never\nactor: ann does not act\n", 4),
]


def scripts_in_the_documents():
    """The examples of FORMATS.md, as they stand there."""
    for words, command, status in SHOWN:
        (_, text), = shown_below(f"mls could {command}")
        answered(words, text, status)


def scripts_by_hand():
    for start, words, text, status in LISTED:
        parts = words.split(" ")
        count = {"--by": 2, "--without": 2, "--all": 1}.get(parts[0], 0)
        answered([*parts[:count], start, " ".join(parts[count:])], text, status)


def faults_of_scripts_in_their_order():
    put_faulty()
    for words, told, status in (
        (["no.json", "x"], f"no.json: {GONE}", 1), (["--by", "bobb", HELD, "x"], "line: bad form: mls ask --help has the forms", 1),
        (["--by", "bobb", HELD, "bob get-read memmo"], "line: bad name: memmo (memo?)", 1), ([HELD, "bob release read memo"], "line: bad form: could asks of a get", 1),
        ([HELD, "bob check read memo"], "line: bad form: could asks of a get", 1), ([HELD, "bob release memo"], "line: bad form: could asks of a get", 1),
        ([HELD, "bob get-read"], "line: bad form: SUBJECT get-read OBJECT", 1), ([HELD, "$x = bob get-read memo"], "line: bad form: mls ask --help has the forms", 1),
        (["--by", "bobb", HELD, "bob get-read memo"], "bobb: bad name (bob?)", 1),
        (["--without", "ann,sek", HELD, "bob get-read memo"], "sek: bad name (sec?)", 1),
    ):
        refused(words, told, status)


def words_that_ask_for_no_script():
    line = "bob get-read memo"
    not_understood([HELD], [HELD, line, "read"], ["--by", "ann", "--all", HELD, line], ["--by", "ann", "--without", "bob", HELD, line],
                   ["--at", "1", HELD, line], ["--ever", HELD, line])


def granted(state, actions):
    """Whether each of some requests is answered yes; the state is changed as they say."""
    return all(state.apply(s, action) == "yes" for s, action in actions)


def served(world, state, lines, access):
    """The requests of a script, each answered yes by a service over a copy of the journal, after which the access is held."""
    shutil.copy(world.journal, "could.journal")
    s, o, x = access
    lines = [*lines, f"{state.subject(s)} check {MODES[x]} #{o}"]
    status, output, error = ran_program(["serve", "--journal", "could.journal", world.start], "".join(f"{it}\n" for it in lines).encode())
    answers = output.decode().splitlines()
    same((status, error, answers), (0, b"", [f"ready {len(world.entries)}", *["yes"] * (len(lines) - 1), "held"]))
    with open("could.journal", encoding="ascii") as file:
        return [(it.subject, it.action) for it in map(entry_of, list(file)[len(world.entries):])]


def brought_about(world, state, actors, access, lines):
    """A script does what it is to: releases of just what is held, then requests of actors, of which none can be left out."""
    asked = served(world, state, lines, access)
    count = len(state.accesses)
    same(asked[:count], futures.released(state))
    freed = copy.deepcopy(state)
    assert granted(freed, asked[:count]) and not freed.accesses
    behind = asked[count:]
    assert {s for s, _ in behind} <= actors, behind
    for n in range(len(behind)):
        after = copy.deepcopy(freed)
        assert not (granted(after, behind[:n] + behind[n + 1:]) and access in after.accesses), (n, behind)


def scripts_by_chance(world):
    """Accesses of a random state, by some choice of actors; requests of these never come to hold anything else."""
    rnd, state = world.rnd, world.last
    words, actors = could_rows.chosen(rnd, state)
    could = futures.closure(state, actors)[0]
    every = [(s, o, x) for s in sorted(state.maximum) for o in sorted(state.label) for x in range(len(MODES))]
    some = rnd.sample(every, min(6, len(every))) + rnd.sample(sorted(could - state.matrix), min(4, len(could - state.matrix)))
    for s, o, x in some:
        line = f"{state.subject(s)} get-{MODES[x]} #{o}"
        status, output, error = ran_program(["could", *words, "--journal", world.journal, world.start, line])
        first, *lines = output.decode().splitlines()
        wanted = ("yes", 0) if (s, o, x) in could else ("never", 4)
        same((line, words, first, status, error), (line, words, *wanted, b""))
        if status == 0:
            brought_about(world, state, actors, (s, o, x), lines)
        else:
            assert lines, line
    if actors:
        futures.walk(rnd, futures.duplicate(state), actors, could, 200)


CHECKS = [*map(in_its_folder, [scripts_in_the_documents, scripts_by_hand, faults_of_scripts_in_their_order, words_that_ask_for_no_script])]
# (it is asked of random states)
OF_WORLDS = [scripts_by_chance]
