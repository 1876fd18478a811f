"""What there is to tell of a subject or of an object: `mls about`, with answers that were worked out by hand, and with what abouts.py tells over
random journals."""
import abouts
import time_rows
from asking import GONE, HELD, NO_TIME, OPENED, STANDARD, asks, put_faulty, put_marks, shown_below
from outside import in_its_folder, put
from question_rows import RELABELED

EXAMPLE = "mls about --journal held.journal examples/held.json "
about, refused, not_understood = asks("about")

# Objects 4 and 5 are made, the second below the first, and deleted with it; bob is given what is taken again, and what isn't given.
JOURNAL = b"""0 0 2 get-write 0 yes
1 0 2 create 0 1 0 created 4
2 0 2 give read 1 4 yes
3 0 2 relabel 4 0 yes
4 0 1 get-read 4 yes
5 0 0 give write 1 1 no authority
6 0 2 give append 2 4 yes
7 0 2 get-append 4 yes
8 0 2 create 4 0 0 created 5
9 0 1 get-write 1 no discretionary
10 0 2 rescind read 1 4 yes
11 0 2 delete 4 yes
"""
BOB = (
    "subject bob maximum C current U integrity lo\npermit bob append plans: no integrity, never\npermit bob read memo: no star, level C\n"
    "permit bob execute tool: yes\n"
)
TO_BOB = ["2 session 0 sec give read bob #4: yes\n", "5 session 0 ann give write bob plans: no authority\n",
          "10 session 0 sec rescind read bob #4: yes\n"]
ON_4 = ["1 session 0 sec create root C lo: created 4\n", "2 session 0 sec give read bob #4: yes\n", "3 session 0 sec relabel #4 U: yes\n",
        "6 session 0 sec give append sec #4: yes\n", "10 session 0 sec rescind read bob #4: yes\n", "11 session 0 sec delete #4: yes\n"]
AUD = (
    "subject aud maximum S:A current U integrity hi trusted\npermit aud read plans: yes\naud gives and rescinds root\naud level S:A C\n"
    + RELABELED.format("aud")
)
PLANS = (
    "object plans security S:A integrity hi parent root\nann read yes\nann write yes\nbob append no integrity, never\nsec write yes\n"
    "aud read yes\n"
)
OBJECT_4 = "object #4 security U integrity lo parent root\nchild #5\nbob read yes\nsec append yes\naccess bob read #4\naccess sec append #4\n"

# What is told without a journal.
OPENING = [([STANDARD, "bob"], BOB + "bob level C\n", 0), ([STANDARD, "aud"], AUD, 0),
           ([STANDARD, "memo"],
            "object memo security C integrity lo parent root\nann read no integrity, never\nbob read no star, level C\n"
            "sec append yes\nsec write no integrity, never\n", 0),
           ([STANDARD, "root"],
            "object root security U integrity hi\nchild plans\nchild memo\nchild tool\nsec write yes\n", 0),
           ([STANDARD, "#1"], PLANS, 0), (["--as-object", STANDARD, "plans"], PLANS, 0), ([STANDARD, "#4"], "", 4),
           ([STANDARD, "#65535"], "", 4)]
# What is told with the journal above.
TOLD = [(["bob"], BOB + "bob level C\n2 entries, 1 denied, last 9\n" + "".join(TO_BOB), 0),
        (["--at", "5", "bob"], BOB
         + "permit bob read #4: yes\naccess bob read #4\nbob level C\n1 entry, 0 denied, last 4\n" + TO_BOB[0], 0),
        (["--at", "0", "bob"], BOB + "bob level C\n0 entries, 0 denied\n", 0),
        (["aud"], AUD + "0 entries, 0 denied\n", 0), (["#4"], "".join(ON_4), 0),
        (["--at", "9", "#4"], OBJECT_4 + "".join(ON_4[:4]), 0), (["--at", "1", "#4"], "", 4),
        (["#5"], "8 session 0 sec create #4 U lo: created 5\n11 session 0 sec delete #4: yes\n", 0),
        (["--at", "8", "#5"], "", 4),
        (["--at", "9", "#5"],
         "object #5 security U integrity lo parent #4\n8 session 0 sec create #4 U lo: created 5\n", 0),
        (["plans"], PLANS, 0), (["#6"], "", 4)]

FIRST, SECOND = b"2026-11-27T10:00:00.000000Z", b"2026-11-27T11:00:00.000000Z"
MARKED = [
    (["bob"], BOB + f"bob level C\n2 entries, 1 denied, last 9 [-]\n[{FIRST.decode()}] {TO_BOB[0]}[{SECOND.decode()}] {TO_BOB[1]}[-] {TO_BOB[2]}", 0),
    (["--when", "2026-11-27T10:30:00Z", "bob"],
     BOB + f"permit bob read #4: no star, level C\nbob level C\n0 entries, 0 denied\n[{FIRST.decode()}] {TO_BOB[0]}", 0),
    (["--when", "2026-11-27T10:30:00Z", "#4"],
     "object #4 security C integrity lo parent root\nbob read no star, level C\n" + "".join(f"[{FIRST.decode()}] {it}" for it in ON_4[:2]), 0),
    (["--at", "5", "bob"], BOB + f"permit bob read #4: yes\naccess bob read #4\nbob level C\n1 entry, 0 denied, last 4 [{SECOND.decode()}]\n"
     f"[{FIRST.decode()}] {TO_BOB[0]}", 0),
]

# Words that name nothing, with the nearest name: of subjects and then of objects, and of objects alone.
UNNAMED = [("memmo", " (memo?)", " (memo?)"), ("boob", " (bob?)", " (root?)"), ("toob", " (tool?)", " (tool?)"),
           ("meb", " (bob?)", " (memo?)"), ("an", " (ann?)", ""), ("#01", "", ""), ("#65536", "", ""), ("#", "", ""),
           ("", "", ""), ("$x", "", ""), (35 * "p", "", "")]


def about_in_the_documents():
    """The examples of FORMATS.md, as they stand there."""
    put("held.journal", OPENED)
    first, second = shown_below(EXAMPLE)
    for name, text in (first, second):
        about(["--journal", "held.journal", HELD, name], text)


def about_what_a_start_opens_with():
    for words, text, status in OPENING:
        about(words, text, status)


def about_what_a_journal_tells():
    put("about.journal", JOURNAL)
    for words, text, status in TOLD:
        about(["--journal", "about.journal", *words[:-1], STANDARD, words[-1]], text, status)
    put("empty.journal", b"")
    about(["--journal", "empty.journal", STANDARD, "bob"], BOB + "bob level C\n0 entries, 0 denied\n", 0)
    about(["--journal", "empty.journal", STANDARD, "plans"], PLANS, 0)


def about_with_times():
    put("about.journal", JOURNAL)
    put_marks("about.marks", JOURNAL, [3, 9], [FIRST, SECOND])
    for words, text, status in MARKED:
        about(["--journal", "about.journal", "--marks", "about.marks", *words[:-1], STANDARD, words[-1]], text, status)


def about_names_that_two_have():
    """A subject comes before an object of its name, unless that is asked for."""
    with open(STANDARD, encoding="ascii") as file:
        put("two.json", file.read().replace('"plans"', '"bob"').encode())
    about(["two.json", "bob"], BOB.replace("plans", "bob") + "bob level C\n", 0)
    about(["--as-object", "two.json", "bob"], PLANS.replace("plans", "bob"), 0)
    about(["two.json", "#1"], PLANS.replace("plans", "bob"), 0)


def names_that_nothing_has():
    for word, near, near_object in UNNAMED:
        refused([STANDARD, "--", word], f"{word}: bad name{near}")
        refused(["--as-object", STANDARD, "--", word], f"{word}: bad name{near_object}")
    refused(["--as-object", STANDARD, "bob"], "bob: bad name")


def faults_of_about_in_their_order():
    put_faulty(JOURNAL, b"no authority")
    asked = lambda journal, *words: ["--journal", journal, *words, "file"]
    refused(asked("no.journal", "no.json"), f"no.json: {GONE}")
    refused(asked("no.journal", "empty.json"), f"no.journal: {GONE}")
    refused(asked("opened.journal", "--marks", "no.marks", STANDARD), f"no.marks: {GONE}")
    refused(asked("opened.journal", "--marks", "none.marks", STANDARD), "none.marks: line 1: mark")
    refused(["empty.json", "file"], "empty.json: start 1 Json: empty")
    refused(asked("torn.journal", STANDARD), "torn.journal: line 12: entry 1 BadForm")
    refused(asked("forged.journal", STANDARD), "forged.journal: replay 2 Differs at 5 expected no authority, found yes", 3)
    refused(asked("opened.journal", "--at", "13", STANDARD), "opened.journal: the journal has 12 entries")
    refused(asked("opened.journal", "--at", "12", STANDARD), "file: bad name")


def words_that_ask_about_nothing():
    put("about.journal", JOURNAL)
    asked, of, when = ["--journal", "about.journal"], [STANDARD, "bob"], ["--when", "2026-11-27"]
    not_understood([STANDARD], [*of, "ann"], ["--at", "0", *of], ["--marks", "m", *of], [], [*asked, *when, *of])
    not_understood([*asked, "--marks", "m", "--at", "1", *when, *of], [*asked, "--at", "x", *of], ["--as-object", "x", *of])
    refused(["--journal", "j", "--marks", "m", "--when", "now", *of], f"--when now: {NO_TIME}", 2)


def about_by_chance(world):
    """All subjects and some objects of a random journal, in some state, with marks or without; and in the start's opening."""
    rnd, count = world.rnd, len(world.entries)
    number = rnd.choice((count, rnd.randrange(count + 1)))
    states = [world.before(it) for it in range(number + 1)]
    files, told, found = ["--journal", world.journal], world.entries[:number], None
    if rnd.random() < 0.3:
        found = time_rows.marks_by_chance(rnd, world)
        files += ["--marks", time_rows.noted(found)]
    files += ["--at", str(number), world.start] if number < count or rnd.random() < 0.5 else [world.start]
    for s, name in enumerate(world.opening.subjects):
        about([*files, name], *abouts.of_subject(states[-1], s, told, found))
        about([world.start, name], *abouts.of_subject(world.opening, s))
    objects = sorted({it for state in states for it in state.label})
    for o in rnd.sample(objects, min(3, len(objects))) + [9]:
        about([*files, f"#{o}"], *abouts.of_object(states, o, told, found))
    name = rnd.choice(world.opening.objects)
    o = world.opening.objects.index(name)
    about([*rnd.choice(([], ["--as-object"])), *files, name], *abouts.of_object(states, o, told, found))
    about([world.start, name], *abouts.of_object([world.opening], o))


CHECKS = [*map(in_its_folder, [about_in_the_documents, about_what_a_start_opens_with, about_what_a_journal_tells,
           about_with_times, about_names_that_two_have, names_that_nothing_has, faults_of_about_in_their_order,
           words_that_ask_about_nothing, ])]
# (it is asked of random starts and journals)
OF_WORLDS = [about_by_chance]
