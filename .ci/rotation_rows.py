"""A start that was made of the state of a journal: `mls state --start --map`, and `mls journal`, `held` and `usage` with `--after`, with
answers that were worked out by hand, and over random journals as the others are answered with other names of objects."""
import copy
import json
import os

import json_rows
import question_texts as texts
import question_worlds as worlds
import snapshot_rows as snapshots
import spans
import usages
from asking import GONE, REUSED, STANDARD, asks, documents, shown_below
from outside import in_its_folder, put, ran_program, same
from policy import MODES, State

# The journal of the example of `state --start` in FORMATS.md: sec makes object 4, and gives bob read on it.
JOURNAL = b"0 0 2 get-write 0 yes\n1 0 2 create 0 2:1 1 created 4\n2 0 2 give read 1 4 yes\n"
NEXT = b"0 0 2 create 0 0 0 created 5\n1 0 2 give read 1 5 yes\n2 0 1 get-read 4 no simple\n3 0 1 get-read 5 yes\n"
MAP = b"0 0 root\n1 1 plans\n2 2 memo\n3 3 tool\n4 4 #4\n"
EXAMPLE = "mls journal --after reused.map"
# What is asked of the next journal, and what is printed.
LISTED = [
    (["journal"], "0 session 0 sec create root U lo: created 5\n1 session 0 sec give read bob +#5: yes\n2 session 0 bob get-read #4: no simple\n"
     "3 session 0 bob get-read +#5: yes\n", 0),
    (["journal", "--object", "#4"], "2 session 0 bob get-read #4: no simple\n", 0),
    (["journal", "--object", "+#5", "--reply", "created"], "0 session 0 sec create root U lo: created 5\n", 0),
    (["journal", "--object", "+#6"], "", 4),
    (["journal", "--object", "memo"], "", 4),
    (["journal", "--by", "bob", "--json"],
     '{"number":2,"session":0,"subject":1,"subject_name":"bob","action":"get-read","object":4,"object_name":"#4","reply":"no","reason":"simple"}\n'
     '{"number":3,"session":0,"subject":1,"subject_name":"bob","action":"get-read","object":5,"object_name":"+#5","reply":"yes"}\n', 0),
    (["journal", "--object", "#4", "--explain"],
     "2 session 0 bob get-read #4: no simple\n  discretionary holds: bob is permitted read of #4\n"
     "  simple fails: maximum C does not dominate S:B of #4\n  star fails: current U does not dominate S:B of #4\n"
     "  integrity holds: hi of #4 dominates lo of bob\n  remedy: none by level\n", 0),
    (["journal", "--summary", "--object", "+#5"], "entries 3\nbob yes 1\nsec yes 1\nsec created 1\n", 0),
    (["held"], "sec write root: start on\nbob read +#5: 3 on\n", 0),
    (["held", "--json"],
     '{"subject_name":"sec","mode":"write","object_name":"root","begin":null,"end":null,"by":null}\n'
     '{"subject_name":"bob","mode":"read","object_name":"+#5","begin":3,"end":null,"by":null}\n', 0),
    (["held", "--object", "+#5"], "bob read +#5: 3 on\n", 0),
    (["held", "--object", "#4"], "", 4),
]
# Maps that aren't that of the start, and one that is another start's.
UNFIT = [b"", MAP[:-1], MAP + b"\n", MAP + b"5 5 #5\n", MAP[:-5], MAP.replace(b"2 2 memo", b"2 2 mem"),
         MAP.replace(b"0 0 root\n1 1 plans\n", b"1 1 plans\n0 0 root\n"), MAP.replace(b"4 4 #4", b"4 4 #5"),
         MAP.replace(b"4 4 #4", b"4 5 #5"), MAP.replace(b"4 4 #4", b"4 4 o5"), MAP.replace(b"3 3 tool", b"3 3  tool"),
         MAP.replace(b"3 3 tool", b"3 03 tool"), MAP.replace(b"3 3 tool", b"3 tool"), MAP.replace(b"1 1", b"1 -1"),
         MAP.replace(b"\n", b"\r\n"), MAP.replace(b"plans", b"pl\xffns"), b"\x00" + MAP]


def rotated():
    """Makes the start, the journal and the map of the example, and the next journal."""
    put("reused.journal", JOURNAL)
    if os.path.exists("reused.map"):
        os.remove("reused.map")
    status, text, error = ran_program(["state", "--start", "--map", "reused.map", REUSED, "reused.journal"])
    same((status, error), (0, b""))
    put("next.json", text)
    put("next.journal", NEXT)
    return text.decode()


answered, refused, not_understood = asks()


def asked(words, text, status):
    words = [words[0], "--after", "reused.map", *words[1:], "next.json", "next.journal"]
    answered(words, text, status)
    if "--json" in words:
        json_rows.rows_of(words[0], text.encode())


def content(name):
    with open(name, "rb") as file:
        return file.read()


def a_map_of_a_state():
    text = rotated()
    same(content("reused.map"), MAP)
    same((0, text.encode(), b""), ran_program(["state", "--start", REUSED, "reused.journal"]))


def maps_in_the_documents():
    """The examples of FORMATS.md, as they stand there."""
    rotated()
    same(documents().count("\n    $ cat reused.map\n" + "".join(f"    {it}\n" for it in MAP.decode().splitlines())), 1)
    put("next.journal", NEXT[: NEXT.index(b"3 0")])
    shown = [text for _, text in shown_below(f"{EXAMPLE} ")]
    for words, text in zip((["journal"], ["journal", "--object", "#4"]), shown, strict=True):
        asked(words, text, 0)


def files_that_are_there():
    """No file is made anew, and no start is printed without its map."""
    put("reused.journal", JOURNAL)
    put("there", b"kept\n")
    there = "File exists (os error 17)"
    for path, why in (("there", there), (".", there), ("none/map", GONE), ("", GONE)):
        refused(["state", "--start", f"--map={path}", REUSED, "reused.journal"], f"{path}: {why}")
    same(content("there"), b"kept\n")
    os.symlink("nowhere", "link")
    refused(["state", "--start", "--map", "link", REUSED, "reused.journal"], f"link: {there}")
    put("torn.journal", JOURNAL[:-1])
    refused(["state", "--start", "--map", "unmade", REUSED, "torn.journal"], "torn.journal: line 3: entry 1 BadForm")
    same((os.path.exists("unmade"), os.path.exists("nowhere")), (False, False))


def what_is_told_after():
    rotated()
    for words, text, status in LISTED:
        asked(words, text, status)
    status, output, _ = ran_program(["usage", "--after", "reused.map", "next.json", "next.journal"])
    lines = output.decode().splitlines()
    same((status, [it for it in lines if "#" in it]), (4, ["bob read #4: 0 granted, 1 denied, last 2", "bob read +#5: 1 granted, 0 denied, last 3"]))


def objects_that_no_map_has():
    rotated()
    asked = lambda command, *words: [command, "--after", "reused.map", *words, "next.json", "next.journal"]
    for command in ("journal", "held"):
        for word in ("o4", "#5", "#0", "4", "+#4", "+#05", "+#4096", "roots", ""):
            refused(asked(command, f"--object={word}"), f"{word}: bad name")
        refused(asked(command, "--object", "x", "--subject", "zoe"), "zoe: bad name (bob?)")
    refused(asked("journal", "--object", "x", "--by", "zoe"), "zoe: bad name (bob?)")


def maps_that_do_not_fit():
    rotated()
    put("torn.journal", NEXT[:-1])
    put("empty.json", b"")
    for command in ("journal", "held", "usage"):
        for text in UNFIT:
            put("other.map", text)
            refused([command, "--after", "other.map", "next.json", "torn.journal"], "other.map: map")
        refused([command, "--after", "other.map", "empty.json", "torn.journal"], "empty.json: start 1 Json: empty")
        refused([command, "--after", "none.map", "empty.json", "torn.journal"], f"none.map: {GONE}")
        refused([command, "--after", "none.map", "next.json", "none.journal"], f"none.journal: {GONE}")
        refused([command, "--after", "reused.map", "next.json", "torn.journal"], "torn.journal: line 4: entry 1 BadForm")
    refused(["held", "--after", "reused.map", "--at", "9", "next.json", "next.journal"], "next.journal: the journal has 4 entries")


def words_that_have_no_map():
    not_understood(["state", "--map", "m", STANDARD, "j"], ["who", "--after", "m", STANDARD, "memo"],
                   ["state", "--start", "--after", "m", STANDARD, "j"])


def rotation_by_chance(world):
    """The map of a random state, and what a random journal over its start has, by the names of the map."""
    rnd = world.rnd
    if os.path.exists("start.map"):
        os.remove("start.map")
    text = snapshots.snapshot("--map", "start.map", world.start, world.journal)
    same(text, snapshots.start_text(world.last))
    old = snapshots.order(world.last)
    called = [world.last.object(it) for it in old]
    same(content("start.map").decode(), "".join(f"{new} {it} {name}\n" for new, (it, name) in enumerate(zip(old, called))))
    put("next.json", text.encode())
    opening = State(text)
    entries = worlds.journal(rnd, copy.deepcopy(opening), 20)
    put("next.journal", worlds.lines_of(entries).encode())
    opening.objects = called + [f"+#{it}" for it in range(len(called), 4096)]
    states = [copy.deepcopy(opening)]
    for it in entries:
        states.append(copy.deepcopy(states[-1]))
        states[-1].apply(it.subject, it.action)
    said = lambda *words: ran_program([words[0], "--after", "start.map", *words[1:], "next.json", "next.journal"])
    wanted = lambda found: (found[1], found[0].encode(), b"")
    same(said("journal"), wanted(texts.journal(opening, entries)))
    same(said("journal", "--json"), wanted(texts.objects(opening, entries)))
    same(said("journal", "--explain"), wanted(texts.explained_journal(lambda it: states[it], opening, entries)))
    same(said("held"), wanted(spans.listed(states, entries)))
    same(said("usage"), wanted(usages.listed(states, entries)))
    o = rnd.choice(sorted({it for state in states for it in state.label}))
    same(said("journal", "--object", opening.objects[o]), wanted(texts.journal(opening, texts.listed(opening, entries, object=o))))
    same(said("held", "--object", opening.objects[o]), wanted(spans.listed(states, entries, object=o)))
    chosen_by_chance(rnd, states, entries, said, wanted)


def chosen_by_chance(rnd, states, entries, said, wanted):
    """What chooses among entries and spans is heeded beside a map, as without one."""
    opening, first, last = states[0], *sorted(rnd.randrange(len(entries)) for _ in range(2))
    s, mode, reply = rnd.randrange(len(opening.subjects)), rnd.choice(MODES), rnd.choice(("yes", "no", "no discretionary", "created"))
    session, between = rnd.choice(entries).session, (f"--from={first}", f"--to={last}")
    listed = lambda **chosen: texts.journal(opening, texts.listed(opening, entries, **chosen))
    same(said("journal", *between), wanted(listed(first=first, last=last)))
    same(said("journal", f"--session={session}"), wanted(listed(session=session)))
    same(said("journal", f"--reply={reply}", f"--subject={opening.subjects[s]}"), wanted(listed(reply=reply, subject=s)))
    same(said("held", *between, f"--mode={mode}"), wanted(spans.listed(states, entries, mode=MODES.index(mode), first=first, last=last + 1)))
    same(said("held", f"--at={first}", f"--subject={opening.subjects[s]}"), wanted(spans.listed(states, entries, subject=s, first=first, last=first)))
    same(said("usage", *between), wanted(usages.listed(states, entries, first, last + 1)))


def names_of_all_numbers():
    """An object without a name gets that of an `o` and a number, which may be no object's: behind 4,095 where the start has all names before."""
    start = {**json.loads(content(STANDARD)), "accesses": []}
    row = {"parent": "root", "security": "U", "integrity": "lo"}
    names = [f"o{4092 + it}" for it in range(1, 5)]
    start["objects"] += [{"name": it, **row} for it in names] + [{"name": f"n{it}", **row} for it in range(4095 - len(start["objects"]) - len(names))]
    put("full.json", json.dumps(start).encode())
    put("full.journal", b"0 0 2 get-write 0 yes\n1 0 2 create 0 0 0 created 4095\n")
    if os.path.exists("full.map"):
        os.remove("full.map")
    status, text, error = ran_program(["state", "--start", "--map", "full.map", "full.json", "full.journal"])
    same((status, error, json.loads(text)["objects"][-1]["name"]), (0, b"", "o4097"))
    put("next.json", text)
    put("next.journal", b"0 0 2 give read 1 4095 yes\n")
    known = content("full.map")
    same(known.splitlines()[-1], b"4095 4095 #4095")
    full = ["journal", "--after", "full.map", "next.json", "next.journal"]
    answered(full, "0 session 0 sec give read bob #4095: yes\n")
    put("full.map", known.replace(b"4095 4095 #4095", b"4095 4096 #4096"))
    refused(full, "full.map: map")


CHECKS = [*map(in_its_folder, [a_map_of_a_state, names_of_all_numbers, maps_in_the_documents, files_that_are_there,
           what_is_told_after, objects_that_no_map_has, maps_that_do_not_fit, words_that_have_no_map, ])]
# (it is asked of random starts and journals)
OF_WORLDS = [rotation_by_chance]
