"""Where content of an object could ever flow, and by which script: `mls flow`, with answers by hand, and with those that flows.py finds in random
states by a fixpoint over all triples, where each script is fed to a service over a copy of the journal and brings the content where it is to."""
import json

import could_rows
import flows
import futures
from asking import GONE, HELD, OFFICE, OPENED, STANDARD, asks, journal_of, put_faulty, shown_below
from outside import in_its_folder, put, ran_program, same
from policy import MODES, OBJECTS, dominates, words_of
from question_texts import entry_of
from question_worlds import lines_of

# The examples of FORMATS.md: the words behind `mls flow`, and the status.
SHOWN = [("examples/office.json staff", [OFFICE, "staff"], 0), ("examples/office.json staff intern", [OFFICE, "staff", "intern"], 0),
         ("examples/standard.json plans bob", [STANDARD, "plans", "bob"], 4)]
answered, refused, not_understood = asks("flow")


def place_name(state, place):
    return state.subject(place[1]) if place[0] == flows.SUBJECT else state.object(place[1])


def hand_text(state, place, hand):
    """A hand, and the place to which content comes by it."""
    if isinstance(hand, tuple):
        return f"a new object below {state.object(hand[1])} (append) > {place_name(state, place)} (read)"
    return f"{place_name(state, place)} ({MODES[hand]})"


def line_of(state, o, place, way):
    """The line of a way: `down` stands behind an object whose label does not dominate that of the last object before."""
    text, before = f"{('subject', 'object')[place[0]]} {place_name(state, place)}: {state.object(o)}", o
    for at, hand in way:
        text += f" > {hand_text(state, at, hand)}"
        if at[0] == flows.OBJECT:
            text += "" if dominates(state.label[at[1]], state.label[before]) else ", down"
            before = at[1]
    return text + "\n"


def full(state):
    return "full: no object could be made without a delete\n" if state.profile == 2 and state.next >= OBJECTS else ""


def idle(name):
    """What is told of a subject that doesn't act."""
    return f"mls: {name}: it does not act (--all?)\n"


def listed(state, actors, o):
    """What `flow` prints of an object, and its status."""
    found = flows.flows(state, actors, o) if o in state.label else {}
    text = "".join(line_of(state, o, it, found[it]) for it in sorted(found) if found[it])
    return text + (full(state) if o in state.label else ""), 0 if text else 4


def script_of(state, actors, o, way):
    """The lines of the script along a way: releases of all that is held, and then the requests that carry the content."""
    freed, releases = futures.duplicate(state), futures.released(state)
    freed.accesses.clear()
    asked = [*releases, *flows.script(freed, actors, o, way)]
    return "".join(f"{state.subject(s)} {words_of(state, action)}\n" for s, action in asked)


def listed_to(state, actors, o, place):
    """What `flow` prints of an object and a place, and its status."""
    found = flows.flows(state, actors, o) if o in state.label else {}
    text = line_of(state, o, place, found[place]) + script_of(state, actors, o, found[place]) if place in found else "never\n"
    return text + (full(state) if o in state.label else ""), 0 if place in found else 4


# By hand, from POLICY.md's steps: ann and bob act in the standard start, of which nobody could write root. bob reads memo at C; sec gives him append
# of tool below root, and he appends at U.
TOLD = "object tool: memo > bob (read) > tool (append), down\n"
READS, APPENDS = "bob level C\nbob get-read memo\nbob release read memo\n", "bob level U\nbob get-append tool\nbob release append tool\n"
PERMITS = "sec get-write root\nsec give append bob tool\nsec release write root\n"
LISTED = [
    (STANDARD, "plans", "subject ann: plans > ann (read)\n", 0),
    (STANDARD, "memo", "subject bob: memo > bob (read)\n", 0),
    (STANDARD, "tool", "", 4),
    (STANDARD, "--by bob plans", "", 4),
    (STANDARD, "--all memo", "subject bob: memo > bob (read)\n" + TOLD, 0),
    (STANDARD, "--without ann,sec tool", "subject bob: tool > bob (read)\nobject memo: tool > bob (read) > memo (append)\n", 0),
    # one place, with the script: a subject, and one that never comes to it
    (STANDARD, "plans ann", "subject ann: plans > ann (read)\nann get-read plans\nann release read plans\n", 0),
    (STANDARD, "plans bob", "never\n", 4),
    # sec gives, and lowers plans to U; root is as low
    (STANDARD, "--all plans bob", "subject bob: plans > bob (read)\nsec get-write root\nsec give read bob plans\nsec release write root\n"
     "sec relabel plans U\nbob get-read plans\nbob release read plans\n", 0),
    # an object, behind two hands; what is permitted is got before anybody gives
    (STANDARD, "--all memo #3", TOLD + READS + PERMITS + APPENDS, 0),
    # what is held is released first, also for the one that has the content from the beginning, and by whom doesn't act
    (STANDARD, "plans plans", "object plans: plans\n", 0),
    (HELD, "plans plans", "object plans: plans\nann release read plans\n", 0),
    (HELD, "plans ann", "subject ann: plans > ann (read)\nann release read plans\nann get-read plans\nann release read plans\n", 0),
    (HELD, "--by bob memo bob", "subject bob: memo > bob (read)\nann release read plans\n" + READS, 0),
]
# Of a start in which a subject has the name of an object, and one reads high and appends low.
PEOPLE, PAPERS = ("ann", "log", "eve"), (("root", None, "U"), ("plans", "root", "C"), ("log", "root", "U"))
MADE = "plans > ann (write) > a new object below plans (append) >"
LOW = "object log: plans > ann (write) > log (append), down\n"
# ann writes plans at C; she makes an object below it for the subject log, or appends to the object log at U.
WRITES = "ann get-write plans\nann release write plans\n"
HANDS = ("ann get-write plans\nann create plans C lo\nann give append ann #3\nann give read log #3\nann release write plans\n"
         "ann get-append #3\nann release append #3\nlog get-read #3\nlog release read #3\n")
LOWERS = "ann level U\nann get-append log\nann release append log\n"
FULL = "full: no object could be made without a delete\n"


def twice(profile=1, others=0):
    """The start, with so many objects more that nobody is permitted anything of."""
    papers = [*PAPERS, *((f"o{it}", "root", "U") for it in range(others))]
    return json.dumps({
        "profile": profile, "security": {"levels": ["U", "C"], "categories": []}, "integrity": {"levels": ["lo"], "categories": []},
        "subjects": [{"name": it, "maximum": "C", "current": "C", "integrity": "lo", "trusted": False} for it in PEOPLE],
        "objects": [{"name": name, "parent": parent, "security": level, "integrity": "lo"} for name, parent, level in papers],
        "matrix": [{"subject": "ann", "object": "plans", "modes": ["write"]}, {"subject": "ann", "object": "log", "modes": ["append"]},
                   {"subject": "eve", "object": "log", "modes": ["read"]}],
    }).encode()


def flows_in_the_documents():
    """The examples of FORMATS.md, as they stand there."""
    for command, words, status in SHOWN:
        (_, text), = [it for it in shown_below(f"mls flow {command}") if not it[0]]
        answered(words, text, status)


def flows_by_hand():
    for start, words, text, status in LISTED:
        parts = words.split()
        count = {"--by": 2, "--without": 2, "--all": 1}.get(parts[0], 0)
        answered([*parts[:count], start, *parts[count:]], text, status)
    same(ran_program(["flow", STANDARD, "#4095"]), (4, b"", b"mls: #4095: there is no such object\n"))
    same(ran_program(["flow", STANDARD, "#4095", "ann"]), (4, b"never\n", b"mls: #4095: there is no such object\n"))
    same(ran_program(["flow", STANDARD, "plans", "#4095"]), (4, b"never\n", b"mls: #4095: there is no such object\n"))
    same(ran_program(["flow", STANDARD, "#4095", "#4095"]), (4, b"never\n", b"mls: #4095: there is no such object\n"))
    same(ran_program(["flow", STANDARD, "#4095", "#4094"]), (4, b"never\n", b"mls: #4095: there is no such object\nmls: #4094: there is no such object\n"))
    # a subject that doesn't act is told, unless the word is an object's
    for words, name in ((["plans", "sec"], "sec"), (["--by", "bob", "memo", "ann"], "ann"), (["--without", "ann", "plans", "ann"], "ann")):
        same((words, *ran_program(["flow", *words[:-2], STANDARD, *words[-2:]])), (words, 4, b"never\n", idle(name).encode()))
    same(ran_program(["flow", "--json", STANDARD, "plans", "sec"]), (4, b'{"answer":"never"}\n', idle("sec").encode()))
    same(ran_program(["flow", STANDARD, "#4095", "sec"]), (4, b"never\n", idle("sec").encode() + b"mls: #4095: there is no such object\n"))


def flows_to_what_has_two_names():
    """A subject comes before an object of its name; what is asked of may be an object by an option."""
    put("twice.json", twice())
    subjects = f"subject ann: plans > ann (write)\nsubject log: {MADE} log (read)\nsubject eve: {MADE} eve (read)\n"
    answered(["twice.json", "plans"], subjects + LOW, 0)
    answered(["twice.json", "plans", "log"], f"subject log: {MADE} log (read)\n" + WRITES + HANDS, 0)
    answered(["twice.json", "--as-object", "plans", "log"], LOW + WRITES + LOWERS, 0)
    answered(["twice.json", "--as-object", "--by", "log", "log", "plans"], "never\n", 4)


def flows_where_no_number_is_free():
    """Without a free number nothing goes through a new object; where one may become free that is told."""
    for profile in (1, 2):
        put("full.json", twice(profile, OBJECTS - len(PAPERS)))
        last = FULL if profile == 2 else ""
        answered(["full.json", "plans", "log"], "never\n" + last, 4)
        answered(["full.json", "--as-object", "plans", "log"], LOW + WRITES + LOWERS + last, 0)
        eve = "subject eve: plans > ann (write) > log (append), down > eve (read)\n"
        answered(["full.json", "plans"], "subject ann: plans > ann (write)\n" + eve + LOW + last, 0)


def flows_from_a_state_of_a_journal():
    """What is given and taken away by a journal."""
    journal_of(STANDARD, b"sec get-write root\nsec give append bob tool\nsec rescind read bob memo\n", b"yes\nyes\nyes\n", "flow.journal")
    for words, text, status in (("", "", 4), ("--at 1", "subject bob: memo > bob (read)\n", 0), ("--at 2", "subject bob: memo > bob (read)\n" + TOLD, 0)):
        answered([*words.split(), "--journal", "flow.journal", STANDARD, "memo"], text, status)
    answered(["--at", "2", "--journal", "flow.journal", STANDARD, "memo", "tool"], TOLD + "sec release write root\n" + READS + APPENDS, 0)


def flows_through_a_number_that_is_used_again():
    """A new object that has the number of a deleted one is named as START names that."""
    data = json.loads(twice(2))
    data["subjects"][1].update(maximum="U", current="U")
    data["matrix"].append({"subject": "ann", "object": "root", "modes": ["write"]})
    put("again.json", json.dumps(data).encode())
    journal_of("again.json", b"ann level U\nann get-write root\nann delete log\n", b"yes\nyes\nyes\n", "again.journal")
    line = "subject log: plans > ann (read) > a new object below root (append) > log (read)\n"
    reads = "ann get-write root\nann give read ann plans\nann release write root\nann level C\nann get-read plans\nann release read plans\n"
    makes = "ann level U\nann get-write root\nann create root U lo\nann give append ann log\nann give read log log\nann release write root\n"
    hands = "ann get-append log\nann release append log\nlog get-read log\nlog release read log\n"
    answered(["--journal", "again.journal", "again.json", "plans", "log"], line + "ann release write root\n" + reads + makes + hands, 0)


def scripts_that_are_run():
    """A script that FORMATS.md shows is answered yes line by line, and the object that it makes has the number that its lines say."""
    (_, text), = shown_below("mls flow examples/office.json staff intern")
    put("flow.script", "".join(text.splitlines(True)[1:]).encode())
    answers = ["yes"] * 3 + ["created 6"] + ["yes"] * 8
    told = "".join(f"{it}\n" for it in ["session 0", *answers, "entries 12", "secure yes"])
    same(ran_program(["run", OFFICE, "flow.script"]), (0, told.encode(), b""))


def faults_of_flows_in_their_order():
    put_faulty()
    for words, told, status in (
        ("no.json plans", f"no.json: {GONE}", 1), ("empty.json plans", "empty.json: start 1 Json: empty", 1),
        (f"--journal torn.journal {HELD} plans", "torn.journal: line 5: entry 1 BadForm", 1),
        (f"{HELD} plan", "plan: bad name (plans?)", 1), (f"{HELD} ann", "ann: bad name: it is a subject: mls about", 1),
        (f"--by bobb {HELD} plan boob", "plan: bad name (plans?)", 1), (f"--by bobb {HELD} plans boob", "boob: bad name (bob?)", 1),
        (f"{HELD} plans memmo", "memmo: bad name (memo?)", 1), (f"{HELD} --as-object plans bob", "bob: bad name: it is a subject: mls about", 1),
        (f"{HELD} --as-object plans memmo", "memmo: bad name (memo?)", 1), (f"--by bobb {HELD} plans bob", "bobb: bad name (bob?)", 1),
        (f"--without ann,#9 {HELD} plans", "#9: bad name", 1),
    ):
        refused(words.split(), told, status)


def words_that_ask_for_no_flow():
    put("opened.journal", OPENED)
    of = [HELD, "plans"]
    not_understood([HELD], ["--by", "ann", "--all", *of], ["--by", "ann", "--without", "bob", *of], ["--as-object", *of], ["--at", "1", *of],
                   [*of, "bob", "ann"], ["--ever", *of])


def carried_by_a_service(world, number, lines):
    """The requests of a script, each granted by a service over a copy of the journal before an entry."""
    put("flow.journal", lines_of(world.entries[:number]).encode())
    status, output, error = ran_program(["serve", "--journal", "flow.journal", world.start], "".join(lines).encode())
    same((status, error), (0, b""))
    first, *answers = output.decode().splitlines()
    same((first, len(answers)), (f"ready {number}", len(lines)))
    assert all(it == "yes" or it.startswith("created ") for it in answers), (lines, answers)
    with open("flow.journal", encoding="ascii") as file:
        entries = list(map(entry_of, list(file)[number:]))
    same([it.reply for it in entries], answers)
    return [(it.subject, it.action) for it in entries]


def brought_there(world, number, state, actors, o, place, lines):
    """A script does what it is to: releases of just what is held, then requests of actors, which carry the content to a place, and
    hold nothing in the end."""
    asked, count = carried_by_a_service(world, number, lines), len(state.accesses)
    same(asked[:count], futures.released(state))
    freed = futures.duplicate(state)
    freed.accesses.clear()
    assert place in flows.arrived(freed, actors, o, asked[count:]) and not freed.accesses, (place, lines)


def flows_to(world, number, state, words, actors, o, place):
    """A place that is asked for, by its name or number, and the script that is printed."""
    is_subject = place[0] == flows.SUBJECT
    ends = [f"#{o}", state.subject(place[1]) if is_subject else f"#{place[1]}"]
    files = [*([] if is_subject else ["--as-object"]), "--journal", world.journal, "--at", str(number), world.start]
    text, status = listed_to(state, actors, o, place)
    told = idle(ends[1]) if is_subject and place[1] not in actors else ""
    missing = [it for it in dict.fromkeys([o, *([] if is_subject else [place[1]])]) if it not in state.label]
    told += "".join(f"mls: #{it}: there is no such object\n" for it in missing)
    same((words, ends, *ran_program(["flow", *words, *files, *ends])), (words, ends, status, text.encode(), told.encode()))
    lines = [it for it in text.splitlines(True)[1:] if it != full(state)]
    if lines:
        brought_there(world, number, state, actors, o, place, lines)


def flows_by_chance(world):
    """Over a random state and some choice of actors: of some objects to each place; and to one place, by a way through an object that is made where
    there is one, by any way, and of any object to any place."""
    rnd = world.rnd
    number = rnd.randrange(len(world.entries) + 1)
    state = world.before(number)
    words, actors = could_rows.chosen(rnd, state)
    for o in rnd.sample(sorted(state.label), min(2, len(state.label))):
        answered([*words, "--journal", world.journal, "--at", str(number), world.start, f"#{o}"], *listed(state, actors, o))
    ways = {(o, place): way for o in sorted(state.label) for place, way in sorted(flows.flows(state, actors, o).items())}
    made = [it for it, way in ways.items() if any(isinstance(hand, tuple) for _, hand in way)]
    numbers = sorted({*state.label, 7})
    every = [(flows.SUBJECT, s) for s in sorted(state.maximum)] + [(flows.OBJECT, it) for it in numbers]
    for ends in (rnd.choice(made or [*ways]), rnd.choice([it for it, way in ways.items() if way] or [*ways]), (rnd.choice(numbers), rnd.choice(every))):
        flows_to(world, number, state, words, actors, *ends)


CHECKS = [*map(in_its_folder, [flows_in_the_documents, flows_by_hand, flows_to_what_has_two_names, flows_where_no_number_is_free,
           flows_from_a_state_of_a_journal, flows_through_a_number_that_is_used_again, scripts_that_are_run, faults_of_flows_in_their_order, words_that_ask_for_no_flow, ])]
# (it is asked of random states)
OF_WORLDS = [flows_by_chance]
