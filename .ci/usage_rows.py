"""How permissions were used: `mls usage`, with answers by hand, and with answers that usages.py finds in all states of random journals."""
import json

import time_rows
import usages
from asking import GONE, HELD, NO_TIME, OPENED, REUSED, STANDARD, asks, journal_of, part_by_chance, put_faulty, put_marks
from outside import example, in_its_folder, put, ran_program, same
from span_rows import ANSWERS, SCRIPT

# Over the journal of the example in FORMATS.md.
OF_OPENED = """ann read plans: 2 granted, 0 denied, last 3, held at start
ann write plans: never asked
ann read memo: never asked
ann execute tool: never asked
bob append plans: never asked
bob read memo: 0 granted, 1 denied, last 1
bob execute tool: never asked
sec write root: 1 granted, 0 denied, last 4
sec write plans: never asked
sec append memo: never asked
sec write memo: never asked
aud read plans: never asked
sec trust: never used
aud trust: never used
12 permissions, 10 never granted
"""
# Over the journal of the script of span_rows.py: of each permission the line, where it isn't `never asked`.
WHOLE = {
    "ann read plans": "1 granted, 0 denied, last 4", "ann write plans": "", "ann read memo": "", "ann execute tool": "",
    "ann read #4": "1 granted, 0 denied, last 3", "ann read #5": "2 granted, 0 denied, last 10", "bob append plans": "", "bob read memo": "",
    "bob execute tool": "", "sec write root": "1 granted, 0 denied, last 0", "sec write plans": "", "sec append memo": "", "sec write memo": "",
    "sec write #4": "1 granted, 0 denied, last 6", "aud read plans": "",
}
PART = {**WHOLE,
        **dict.fromkeys(("ann read plans", "ann read #4", "sec write root"), "0 granted, 0 denied, last start"),
        "ann read #5": "1 granted, 0 denied, last 9"}
ENDED = {it: "" for it in WHOLE if "#" not in it and it != "ann read plans"}
BEGUN = {**ENDED, "sec write root": WHOLE["sec write root"]}


told_as, refused, not_understood = asks("usage")


def answered(words, text):
    told_as(words, text, 0 if text.endswith(", 0 never granted\n") else 4)


# What is told of the trust in sec and in aud, where it isn't used.
UNUSED = "sec trust: never used\naud trust: never used\n"


def text_of(rows, trust="never used"):
    lines = "".join(f"{access}: {uses or 'never asked'}\n" for access, uses in rows.items())
    return lines + UNUSED.replace("never used", trust, 1) + f"{len(rows)} permissions, {sum(not it for it in rows.values())} never granted\n"


def start_of(name, **members):
    """A start file like the standard one, with these members."""
    return put(name, json.dumps({**json.loads(example("standard.json")), **members}).encode())


def permissions_and_their_uses():
    """Permissions of the start and such that are given, over a whole journal and over parts of it."""
    journal_of(STANDARD, SCRIPT, ANSWERS, "held.journal")
    order = ["ann read plans", "ann write plans", "ann read memo", "ann execute tool"]
    assert list(WHOLE)[:4] == order
    # (sec gets write of #4, which is S:A, at U)
    trust = "1 granted, last 6"
    answered([STANDARD, "held.journal"], text_of(WHOLE, trust))
    answered(["--from", "0", "--to", "18446744073709551615", STANDARD, "held.journal"], text_of(WHOLE, trust))
    answered(["--from", "5", "--to", "9", STANDARD, "held.journal"], text_of(PART, trust))
    answered(["--from", "15", STANDARD, "held.journal"], text_of(ENDED))
    answered(["--from", "14", "--to", "14", STANDARD, "held.journal"], text_of({**ENDED, "sec write root": "0 granted, 0 denied, last start"}))
    answered(["--to", "0", STANDARD, "held.journal"], text_of({"ann read plans": "", **BEGUN}))


def uses_of_what_a_start_opens_with():
    put("opened.journal", OPENED)
    put("empty.journal", b"")
    answered([HELD, "opened.journal"], OF_OPENED)
    text = "".join(f"{it}: never asked\n" for it in ("ann read plans", *ENDED)) + UNUSED + "12 permissions, 12 never granted\n"
    answered([STANDARD, "empty.journal"], text)
    held = text.replace("plans: never asked", "plans: 0 granted, 0 denied, last start", 1).replace("12 never", "11 never")
    answered([HELD, "empty.journal"], held)
    answered(["--from", "1", "--to", "2", HELD, "opened.journal"], held.replace("memo: never asked\nbob ex", "memo: 0 granted, 1 denied, last 1\nbob ex"))


def uses_before_the_states():
    """What is held as a part begins is no grant of the part; but it isn't one that was never granted, and a tightened start keeps it."""
    script = b"ann get-read plans\nann release read plans\nann level U\nann get-read plans\n"
    journal_of(STANDARD, script, b"yes\nyes\nyes\nno star\n", "held.journal")
    files = ["--subject", "ann", "--object", "plans", STANDARD, "held.journal"]
    ending = "ann write plans: never asked\n2 permissions, "
    for words, uses, unused in (([], "1 granted, 1 denied, last 3", 1), (["--from", "1"], "0 granted, 1 denied, last 3, held at start", 1),
                                (["--from", "1", "--to", "2"], "0 granted, 0 denied, last start", 1), (["--from", "2"], "0 granted, 1 denied, last 3", 2),
                                (["--from", "2", "--to", "2"], "never asked", 2)):
        answered([*words, *files], f"ann read plans: {uses}\n{ending}{unused} never granted\n")
        kept = json.loads(ran_program(["usage", "--tighten", *words, *files])[1])["matrix"]
        same((words, [it["modes"] for it in kept if (it["subject"], it["object"]) == ("ann", "plans")]), (words, [["read"]] if unused == 1 else []))


def gets_without_the_permission():
    """A get before a permission is given, and one after it is rescinded, are no uses of it; without permissions there is nothing to grant.
    Over the root trust alone gives authority."""
    start = start_of("few.json", matrix=[{"subject": "sec", "object": "root", "modes": ["write"]}])
    script = b"ann get-read root\nsec give read ann root\nann get-read root\nsec rescind read ann root\nann get-read root\n"
    journal_of(start, script, b"no discretionary\nyes\nyes\nyes\nno discretionary\n", "held.journal")
    never = "sec write root: never asked\n"
    last = never + UNUSED
    twice, once, given = (never + UNUSED.replace("never used", it, 1) for it in ("2 granted, last 3", "1 granted, last 3", "1 granted, last 1"))
    answered([start, "held.journal"], f"ann read root: 1 granted, 0 denied, last 2\n{twice}2 permissions, 1 never granted\n")
    answered(["--from", "3", start, "held.journal"], f"ann read root: 0 granted, 0 denied, last start\n{once}2 permissions, 1 never granted\n")
    answered(["--to", "1", start, "held.journal"], f"ann read root: never asked\n{given}2 permissions, 2 never granted\n")
    answered(["--from", "4", start, "held.journal"], f"{last}1 permission, 1 never granted\n")
    answered(["--to", "0", start, "held.journal"], f"{last}1 permission, 1 never granted\n")
    journal_of(start, b"sec get-write root\nsec get-write root\n", b"yes\nyes\n", "held.journal")
    answered([start, "held.journal"], f"sec write root: 2 granted, 0 denied, last 1\n{UNUSED}1 permission, 0 never granted\n")
    answered([start_of("none.json", matrix=[]), put("empty.journal", b"")], f"{UNUSED}0 permissions, 0 never granted\n")


def permissions_of_a_number_that_is_used_again():
    script = b"sec get-write root\nann get-read plans\nsec delete plans\n$x = sec create root S:A hi\nsec give read ann $x\nann get-read $x\n"
    journal_of(REUSED, script, b"yes\nyes\nyes\ncreated 1\nyes\nyes\n", "held.journal")
    for words, count in (([], 2), (["--from", "3"], 1)):
        status, output, _ = ran_program(["usage", *words, REUSED, "held.journal"])
        same((status, output.splitlines()[0]), (4, b"ann read plans: %d granted, 0 denied, last 5" % count))


def uses_with_times():
    """The times of the last uses, and the states that are asked for by time; where there is none, no permission."""
    put("opened.journal", OPENED)
    times = [b"2026-11-27T10:00:00.000000Z", b"2026-11-27T11:00:00.000000Z"]
    put_marks("opened.marks", OPENED, [2, 4], times)
    files = ["--marks", "opened.marks", HELD, "opened.journal"]
    told = OF_OPENED.replace("last 3,", "last 3 [2026-11-27T11:00:00.000000Z],").replace("last 4\n", "last 4 [-]\n")
    told = told.replace("last 1\n", "last 1 [2026-11-27T10:00:00.000000Z]\n")
    answered(files, told)
    answered(["--since", "2026-11-26", *files], told)
    # (START opens with the access that the first entry asks for)
    early = OF_OPENED.replace("2 granted, 0 denied, last 3,", "1 granted, 0 denied, last 0 [2026-11-27T10:00:00.000000Z],")
    early = early.replace("last 1\n", "last 1 [2026-11-27T10:00:00.000000Z]\n").replace("1 granted, 0 denied, last 4\n", "never asked\n")
    early = early.replace("10 never", "11 never")
    answered(["--until", "2026-11-27T10:30:00Z", *files], early)
    late = "".join(f"{line.split(':')[0]}: never asked\n" for line in OF_OPENED.splitlines()[:-3]) + UNUSED + "12 permissions, 10 never granted\n"
    late = late.replace("ann read plans: never asked", "ann read plans: 0 granted, 0 denied, last start")
    late = late.replace("sec write root: never asked", "sec write root: 1 granted, 0 denied, last 4 [-]")
    answered(["--since", "2026-11-28", *files], late)
    refused(["--since", "2026-11-28", "--until", "2026-11-27", *files], "--since 2026-11-28: behind --until 2026-11-27", 2)
    answered(["--from", "4", "--until", "2026-11-27T10:00:00Z", *files], "0 permissions, 0 never granted\n")


def faults_of_uses_in_their_order():
    put_faulty()
    refused(["no.json", "no.journal"], f"no.json: {GONE}")
    refused(["empty.json", "no.journal"], f"no.journal: {GONE}")
    refused(["empty.json", "torn.journal"], "empty.json: start 1 Json: empty")
    refused([HELD, "torn.journal"], "torn.journal: line 5: entry 1 BadForm")
    refused(["--from", "9", HELD, "forged.journal"], "forged.journal: replay 2 Differs at 1 expected no star, found yes", 3)
    refused(["--from", "6", HELD, "opened.journal"], "opened.journal: the journal has 5 entries")
    refused(["--from", "3", "--to", "2", "no.json", "no.journal"], "--from 3: above --to 2", 2)
    refused(["--marks", "no.marks", "empty.json", "no.journal"], f"no.marks: {GONE}")
    refused(["--marks", "none.marks", HELD, "opened.journal"], "none.marks: line 1: mark")
    for option in ("--since", "--until"):
        refused(["--marks", "no.marks", option, "now", "no.json", "no.journal"], f"{option} now: {NO_TIME}", 2)


def words_that_ask_for_no_uses():
    put("opened.journal", OPENED)
    asked = [HELD, "opened.journal"]
    not_understood([], [HELD], [*asked, "x"], ["--at", "1", *asked], ["--marks", "m", "--when", "2026-11-27", *asked])
    not_understood(*([option, it, *asked] for option in ("--from", "--to") for it in ("-1", "x", "", "18446744073709551616")))
    not_understood(*([option, "2026-11-27", *asked] for option in ("--since", "--until")))


def uses_by_chance(world):
    """The uses of all permissions over a random journal, and over parts of it."""
    rnd, count = world.rnd, len(world.entries)
    states = [world.before(number) for number in range(count + 1)]
    for turn in range(4):
        _, words, asked = part_by_chance(rnd, count, turn and ("from", "to", "between"))
        if rnd.random() < 0.4:
            found = time_rows.marks_by_chance(rnd, world)
            by_time, asked = time_rows.states_by_chance(rnd, found, asked, True)
            words, asked = [*words, *by_time], {**asked, "marks": found}
        text, status = usages.listed(states, world.entries, **asked)
        told_as([*words, world.start, world.journal], text, status)


CHECKS = [*map(in_its_folder, [permissions_and_their_uses, uses_with_times, uses_of_what_a_start_opens_with,
           uses_before_the_states, gets_without_the_permission, permissions_of_a_number_that_is_used_again, faults_of_uses_in_their_order,
           words_that_ask_for_no_uses, ])]
# (it is asked of random starts and journals)
OF_WORLDS = [uses_by_chance]
