"""Who held what: `mls held`, with answers by hand, and with answers that spans.py finds in all states of random journals."""
import spans
import time_rows
from asking import (
    GONE, HELD, NO_TIME, OPENED, REUSED, STANDARD, asks, journal_of, packed, part_by_chance, put_faulty, put_marks, shown_below,
)
from outside import example, in_its_folder, put, same
from policy import MODES

OF_OPENED = ["ann read plans: start to 2, release\n", "ann read plans: 3 on\n", "sec write root: 4 on\n"]

SCRIPT = b"""sec get-write root
$x = sec create root S:A hi
sec give read ann $x
ann get-read $x
ann get-read plans
sec give write sec $x
sec get-write $x
$y = sec create $x S:A hi
sec give read ann $y
ann get-read $y
ann get-read $y
sec rescind read ann plans
sec delete $x
ann release read plans
sec release write root
"""
ANSWERS = b"yes\ncreated 4\nyes\nyes\nyes\nyes\nyes\ncreated 5\n" + 7 * b"yes\n"
SPANS = ["sec write root: 0 to 14, release\n", "ann read #4: 3 to 12, delete\n", "ann read plans: 4 to 11, rescind\n",
         "sec write #4: 6 to 12, delete\n", "ann read #5: 9 to 12, delete\n"]
# What is asked of its journal, and which of these lines are printed.
LISTED = packed("""
    : 0 1 2 3 4 | --subject ann : 1 2 4 | --subject #2 : 0 3 | --subject bob : | --subject #9 : | --object #4 : 1 3
    --object plans : 2 | --object #5 --subject sec : | --object #4095 : | --mode write : 0 3 | --mode append :
    --mode read --subject ann --object #4 : 1 | --at 0 : | --at 1 : 0 | --at 4 : 0 1 | --at 11 : 0 1 2 3 4
    --at 12 : 0 1 3 4 | --at 13 : 0 | --at 14 : 0 | --at 15 : | --from 12 : 0 1 3 4 | --from 15 :
    --from 11 --mode read : 1 2 4 | --to 0 : 0 | --to 2 : 0 | --to 3 : 0 1 | --to 18446744073709551615 : 0 1 2 3 4
    --from 13 --to 13 : 0 | --from 12 --to 99 --subject ann : 1 4 | --from 0 --to 4 : 0 1 2
""")
# The batches of its journal end before these entries; the last two have no mark.
ENDS, TIMES = [5, 9, 13], [b"2026-11-27T10:00:00.000000Z", b"2026-11-27T11:00:00.000000Z", b"2026-11-27T12:00:00.000000Z"]
TEN, ELEVEN, NOON = (f"[{it.decode()}]" for it in TIMES)
TIMED = [f"sec write root: 0 {TEN} to 14 [-], release\n", f"ann read #4: 3 {TEN} to 12 {NOON}, delete\n",
         f"ann read plans: 4 {TEN} to 11 {NOON}, rescind\n", f"sec write #4: 6 {ELEVEN} to 12 {NOON}, delete\n",
         f"ann read #5: 9 {NOON} to 12 {NOON}, delete\n"]
# What is asked of it with these marks, and which of these lines are printed.
MARKED = packed("""
    : 0 1 2 3 4 | --when 2026-11-27T10:00:00Z : 0 1 2 | --when 2026-11-27T12:59:59+01:00 : 0 1 2 3 | --when 2026-11-28 : 0
    --since 2026-11-27T11:30:00Z : 0 1 2 3 4 | --since 2026-11-28 : 0 | --until 2026-11-27T10:30:00Z : 0 1 2
    --until 2026-11-26 : | --since 2026-11-27T10:30:00Z --until 2026-11-27T11:00:00Z --mode write : 0 3
    --since 2026-11-27T10:30:00Z --to 5 : 0 1 2 | --on 2026-11-27 : 0 1 2 3 4 | --on 2026-11-28 : 0 | --on 2026-11-26 :
    --from 13 --until 2026-11-27T11:00:00Z : | --from 13 --since 2026-11-27 --subject ann : | --at 12 --subject sec : 0 3
""")
answered, refused, not_understood = asks("held")
# The example with times of FORMATS.md: its command, and with which words it stands there.
WITH_TIMES = "mls held --marks held.marks "
OF_TIMES = ["--since 2026-11-27T11:30:00Z", "--subject ann"]


def spans_that_are_held():
    """Each way in which an access begins and ends; what is asked for, alone and together."""
    journal_of(STANDARD, SCRIPT, ANSWERS, "held.journal")
    for words, places in LISTED:
        answered([*words, STANDARD, "held.journal"], [SPANS[int(it)] for it in places])


def spans_with_times():
    """The entries' times, and the states that are asked for by time; the example of FORMATS.md, as it stands there."""
    journal_of(STANDARD, SCRIPT, ANSWERS, "held.journal")
    put_marks("held.marks", open("held.journal", "rb").read(), ENDS, TIMES)
    for words, places in MARKED:
        answered(["--marks", "held.marks", *words, STANDARD, "held.journal"], [TIMED[int(it)] for it in places])
    put("held.journal", OPENED)
    put_marks("held.marks", OPENED, [3], TIMES[1:2])
    shown = [*shown_below(WITH_TIMES)]
    same([words for words, _ in shown], [f"{it} examples/held.json held.journal" for it in OF_TIMES])
    for words, text in shown:
        answered(["--marks", "held.marks", *words.split()[:-2], HELD, "held.journal"], text)


def spans_of_what_a_start_opens_with():
    put("opened.journal", OPENED)
    put("empty.journal", b"")
    for words, lines in (([], OF_OPENED), (["--at", "0"], OF_OPENED[:1]), (["--at", "3"], []), (["--from", "3"], OF_OPENED[1:]),
                         (["--to", "1"], OF_OPENED[:1])):
        answered([*words, HELD, "opened.journal"], lines)
    answered([HELD, "empty.journal"], "ann read plans: start on\n")
    answered(["--at", "0", HELD, "empty.journal"], "ann read plans: start on\n")
    answered([STANDARD, "empty.journal"], "")
    more = example("held.json").rstrip()
    order = b'{"subject": "sec", "object": "plans", "modes": ["write"]}, {"subject": "sec", "object": "root", "modes": ["write"]}, '
    assert more.count(b'"accesses": [') == 1
    put("more.json", more.replace(b'"accesses": [', b'"accesses": [' + order))
    answered(["more.json", "empty.journal"], [f"{it}: start on\n" for it in ("ann read plans", "sec write root", "sec write plans")])


def objects_that_have_a_number_again():
    """In profile 2 the number of an object that was deleted is given again, with its name where START has one: its spans are told alike."""
    script = b"sec get-write root\nann get-read plans\nsec delete plans\n$x = sec create root S:A hi\nsec give read ann $x\nann get-read $x\n"
    script += b"sec delete $x\n$x = sec create root U hi\nsec give write sec $x\nsec get-write $x\nann check read $x\n"
    answers = b"yes\nyes\nyes\ncreated 1\nyes\nyes\nyes\ncreated 1\nyes\nyes\n"
    journal_of(REUSED, script[: script.rindex(b"ann check")], answers, "held.journal")
    lines = ["sec write root: 0 on\n", "ann read plans: 1 to 2, delete\n", "ann read plans: 5 to 6, delete\n", "sec write plans: 9 on\n"]
    answered([REUSED, "held.journal"], lines)
    answered(["--object", "plans", REUSED, "held.journal"], lines[1:])
    answered(["--object", "#1", "--mode", "read", REUSED, "held.journal"], lines[1:3])


def faults_of_spans_in_their_order():
    put_faulty()
    names = ["--subject", "zoe", "--object", "file"]
    refused([*names, "no.json", "no.journal"], f"no.json: {GONE}")
    refused([*names, "empty.json", "no.journal"], f"no.journal: {GONE}")
    refused([*names, "empty.json", "torn.journal"], "empty.json: start 1 Json: empty")
    refused([*names, HELD, "torn.journal"], "torn.journal: line 5: entry 1 BadForm")
    refused([*names, HELD, "forged.journal"], "forged.journal: replay 2 Differs at 1 expected no star, found yes", 3)
    for option in ("--at", "--from"):
        refused([*names, option, "6", HELD, "opened.journal"], "opened.journal: the journal has 5 entries")
    refused([*names, "--at", "5", HELD, "opened.journal"], "zoe: bad name (bob?)")
    refused([*names, "--to", "6", HELD, "opened.journal"], "zoe: bad name (bob?)")
    refused([*names[2:], "--subject", "ann", HELD, "opened.journal"], "file: bad name")
    for word, meant in (("", ""), ("#", ""), ("#01", ""), ("#65536", ""), ("$x", ""), ("Plans", " (plans?)"), ("plans ", " (plans?)"), ("ann", ": it is a subject: mls about")):
        refused([f"--object={word}", HELD, "opened.journal"], f"{word}: bad name{meant}")
    refused(["--from", "3", "--to", "2", "no.json", "no.journal"], "--from 3: above --to 2", 2)
    put_marks("early.marks", OPENED, [3], TIMES[1:2])
    refused([*names, "--marks", "no.marks", "empty.json", "no.journal"], f"no.marks: {GONE}")
    refused([*names, "--marks", "none.marks", HELD, "opened.journal"], "none.marks: line 1: mark")
    refused([*names, "--marks", "early.marks", "--when", "2026-11-27", HELD, "opened.journal"], "early.marks: no mark by then")
    for option in ("--when", "--since", "--until"):
        refused(["--marks", "no.marks", option, "now", "no.json", "no.journal"], f"{option} now: {NO_TIME}", 2)


def words_that_ask_for_no_spans():
    put("opened.journal", OPENED)
    asked, date, beside = [HELD, "opened.journal"], "2026-11-27", ["--marks", "m", "--when", "2026-11-27"]
    not_understood([], [HELD], [*asked, "x"], *(["--mode", it, *asked] for it in ("see", "")), ["--summary", *asked], ["--by", "ann", *asked])
    not_understood(*(["--at", "1", option, "1", *asked] for option in ("--from", "--to")))
    not_understood(*([option, it, *asked] for option in ("--at", "--from", "--to") for it in ("-1", "x", "18446744073709551616")))
    not_understood(*([option, date, *asked] for option in ("--when", "--since", "--until")))
    not_understood(*([*beside, option, "1", *asked] for option in ("--at", "--from", "--to")))
    for option in ("--since", "--until"):
        not_understood([*beside, option, date, *asked], ["--marks", "m", "--at", "1", option, date, *asked])


def spans_by_chance(world):
    """All spans of a random journal, and those that some options ask for."""
    rnd, count = world.rnd, len(world.entries)
    states = [world.before(number) for number in range(count + 1)]
    files = [world.start, world.journal]
    held = sorted({it for state in states for it in state.accesses}) or [(0, 0, 0)]
    for turn in range(4):
        words, asked = [], {}
        s, o, x = rnd.choice(held)
        if turn and rnd.random() < 0.4:
            words += ["--subject", rnd.choice((f"#{s}", world.opening.subject(s)))]
            asked["subject"] = s
        if turn and rnd.random() < 0.4:
            words += ["--object", rnd.choice((f"#{o}", world.opening.object(o)))]
            asked["object"] = o
        if turn and rnd.random() < 0.4:
            words += ["--mode", MODES[x]]
            asked["mode"] = x
        which, part, range_asked = part_by_chance(rnd, count, turn and ("all", "at", "from", "to", "between"))
        words, asked = [*words, *part], {**asked, **range_asked}
        if rnd.random() < 0.4:
            found = time_rows.marks_by_chance(rnd, world)
            by_time, asked = time_rows.states_by_chance(rnd, found, asked, which in ("all", "from", "to", "between"))
            words, asked = [*words, *by_time], {**asked, "marks": found}
        text, status = spans.listed(states, world.entries, **asked)
        answered([*words, *files], text, status)


CHECKS = [*map(in_its_folder, [spans_that_are_held, spans_with_times, spans_of_what_a_start_opens_with,
           objects_that_have_a_number_again, faults_of_spans_in_their_order, words_that_ask_for_no_spans, ])]
# (it is asked of random starts and journals)
OF_WORLDS = [spans_by_chance]
