"""Who could ever get an object: `mls who --ever`, with answers by hand, and with answers that evers.py finds in all states of random
journals."""
import evers
import time_rows
from asking import GONE, HELD, NO_TIME, OPENED, REUSED, STANDARD, asks, documents, journal_of, part_by_chance, put_faulty, put_marks, shown_below
from outside import in_its_folder, put
from policy import MODES

# The command of the example in FORMATS.md, and the entry that it adds to the journal of the one of `held`.
EXAMPLE, ADDED = "mls who --ever --journal held.journal examples/held.json memo", "5 0 1 level 1 yes"
answered, refused, not_understood = asks("who")

# What turns gets of memo and of an object that is made: levels, permissions, a label, a deletion.
SCRIPT = b"""bob level C
bob get-read memo
bob level U
bob release read memo
bob level U
sec get-write root
sec give read ann plans
sec rescind read ann plans
sec give read ann plans
sec relabel memo U
$x = sec create root U lo
sec give read bob $x
bob level C
sec relabel $x S:A
sec relabel $x C
sec delete $x
bob level U
"""
ANSWERS = b"yes\nyes\nno star\n" + 7 * b"yes\n" + b"created 4\n" + 6 * b"yes\n"
MEMO = "ann read: in no state\nbob read: 0 to 4, 9 on\nsec append: start on\nsec write: in no state\n"
MADE = "bob read: 11 to 13, 14 to 15\n"
NEVER, READS = "ann read: in no state\nbob read: in no state\n", "ann read: start to 7, 8 on\naud read: start on\n"
# What is asked of its journal, what is printed, and the status.
LISTED = [
    ("memo", MEMO, 0), ("memo read", "ann read: in no state\nbob read: 0 to 4, 9 on\n", 0), ("memo execute", "", 4),
    ("memo write", "sec write: in no state\n", 4), ("#2 append", "sec append: start on\n", 0), ("plans read", READS, 0),
    ("#4", MADE, 0), ("#4 append", "", 4), ("#4095", "", 4), ("--to 10 #4", "", 4), ("--to 11 #4", "bob read: 11 to 13\n", 0),
    ("--from 12 --to 12 #4", "bob read: 11 to 13\n", 0), ("--from 13 --to 14 #4", MADE, 0), ("--from 14 #4", "bob read: 14 to 15\n", 0),
    ("--from 15 #4", "bob read: 14 to 15\n", 0), ("--from 16 #4", "", 4), ("--from 5 --to 8 memo read", NEVER, 4),
    ("--from 4 --to 8 memo read", "ann read: in no state\nbob read: 0 to 4\n", 0), ("--from 5 --to 9 memo read", "ann read: in no state\nbob read: 9 on\n", 0),
    ("--from 17 memo read", "ann read: in no state\nbob read: 9 on\n", 0), ("--from 8 --to 8 plans read", "ann read: 8 on\naud read: start on\n", 0),
    ("--from 7 --to 18446744073709551615 plans read", READS, 0),
]
# The batches of its journal end before these entries; the last two have no mark.
ENDS, TIMES = [5, 9, 15], [b"2026-11-27T10:00:00.000000Z", b"2026-11-27T11:00:00.000000Z", b"2026-11-27T12:00:00.000000Z"]
TEN, ELEVEN, NOON = (f"[{it.decode()}]" for it in TIMES)
MARKED = [
    ("memo read", f"ann read: in no state\nbob read: 0 {TEN} to 4 {TEN}, 9 {NOON} on\n", 0),
    ("plans read", f"ann read: start to 7 {ELEVEN}, 8 {ELEVEN} on\naud read: start on\n", 0),
    ("--since 2026-11-27T10:30:00Z --until 2026-11-27T11:00:00Z memo read", NEVER, 4),
    ("--until 2026-11-27T10:00:00Z --from 5 memo read", NEVER, 4), ("--until 2026-11-27T10:00:00Z --from 6 memo read", "", 4),
    ("--since 2026-11-27T12:00:00+01:00 --to 9 memo read", f"ann read: in no state\nbob read: 9 {NOON} on\n", 0),
    ("--since 2026-11-28 #4", f"bob read: 14 {NOON} to 15 [-]\n", 0),
    ("--since 2026-11-28 plans read", f"ann read: 8 {ELEVEN} on\naud read: start on\n", 0), ("--until 2026-11-26 memo read", NEVER, 4),
    ("--until 2026-11-26 plans read", f"ann read: start to 7 {ELEVEN}\naud read: start on\n", 0),
]


def ever(words, files, text, status=0):
    answered(["--ever", "--journal", *files.split(), *words.split()], text, status)


def who_could_ever_in_the_documents():
    """The example of FORMATS.md, as it stands there."""
    (_, text), = shown_below(EXAMPLE)
    assert f"with a last entry `{ADDED}`:\n\n    $ {EXAMPLE}\n" in documents()
    put("held.journal", OPENED + f"{ADDED}\n".encode())
    ever("memo", f"held.journal {HELD}", text)


def who_could_ever_get_what():
    """Each way in which a get begins and ends to be granted; what is asked for, alone and together."""
    journal_of(STANDARD, SCRIPT, ANSWERS, "ever.journal")
    for words, text, status in LISTED:
        ever(words, f"ever.journal {STANDARD}", text, status)


def who_could_ever_with_times():
    """The entries' times, and states from a time on and up to one."""
    journal_of(STANDARD, SCRIPT, ANSWERS, "ever.journal")
    journal = open("ever.journal", "rb").read()
    files = [f"ever.journal --marks {it}.marks {STANDARD}" for it in ("ever", "first", "none")]
    put_marks("ever.marks", journal, ENDS, TIMES)
    put_marks("first.marks", journal, ENDS[:1], TIMES[:1])
    put("none.marks", b"")
    for words, text, status in MARKED:
        ever(words, files[0], text, status)
    ever("memo read", files[1], f"ann read: in no state\nbob read: 0 {TEN} to 4 {TEN}, 9 [-] on\n")
    for words in ("--since 2026-11-27 memo read", "memo read"):
        ever(words, files[2], "ann read: in no state\nbob read: 0 [-] to 4 [-], 9 [-] on\n")
    ever("--until 2026-11-27 memo", files[2], f"{NEVER}sec append: start on\nsec write: in no state\n")


def who_could_ever_of_what_a_start_opens_with():
    put("opened.journal", OPENED)
    put("empty.journal", b"")
    for journal in ("opened.journal", "empty.journal"):
        ever("plans read", f"{journal} {HELD}", "ann read: start on\naud read: start on\n")
        ever("plans append", f"{journal} {HELD}", "bob append: in no state\n", 4)
    ever("--from 0 --to 0 plans read", f"empty.journal {HELD}", "ann read: start on\naud read: start on\n")


def who_could_ever_get_a_number_that_is_used_again():
    script = b"sec get-write root\nsec delete plans\n$x = sec create root S:A hi\nsec give read ann $x\n"
    journal_of(REUSED, script, b"yes\nyes\ncreated 1\nyes\n", "ever.journal")
    ever("plans read", f"ever.journal {REUSED}", "ann read: start to 1, 3 on\naud read: start to 1\n")
    ever("--from 2 #1 read", f"ever.journal {REUSED}", "ann read: 3 on\n")


def faults_of_ever_in_their_order():
    put_faulty()
    for words, told, status in (
        ("no.journal no.json file", f"no.json: {GONE}", 1), ("no.journal empty.json file", f"no.journal: {GONE}", 1),
        (f"opened.journal --marks no.marks {HELD} file", f"no.marks: {GONE}", 1),
        (f"opened.journal --marks none.marks {HELD} file", "none.marks: line 1: mark", 1),
        ("torn.journal empty.json file", "empty.json: start 1 Json: empty", 1),
        (f"torn.journal {HELD} file", "torn.journal: line 5: entry 1 BadForm", 1),
        (f"forged.journal {HELD} file", "forged.journal: replay 2 Differs at 1 expected no star, found yes", 3),
        (f"opened.journal --from 6 {HELD} file", "opened.journal: the journal has 5 entries", 1), (f"opened.journal --from 5 {HELD} file", "file: bad name", 1),
        (f"opened.journal {HELD} memmo", "memmo: bad name (memo?)", 1), ("no.journal --from 3 --to 2 no.json file", "--from 3: above --to 2", 2),
        ("no.journal --marks no.marks --since now no.json file", f"--since now: {NO_TIME}", 2),
        ("no.journal --marks no.marks --since 2026-11-27T12:00:00Z --until 2026-11-27T10:00:00Z no.json file",
         "--since 2026-11-27T12:00:00Z: behind --until 2026-11-27T10:00:00Z", 2),
        ("no.journal --marks no.marks --until now no.json file", f"--until now: {NO_TIME}", 2),
    ):
        refused(["--ever", "--journal", *words.split()], told, status)


def words_that_ask_for_nothing_ever():
    put("opened.journal", OPENED)
    asked, of, date = ["--journal", "opened.journal"], [HELD, "memo"], "2026-11-27"
    not_understood(["--ever", *of], ["--ever", *asked, HELD], ["--ever", *asked, *of, "see"], ["--ever", *asked, "--at", "1", *of])
    not_understood(["--ever", *asked, "--marks", "m", "--when", date, *of], *([*asked, option, "1", *of] for option in ("--from", "--to")))
    for option in ("--since", "--until"):
        not_understood([*asked, "--marks", "m", option, date, *of], ["--ever", *asked, option, date, *of])
    not_understood(*(["--ever", *asked, option, word, *of] for option in ("--from", "--to") for word in ("-1", "x", "")))


def ever_by_chance(world):
    """Who could ever get each object of a random journal, in all states and in some, with marks or without."""
    rnd, count = world.rnd, len(world.entries)
    states = [world.before(number) for number in range(count + 1)]
    for o in sorted({it for state in states for it in state.label}):
        mode = rnd.choice((None, None, *range(4)))
        words, asked = [f"#{o}", *([] if mode is None else [MODES[mode]])], {"mode": mode}
        _, part, range_asked = part_by_chance(rnd, count, ("all", "from", "to", "between"))
        words, asked = [*part, *words], {**asked, **range_asked}
        files = ["--journal", world.journal, world.start]
        if rnd.random() < 0.3:
            found = time_rows.marks_by_chance(rnd, world)
            files, asked = ["--marks", time_rows.noted(found), *files], {**asked, "found": found}
        text, status = evers.listed(states, o, **asked)
        answered(["--ever", *files, *words], text, status)


CHECKS = [*map(in_its_folder, [who_could_ever_in_the_documents, who_could_ever_get_what, who_could_ever_with_times,
           who_could_ever_of_what_a_start_opens_with, who_could_ever_get_a_number_that_is_used_again,
           faults_of_ever_in_their_order, words_that_ask_for_nothing_ever, ])]
# (it is asked of random starts and journals)
OF_WORLDS = [ever_by_chance]
