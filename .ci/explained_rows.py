"""Why entries have their replies: `mls journal --explain`, with answers by hand, with those of `mls explain --at` of each entry alone, and
with what the policy in Python gives."""
import subprocess

import question_texts as texts
import question_worlds as worlds
from asking import GONE, HELD, STANDARD, asks, put_faulty, shown_below
from outside import PROGRAM, SECONDS, in_its_folder, put, ran_program, same
from question_rows import EXPLAINED, GIVEN, MEMO, STRANGE

# The command of the example in FORMATS.md, over the journal of examples/standard.script.
EXAMPLE = "mls journal --explain --reply no examples/standard.json standard.journal"
READ, DENIED = (texts.under(dict((line, text) for line, text, _ in EXPLAINED)[asked]) for asked in ("ann get-read plans", "bob get-read memo"))
MEMO_LINES = ["0 session 0 ann get-read plans: yes\n" + READ, "1 session 0 bob get-read memo: no star\n" + DENIED,
              "2 session 0 ann release read plans: yes\n"]
GIVEN_LINES = [
    "0 session 0 sec get-write root: yes\n  discretionary holds: sec is permitted write of root\n  simple holds: maximum T:A,B dominates U of root\n"
    "  star holds: current U equals U of root\n  integrity holds: hi of sec equals hi of root\n",
    "1 session 0 sec give read bob plans: yes\n  authority holds: sec holds write on root\n",
    "2 session 0 sec rescind read bob plans: yes\n  authority holds: sec holds write on root\n",
    "3 session 0 bob get-read plans: no discretionary\n  discretionary fails: bob is not permitted read of plans\n"
    "  simple fails: maximum C does not dominate S:A of plans\n  star fails: current U does not dominate S:A of plans\n"
    "  integrity holds: hi of plans dominates lo of bob\n  remedy: none by level\n",
    "4 session 0 ann give read bob plans: no authority\n  authority fails: ann does not hold write on root\n"
    "  remedy: sec gives read plans to bob instead\n",
]
UNDEFINED = ("2 session 1 sec relabel #4 #9:#7: undefined\n  security label outside the scheme: #9:#7\n"
              "3 session 1 #9 give read #9 #9: undefined\n  unknown subject: #9\n  inactive object: #9\n")
# Of examples/held.json, in which ann holds read on plans: accesses in the way stand below their condition here too.
IN_THE_WAY = b"0 0 0 level 0 no star\n1 0 0 release read 1 yes\n2 0 0 level 0 yes\n"
IN_THE_WAY_LINES = [
    "0 session 0 ann level U: no star\n  ceiling holds: maximum S:A dominates new U\n"
    "  star fails: not all that ann holds meets star at new U\n    plans read\n  remedy: ann release read plans\n",
    "1 session 0 ann release read plans: yes\n",
    "2 session 0 ann level U: yes\n  ceiling holds: maximum S:A dominates new U\n  star holds: all that ann holds meets star at new U\n",
]

# What is asked of which journal, and which lines are printed.
LISTED = [
    ([STANDARD, "memo.journal"], MEMO_LINES), (["--reply", "no", STANDARD, "memo.journal"], MEMO_LINES[1:2]),
    (["--by", "ann", "--from", "1", STANDARD, "memo.journal"], MEMO_LINES[2:]), (["--to", "0", STANDARD, "memo.journal"], MEMO_LINES[:1]),
    (["--session", "1", STANDARD, "memo.journal"], []), ([STANDARD, "given.journal"], GIVEN_LINES),
    (["--subject", "bob", STANDARD, "given.journal"], GIVEN_LINES[1:]), (["--object", "root", STANDARD, "given.journal"], GIVEN_LINES[:1]),
    (["--by", "bob", STANDARD, "given.journal"], GIVEN_LINES[3:4]), (["--from", "2", "--to", "3", STANDARD, "strange.journal"], [UNDEFINED]),
    ([HELD, "way.journal"], IN_THE_WAY_LINES), ([HELD, "empty.journal"], []),
]
answered = asks("journal", "--explain")[0]
_, refused, not_understood = asks("journal")


def put_journals():
    for name, journal in (("memo", MEMO), ("given", GIVEN), ("strange", STRANGE), ("way", IN_THE_WAY), ("empty", b"")):
        put(f"{name}.journal", journal)


def entries_that_are_listed_and_explained():
    put_journals()
    for words, lines in LISTED:
        answered(words, lines)
    (_, text), = shown_below(EXAMPLE)
    answered([*EXAMPLE.split()[3:-2], STANDARD, "memo.journal"], text)


def faults_of_entries_that_are_explained():
    """As without `--explain`; two forms at once ask for nothing."""
    put_journals()
    put_faulty(MEMO)
    names = ["--explain", "--object", "file", "--by", "yan"]
    refused([*names, "no.json", "memo.journal"], f"no.json: {GONE}")
    refused([*names, STANDARD, "torn.journal"], "torn.journal: line 3: entry 1 BadForm")
    refused([*names, STANDARD, "forged.journal"], "forged.journal: replay 2 Differs at 1 expected no star, found yes", 3)
    refused([*names, "--subject", "zoe", STANDARD, "memo.journal"], "zoe: bad name (bob?)")
    refused([*names, STANDARD, "memo.journal"], "yan: bad name (ann?)")
    refused([*names[:3], STANDARD, "memo.journal"], "file: bad name")
    refused(["--explain", "--from", "2", "--to", "1", "no.json", "no.journal"], "--from 2: above --to 1", 2)
    for forms in ("--explain --json", "--json --explain", "--explain --summary", "--summary --explain", "--explain --explain"):
        not_understood([*forms.split(), STANDARD, "memo.journal"])


def entries_that_are_written_in_pieces():
    """More lines than are written at once, and standard output that takes none, of them or of few."""
    put("memo.journal", MEMO)
    put("many.journal", b"".join(b"%d 0 0 get-read 1 yes\n" % number for number in range(1_000)))
    answered([STANDARD, "many.journal"], [f"{number} session 0 ann get-read plans: yes\n{READ}" for number in range(1_000)])
    for journal in ("memo.journal", "many.journal"):
        with open("/dev/full", "wb") as full:
            words = [PROGRAM, "journal", "--explain", STANDARD, journal]
            done = subprocess.run(words, stdout=full, stderr=subprocess.PIPE, timeout=SECONDS)
            same((journal, done.returncode, done.stderr), (journal, 1, b"mls: output: write\n"))


def entries_listed_and_explained(world):
    """Some entries of a random journal: what stands under each is what `mls explain --at` prints of it, and what the policy in Python gives."""
    words, asked = worlds.some_filter(world.rnd, world.opening, world.entries)
    found = texts.listed(world.opening, world.entries, **asked)
    text, status = texts.explained_journal(world.before, world.opening, found)
    files = [world.start, world.journal]
    same(ran_program(["journal", "--explain", *words, *files]), (status, text.encode(), b""))
    lines = ran_program(["journal", *words, *files])[1].decode().splitlines(keepends=True)
    same(len(lines), len(found))
    alone = [ran_program(["explain", "--journal", world.journal, "--at", str(it.number), world.start])[1].decode() for it in found]
    same("".join(line + texts.under(told) for line, told in zip(lines, alone)), text)


def entries_that_trust_granted(world):
    """Those of some entries of a random journal that would not have been granted if the subject that asked were not trusted."""
    words, asked = worlds.some_filter(world.rnd, world.opening, world.entries)
    found = [it for it in texts.listed(world.opening, world.entries, **asked) if world.before(it.number).uses_trust(it.subject, it.action)]
    files = ["--used-trust", *words, world.start, world.journal]
    text, status = texts.journal(world.opening, found)
    same(ran_program(["journal", *files]), (status, text.encode(), b""))
    same(ran_program(["journal", "--summary", *files]), (status, texts.summary(world.opening, found)[0].encode(), b""))


CHECKS = [*map(in_its_folder, [entries_that_are_listed_and_explained, faults_of_entries_that_are_explained,
           entries_that_are_written_in_pieces, ])]
# (it is asked of random starts and journals)
OF_WORLDS = [entries_listed_and_explained, entries_that_trust_granted]
