"""What could ever come about of an object: `mls who --could`, with answers by hand, and with those that futures.py finds by a fixpoint over
all triples of random states."""
import futures
from asking import GONE, HELD, OPENED, STANDARD, asks, journal_of, put_faulty, shown_below
from outside import in_its_folder, put
from policy import MODES

# The commands of the examples in FORMATS.md.
SHOWN = ["mls who --could --all examples/standard.json memo", "mls who --could examples/standard.json plans read"]
answered, refused, not_understood = asks("who", "--could")

LISTED = [
    # without a choice the untrusted act: ann and bob. Nobody of them can write root, so the matrix decides
    (STANDARD, "plans read", "ann read: could\nbob read: never\nsec read: never\naud read: never\n", 0),
    (STANDARD, "plans append", "ann append: never\nbob append: never\nsec append: never\naud append: never\n", 4),
    (STANDARD, "memo read", "ann read: never\nbob read: could\nsec read: never\naud read: never\n", 0),
    (STANDARD, "--by ann memo read", "ann read: never\nbob read: never\nsec read: never\naud read: never\n", 4),
    (STANDARD, "--by bob memo read", "ann read: never\nbob read: could\nsec read: never\naud read: never\n", 0),
    # sec gives, and lowers plans to U; bob's integrity keeps it from altering
    (STANDARD, "--by bob,sec plans read", "ann read: never\nbob read: could\nsec read: could\naud read: never\n", 0),
    (STANDARD, "--by #1,#2 #1 write", "ann write: never\nbob write: never\nsec write: could\naud write: never\n", 0),
    # aud is trusted: it can permit accesses of root, and write of root to ann, who can then permit those below
    (STANDARD, "--without sec plans append", "ann append: could\nbob append: never\nsec append: never\naud append: could\n", 0),
    (STANDARD, "--without sec,aud plans append", "ann append: never\nbob append: never\nsec append: never\naud append: never\n", 4),
    (STANDARD, "--all root write", "ann write: could\nbob write: never\nsec write: could\naud write: could\n", 0),
    (STANDARD, "--all #4095", "", 4),
    # what is held is held, whoever acts
    (HELD, "--by bob plans read", "ann read: held\nbob read: never\nsec read: never\naud read: never\n", 0),
]
# After bob has come to hold read of memo, at C.
SCRIPT, ANSWERS = b"bob level C\nbob get-read memo\n", b"yes\nyes\n"


def could_in_the_documents():
    """The examples of FORMATS.md, as they stand there."""
    for command, words in zip(SHOWN, (["--all", STANDARD, "memo"], [STANDARD, "plans", "read"])):
        (_, text), = shown_below(command)
        answered(words, text, 0)


def could_come_about():
    """Each choice of actors, with the answers of POLICY.md's closure by hand."""
    for start, words, text, status in LISTED:
        parts = words.split()
        count = {"--by": 2, "--without": 2, "--all": 1}.get(parts[0], 0)
        answered([*parts[:count], start, *parts[count:]], text, status)


def could_from_a_state_of_a_journal():
    journal_of(STANDARD, SCRIPT, ANSWERS, "could.journal")
    for words, told, status in (("", "held", 0), ("--at 1", "could", 0), ("--by ann", "held", 0), ("--by ann --at 1", "never", 4)):
        text = f"ann read: never\nbob read: {told}\nsec read: never\naud read: never\n"
        answered([*words.split(), "--journal", "could.journal", STANDARD, "memo", "read"], text, status)


def faults_of_could_in_their_order():
    put_faulty()
    for words, told, status in (
        ("no.json file", f"no.json: {GONE}", 1), ("empty.json file", "empty.json: start 1 Json: empty", 1),
        (f"--journal torn.journal {HELD} file", "torn.journal: line 5: entry 1 BadForm", 1),
        (f"--by bobb {HELD} file", "file: bad name", 1), (f"--by bobb {HELD} memo", "bobb: bad name (bob?)", 1),
        (f"--by ann,,bob {HELD} memo", ": bad name", 1), (f"--without ann,#9 {HELD} memo", "#9: bad name", 1),
        (f"--by memo {HELD} memmo", "memmo: bad name (memo?)", 1),
    ):
        refused(words.split(), told, status)


def words_that_ask_for_no_future():
    put("opened.journal", OPENED)
    of = [HELD, "memo"]
    not_understood(["--ever", "--journal", "opened.journal", *of], ["--by", "ann", "--all", *of], ["--by", "ann", "--without", "bob", *of],
                   ["--without", "ann", "--all", *of], ["--by", *of], ["--from", "0", *of], [HELD], [*of, "see"])
    asks("who")[2](*([*option, *of] for option in (["--by", "ann"], ["--without", "ann"], ["--all"])))


def listed(state, actors, o, modes):
    """What `who --could` prints of an object, and its status."""
    could_get, rows = futures.closure(state, actors)[0], ""
    for s in sorted(state.maximum) if o in state.label else []:
        for x in modes:
            told = "held" if (s, o, x) in state.accesses else "could" if (s, o, x) in could_get else "never"
            rows += f"{state.subject(s)} {MODES[x]}: {told}\n"
    return rows, 0 if "held\n" in rows or "could\n" in rows else 4


def chosen(rnd, state):
    """Words that choose who acts, and who that is."""
    some = sorted(it for it in state.maximum if rnd.random() < 0.6) or [0]
    words = ",".join(rnd.choice((state.subject(it), f"#{it}")) for it in some)
    return rnd.choice(((["--by", words], set(some)), (["--without", words], set(state.maximum) - set(some)), (["--all"], set(state.maximum)),
                       ([], set(state.maximum) - state.trusted)))


def could_by_chance(world):
    """Each object of a random state, by some choice of actors."""
    rnd = world.rnd
    number = rnd.randrange(len(world.entries) + 1)
    state = world.before(number)
    files = ["--journal", world.journal, "--at", str(number), world.start]
    for o in sorted({*state.label, 7}):
        words, actors = chosen(rnd, state)
        mode = rnd.choice((None, None, *range(4)))
        text, status = listed(state, actors, o, range(4) if mode is None else [mode])
        answered([*words, *files, f"#{o}", *([] if mode is None else [MODES[mode]])], text, status)


CHECKS = [*map(in_its_folder, [could_in_the_documents, could_come_about, could_from_a_state_of_a_journal, faults_of_could_in_their_order,
           words_that_ask_for_no_future, ])]
# (it is asked of random states)
OF_WORLDS = [could_by_chance]
