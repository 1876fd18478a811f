"""What an officer does with answers, over random states: each remedy is done line by line, and then what was denied is granted; and what `who`, `lint`
and `who --could` say of the same access agrees, with the one exception that FORMATS.md names."""
from asking import STANDARD, said, shown_below
from outside import in_its_folder, put, same
from policy import words_of

# The example of FORMATS.md of two answers that differ: what `who` says of aud, and why `who --could` says `never` of it.
SHOWN = [("mls who examples/standard.json plans read", ["who", STANDARD, "plans", "read"], 0),
         ("mls could examples/standard.json 'aud get-read plans'", ["could", STANDARD, "aud get-read plans"], 4)]
# How many denied entries of a world have their remedies done.
DONE = 5


def answers_that_differ_in_the_documents():
    for command, words, status in SHOWN:
        (_, text), = shown_below(command)
        same((command, *said(*words)), (command, text, status))
    same(said("who", "--could", STANDARD, "plans", "read")[0].splitlines()[3], "aud read: never")


def blocks_of(text):
    """The lines that `journal --explain` prints of each entry, without their indentation."""
    found = []
    for line in text.splitlines():
        found = [*found[:-1], [*found[-1], line[2:]]] if line.startswith("  ") else [*found, [line]]
    return found


def asked_by(rnd, remedy):
    """A line of a remedy as a script has it, with one of the subjects that it names."""
    before, _, rest = remedy.removesuffix(" instead").partition(" gives ")
    words = before.split(" ")
    count = next(it for it in range(1, len(words) + 1, 2) if words[it : it + 1] != ["or"])
    subject, asks = rnd.choice(words[:count:2]), words[count:]
    if rest:
        mode, o, _, whose = rest.split(" ")
        asks = ["give", mode, whose, o]
    return " ".join([subject, *asks])


def remedies_done(world):
    """After the lines of a remedy the denied line is granted to its subject, or, with `instead`, to the other that the last line names."""
    rnd, lines = world.rnd, [f"{world.opening.subject(it.subject)} {words_of(world.before(n), it.action)}" for n, it in enumerate(world.entries)]
    blocks = blocks_of(said("journal", "--explain", "--reply", "no", world.start, world.journal)[0])
    helped = [it for it in blocks if not it[-1].startswith("remedy: none")]
    for block in rnd.sample(helped, min(DONE, len(helped))):
        number = int(block[0].split(" ")[0])
        remedies = [it.removeprefix("remedy: ") for it in block if it.startswith("remedy: ")]
        done = [asked_by(rnd, it) for it in remedies] + ([] if remedies[-1].endswith(" instead") else [lines[number]])
        put("done.script", "".join(f"{it}\n" for it in [*lines[:number], *done]).encode())
        answers = said("run", world.start, "done.script")[0].splitlines()[1 + number : 1 + number + len(done)]
        same((block, done, [it.split(" ")[0] in ("yes", "created") for it in answers]), (block, done, [True for _ in done]))


def commands_that_agree(world):
    """Of a state, just what is `never` in `who` is dead in `lint`, for the same reason, and what an untrusted subject may get by itself, it could."""
    state, files = world.last, ["--journal", world.journal, world.start]
    trusted = {state.subject(it) for it in state.trusted}
    never = set()
    for o in map(state.object, sorted(state.label)):
        could = dict(it.rsplit(": ", 1) for it in said("who", "--could", *files, o)[0].splitlines())
        for line in said("who", *files, o)[0].splitlines():
            subject, mode, told = line.split(" ", 2)
            if told.endswith(", never"):
                never.add(f"{subject} {mode} {o}: {told.removeprefix('no ').removesuffix(', never')}")
            elif subject not in trusted:
                same((line, could[f"{subject} {mode}"] in ("could", "held")), (line, True))
            if subject in trusted:
                same((line, could[f"{subject} {mode}"] in ("never", "held")), (line, True))
    linted = said("lint", *files)[0].splitlines()
    same(never, {it.removeprefix("dead: ") for it in linted if it.startswith("dead: ")})


CHECKS = [in_its_folder(answers_that_differ_in_the_documents)]
# (they are asked of random states)
OF_WORLDS = [remedies_done, commands_that_agree]
