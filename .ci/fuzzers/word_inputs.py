"""Command lines by chance: valid ones, and changes of their words."""
from mutations import mutated

STARTS = ["standard", "guard", "office", "database"]
SCRIPTS = [b"script", b"script", b"climb", b"empty"]
COMMANDS = [b"check", b"run", b"replay"]
OTHER_WORDS = [b"", b"-", b"--", b"---", b"-x", b"--frob", b"--serial", b"--serial=", b"--journal", b"--journal=",
               b"--journal=made", b"--journal=/dev/full", b"-h", b"--help", b"-V", b"--version", b"help", *COMMANDS,
               b"checks", b"none", b"folder", b"/", b"long", b"long.json", b"\xff", b"\xc3\xa9", b"a b", b"start",
               b"journal", b"script", b"climb"]
# Words with a slash that name no file which could be made.
HARMLESS = (b"/", b"--journal=/dev/full")
FLAGS = [[b"--serial"], [b"--journal", b"made"], [b"--journal=made"]]


def start(rng):
    way = rng.random()
    return b"start" if way < 0.6 else b"long.json" if way < 0.64 else rng.choice(STARTS).encode()


def run(rng):
    """A run of some scripts, or of as many as there may be and more."""
    flags = rng.choice(([], FLAGS[0], FLAGS[1], FLAGS[2], FLAGS[0] + FLAGS[1]))
    few = [b"long" if rng.random() < 0.05 else rng.choice(SCRIPTS) for _ in range(rng.choice((1, 1, 2, 3)))]
    many = rng.choice((64, 65, 66)) * [b"empty"]
    return [b"run", *flags, start(rng), *(many if rng.random() < 0.1 else few)]


def told(rng):
    """What asks for help or for the version."""
    command = rng.choice(COMMANDS)
    for_all = [[b"--help"], [b"-h"], [b"--version"], [b"-V"], [b"help"]]
    return rng.choice([*for_all, [b"help", command], [command, b"--help"]])


def valid(rng):
    way = rng.random()
    if way < 0.1:
        return []
    if way < 0.25:
        return [b"check", start(rng)]
    if way < 0.5:
        return run(rng)
    return [b"replay", start(rng), b"journal"] if way < 0.95 else told(rng)


def harmless(word):
    """A word that names no file elsewhere, and has no byte that no word may have."""
    return word if word in HARMLESS else word.replace(b"/", b"_").replace(b"\0", b"_")


def changed(rng, words):
    """A command line of which words are left out, stand twice, are others, are cut, joined, exchanged or changed."""
    other, way, at = valid(rng), rng.randrange(7), rng.randrange(len(words) + 1)
    if way == 0:
        return words[:at] + words[at + 1:]
    if way == 1:
        return words[:at] + words[at:at + 1] + words[at:]
    if way == 2:
        return words[:at] + [rng.choice(OTHER_WORDS)] + words[at:]
    if way == 3:
        return words[:at] + [rng.choice(OTHER_WORDS)] + words[at + 1:]
    if way == 4:
        return words[:at] + other[rng.randrange(len(other) + 1):]
    if way == 5:
        return rng.sample(words, len(words))
    spoilt = [harmless(mutated(rng, word, b"--journal")) for word in words[at:at + 1]]
    return words[:at] + spoilt + words[at + 1:]
