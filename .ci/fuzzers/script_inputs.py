"""Scripts by chance over a start: valid lines, and changes of their tokens and bytes."""
import re

import labels
from formats import LINE_LIMIT, MODES, OPERANDS, SCRIPT_LIMIT
from mutations import mutated, with_other_token

TOKEN = re.compile(rb"[^ \n]+")
VARIABLES = [b"x", b"y", b"A_1-b", b"a" + 31 * b"1"]
TOKENS = [*OPERANDS, *MODES, b"check", b"=", b"$x", b"$y", b"$", b"#", b"#0", b"#3", b"#255", b"#4095", b"#65535",
          b"#65536", b"#00", b"#-1", b"7", b";", b"frob", b"zoe", b"nil", b"Q", b"U:", b":A", b"a.b", b"\t", b"\r",
          b"\x00", b"\xff", 32 * b"n", 33 * b"n"]
BLANKS = [b"", b"   ", b"; a note", b"  ;\x00\xff"]
ACTIONS = [*OPERANDS, b"check", b"create", b"level"]
# More objects than there are numbers left in the standard start.
OBJECTS = 4_100


def operand(rng, kind, start):
    """An operand of a kind, or a subject: mostly what there is in a start."""
    if kind == "m":
        return rng.choice([*MODES])
    if kind in "li":
        return labels.valid(rng, start.security if kind == "l" else start.integrity)
    way = rng.random()
    if kind == "o" and way < 0.04:
        return b"$" + rng.choice(VARIABLES[:2])
    names = start.subjects if kind == "s" else start.objects
    return rng.choice([*names]) if way < 0.9 else b"#%d" % rng.randrange(len(names) + 3)


def line(rng, start):
    """A line without a fault, but that a variable may not be bound."""
    if rng.random() < 0.05:
        return rng.choice(BLANKS)
    action = rng.choice(ACTIONS)
    subject, *rest = [operand(rng, kind, start) for kind in "s" + ("mo" if action == b"check" else OPERANDS[action])]
    bound = [b"$" + rng.choice(VARIABLES), b"="] if action == b"create" and rng.random() < 0.6 else []
    return rng.choice((b" ", b" ", b" ", b"  ")).join([*bound, subject, action, *rest])


def lines_of(rng, start):
    """Lines of a script: some get what the matrix permits, the others are by chance."""
    subjects, objects, modes, cells = [*start.subjects], [*start.objects], [*MODES], sorted(start.cells)
    chosen = rng.sample(cells, min(len(cells), rng.randrange(6)))
    gets = [b"%b get-%b %b" % (subjects[subject], modes[mode], objects[obj]) for subject, obj, mode in chosen]
    return gets + [line(rng, start) for _ in range(rng.choice((0, 1, 2, 4, 8, 16, 30)))]


def joined(lines):
    return b"".join(b"%b\n" % it for it in lines)


def with_long_line(rng, lines):
    """Lines with one more, which is as long as a line may be, or longer."""
    long = rng.choice((b"", b";", *lines)).ljust(LINE_LIMIT + rng.choice((0, 0, 1, 80_000)))
    at = rng.randrange(len(lines) + 1)
    return [*lines[:at], long, *lines[at:]]


def long_script(rng, start):
    """A script of as many bytes as there may be, of one fewer, or of more."""
    text = joined(lines_of(rng, start)) or b"\n"
    return (text * (SCRIPT_LIMIT // len(text) + 2))[:SCRIPT_LIMIT + rng.choice((-1, 0, 1, 500))]


def numbers_used_up(rng, start):
    """A script over the standard start that makes objects until no number is left, and goes on."""
    return joined([b"sec get-write root", *OBJECTS * [b"sec create root U hi"], *lines_of(rng, start)])


def made(rng, start, seeds):
    """A script: of a seed's lines or of lines by chance, as it is or changed."""
    lines = rng.choice(seeds).split(b"\n") if seeds and rng.random() < 0.2 else lines_of(rng, start)
    way = rng.random()
    if way < 0.45:
        return b"\n".join(lines) + rng.choice((b"\n", b"\n", b""))
    text = joined(with_long_line(rng, lines) if way < 0.48 else lines)
    if way < 0.72:
        for _ in range(rng.choice((1, 1, 2, 4))):
            text = with_other_token(rng, text, TOKEN, TOKENS)
        return text
    return mutated(rng, text, joined(lines_of(rng, start)))
