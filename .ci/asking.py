"""What the rows of questions share: how a command is asked, journals and marks, files with faults, and what docs/FORMATS.md shows."""
import itertools
import re

import marks
from outside import EXAMPLES, TOP, put, ran_program, same

STANDARD, OFFICE, HELD, REUSED = (f"{EXAMPLES}/{it}.json" for it in ("standard", "office", "held", "reused"))
# The journal of the example of `held` in FORMATS.md.
OPENED = b"0 0 0 get-read 1 yes\n1 0 1 get-read 2 no star\n2 0 0 release read 1 yes\n3 0 0 get-read 1 yes\n4 0 2 get-write 0 yes\n"
# What is told of a file that isn't there.
GONE = "No such file or directory (os error 2)"
# What is told of a word that begins no reply.
NO_REPLY = "begins no reply: yes, no, created, undefined, 'created N' or 'no REASON'"
# What is told of a word that is no time.
NO_TIME = "not a time; write it as 2026-11-27T12:12:26Z or 2026-11-27"


def said(*words):
    """What a command prints, and its status; it says nothing on standard error."""
    status, output, error = ran_program(words)
    assert not error, f"{words}: {error}"
    return output.decode(), status


def asks(*command):
    """How a command is asked: functions that see what it answers, that it refuses, and that it doesn't understand words."""

    def answered(words, text, status=None):
        """Text, or lines, with a status: without one 0, or 4 where nothing is printed."""
        text = "".join(text)
        status = (0 if text else 4) if status is None else status
        same((words, *ran_program([*command, *words])), (words, status, text.encode(), b""))

    def refused(words, told, status=1):
        same((words, *ran_program([*command, *words])), (words, status, b"", f"mls: {told}\n".encode()))

    def not_understood(*rows):
        for words in rows:
            status, output, error = ran_program([*command, *words])
            same((words, status, output, bool(error)), (words, 2, b"", True))

    return answered, refused, not_understood


def packed(text):
    """The rows of a text, each words and what belongs to them, with ` : ` between; a row ends with its line or at ` | `."""
    rows = [re.split(r"(?:^| ):(?: |$)", row.strip(), maxsplit=1) for row in re.split(r"\n| \| ", text.strip())]
    return [(words.split(), rest.split()) for words, rest in rows]


def journal_of(start, script, answers, name):
    """Makes the journal of a script over a start, which has these answers."""
    put("a.script", script)
    told = b"session 0\n" + answers + b"entries %d\nsecure yes\n" % answers.count(b"\n")
    same(ran_program(["run", "--journal", name, start, "a.script"]), (0, told, b""))


def put_marks(name, journal, ends, times):
    """Makes the marks of a journal's batches, which end before these entries."""
    return put(name, marks.text_of(marks.made(journal, ends, times)))


def put_faulty(journal=OPENED, old=b"no star", new=b"yes"):
    """Makes files with a fault each, of a journal, of a start and of marks, and the journal itself."""
    for name, content in (("opened.journal", journal), ("torn.journal", journal[:-1]), ("forged.journal", journal.replace(old, new)),
                          ("empty.json", b""), ("none.marks", b"x\n")):
        put(name, content)


def documents():
    with open(f"{TOP}/docs/FORMATS.md", encoding="ascii") as page:
        return page.read()


def shown_below(command):
    """What FORMATS.md shows below each place of a command, or of the front of one: the rest of its line, and the lines below."""
    for part in documents().split(f"\n    $ {command}")[1:]:
        rest, *lines = part.split("\n")
        shown = itertools.takewhile(lambda line: line.startswith("    ") and not line.startswith("    $ "), lines)
        yield rest, "".join(f"{line[4:]}\n" for line in shown)


def part_by_chance(rnd, count, ways):
    """Over so many entries from which state on and up to which, in one of these ways, or all: the way, the words, and `first` and `last`."""
    first, last = rnd.randrange(count + 1), rnd.randrange(count + 9)
    way, words, asked = rnd.choice(ways) if ways else "all", [], {}
    if way == "at":
        words, asked = ["--at", str(first)], {"first": first, "last": first}
    if way in ("from", "between"):
        words, asked = ["--from", str(first)], {"first": first}
    if way in ("to", "between"):
        last = max(last, first) if way == "between" else last
        words, asked = [*words, "--to", str(last)], {**asked, "last": last + 1}
    return way, words, asked
