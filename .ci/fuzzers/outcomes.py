"""What a command line came to, by the program's status and what it says, and whether it is so."""
import os
import re
import signal

from asked import SYSTEM, is_question, without_reason
from formats import SCRIPT_LIMIT, Refused, entries_of
from outside import same, shown
from start_format import start_of

# What standard error says of a file, of no file, and of too many scripts.
OF_FILE = re.compile(rb"mls: (.*): (file|too long|start .*|line \d+: entry .*|replay .*)\n", re.S)
OF_ASKED = re.compile(OF_FILE.pattern.replace(b"(file|", b"(%b|" % SYSTEM.pattern), re.S)
OF_NONE = re.compile(rb"mls: (input: read|output: write|input: too long|memory|thread)\n")
TOO_MANY = b"mls: run: at most 64 scripts\n"
REPLY = rb"(?:yes|undefined|created \d+|no [a-z]+)"
REPLAYS = re.compile(rb"replay (?:(1 Number) at \d+|(2 Differs) at \d+ expected " + REPLY + rb")")
# What has to fail for each, where it is none of the files.
CAUSES = {"input: read": "input", "output: write": "output", "input: too long": "long"}


def is_script(words):
    """Whether these words have standard input answered."""
    return words in ([], [b"--"])


def outcome_of(words, failing, files, status, output, error):
    """What a command line came to."""
    if status == 0:
        same(error, b"")
        return accepted(words, files, output)
    assert output == b"" or is_script(words), f"status {status}, and it prints {shown(output)}"
    if status == -signal.SIGSEGV and isinstance(failing, int):
        # (the system ends a program so where it has no room for the stack of the first thread to grow)
        same(error, b"")
        return "no stack"
    if status == 4 and is_question(words):
        same((files[last_name(words)], error), (b"", b""))
        return "no entry"
    assert status in (1, 2, 3) and error.endswith(b"\n"), f"status {status}, {shown(error)}"
    if status == 2:
        return "at most 64 scripts" if error == TOO_MANY else "words"
    none = OF_NONE.fullmatch(error)
    if none:
        outcome = none[1].decode()
        is_due = failing == CAUSES[outcome] if outcome in CAUSES else isinstance(failing, int)
        assert status == 1 and is_due, f"status {status}, {outcome}, and that doesn't fail"
        return outcome
    found = (OF_ASKED if is_question(words) else OF_FILE).fullmatch(error)
    assert found and (status == 3) == found[2].startswith(b"replay "), f"status {status}, {shown(error)}"
    assert found[1] in [word.removeprefix(b"--journal=") for word in words], f"no word: {shown(error)}"
    text = files.get(os.fsdecode(found[1]))
    return refused(found[1], without_reason(found[1], found[2], text) if is_question(words) else found[2], text)


def last_name(words):
    """The last name of a file among words."""
    return [os.fsdecode(word) for word in words if word != b"--"][-1]


def accepted(words, files, output):
    """What is done where the status is 0, as the output says, and the words."""
    if words[:1] == [b"check"] and output.startswith(b"subjects "):
        start = start_of(files[last_name(words)])
        counts = len(start.subjects), len(start.objects), len(start.cells)
        accesses = b"accesses %d\n" % len(start.accesses) if start.accesses else b""
        same(output, b"subjects %d\nobjects %d\ncells %d\n%bsecure yes\n" % (*counts, accesses))
        return "counted"
    if words[:1] == [b"replay"] and output.startswith(b"entries "):
        same(output, b"entries %d\nsecure yes\n" % files[last_name(words)].count(b"\n"))
        return "replayed"
    if is_question(words) and output.startswith(b"0 session "):
        numbers = [line.split(b" ")[0] for line in output.splitlines()]
        same(numbers, [b"%d" % place for place in range(files[last_name(words)].count(b"\n"))])
        return "listed"
    if words[:1] == [b"run"] and output.startswith(b"session 0\n"):
        assert re.search(rb"\nentries \d+\nsecure yes\n\Z", output), f"a run ends with {shown(output[-50:])}"
        return "run"
    if b"Usage: " in output or output.startswith(b"mls "):
        return "told"
    assert is_script(words), f"{words} print {shown(output)}"
    return "answered"


def refused(name, told, text):
    """What is told of a file, which has these bytes or can't be read; it is so."""
    if told == b"file":
        assert text is None, f"{name} can be read"
        return "file"
    assert text is not None, f"{name} is told {told}, and is no file"
    if told == b"too long":
        assert len(text) > SCRIPT_LIMIT, f"{name} has {len(text)} bytes"
        return "too long"
    if told.startswith(b"start "):
        same(told, b"start %b" % fault_of(text).encode())
        return told[:7].decode()
    entries, fault = entries_of(text)
    if told.startswith(b"line "):
        same(told, b"line %d: entry %b" % (len(entries) + 1, str(fault).encode()))
        return f"entry {fault}"
    found = REPLAYS.fullmatch(told)
    assert found and fault is None, f"{name} is told {told}"
    return f"replay {(found[1] or found[2]).decode()}"


def fault_of(text):
    """The text of a start file's fault."""
    try:
        start_of(text)
    except Refused as fault:
        return str(fault)
    return "none"
