"""What a question tells of a file that it can't read or that is wrong, and whether its reason is so. Among the words of command lines is the
name of one question, which is that of a file too."""
import re

from formats import OPERANDS, entries_of
from outside import same, shown

SYSTEM = re.compile(rb".* \(os error \d+\)", re.S)
LOOKS = re.compile(rb": (empty|looks like a journal|looks like a script|line ends in CR)\Z")
FOUND = re.compile(rb", found (.*?)(: another start's journal\?)?\Z")


def is_question(words):
    """Whether these words ask a question."""
    return words[:1] == [b"journal"]


def why_unread(name):
    """The system's reason why a file can't be read; nothing where it can."""
    try:
        with open(name, "rb") as file:
            file.read(1)
    except OSError as error:
        return f"{error.strerror} (os error {error.errno})".encode()
    return b""


def is_text(content):
    try:
        content.decode()
    except UnicodeDecodeError:
        return False
    return True


def look_of(content):
    """What a file looks like that isn't of JSON."""
    if not content:
        return b"empty"
    first, newline, _ = content.partition(b"\n")
    if entries_of(first + newline)[0]:
        return b"looks like a journal"
    line = next((it for it in content.split(b"\n") if it and it[:1] != b";"), b"")
    asks = line.split(b" ")[1:2]
    is_script = asks and (asks[0] in (b"=", b"check") or asks[0] in OPERANDS)
    return b"looks like a script" if is_script and is_text(content) and content[:1] != b"{" else b""


def reason_of(plain, content):
    """The reason that is due behind a fault of a file."""
    if plain == b"start 1 Json":
        return look_of(content)
    if plain.startswith(b"line ") and is_text(content):
        line = content.split(b"\n")[int(plain[5:].partition(b":")[0]) - 1]
        return b"line ends in CR" if line.endswith(b"\r") else b""
    return b""


def without_reason(name, told, content):
    """What is told of a file, in the form of commands that are no questions; its reason is so."""
    if SYSTEM.fullmatch(told):
        same(told, why_unread(name))
        return b"file"
    if found := FOUND.search(told):
        place = int(told.split()[4])
        same((found[1], bool(found[2])), (entries_of(content)[0][place].reply, place == 0))
        return told[:found.start()]
    found = LOOKS.search(told)
    plain = told[:found.start()] if found else told
    assert not plain.startswith(b"replay 2 "), f"{shown(told)} tells no reply"
    same(found[1] if found else b"", reason_of(plain, content))
    return plain
