"""The files of a journal in segments, as checks find them."""
import os
import re

from serving import content

NUMBER = r"(\d{20})"


def numbered(journal, word=""):
    """The numbers of the files of a journal: its closed segments, or, with `state.`, its states."""
    folder, base = os.path.split(journal)
    pattern = re.compile(re.escape(f"{base}.{word}") + NUMBER + r"\Z")
    return sorted(int(found[1]) for name in os.listdir(folder or ".") if (found := pattern.match(name)))


def segment(journal, number):
    return f"{journal}.{number:020}"


def state(journal, number):
    return f"{journal}.state.{number:020}"


def is_linked(journal):
    """Whether the live file is the last segment too."""
    closed = numbered(journal)
    return bool(closed) and os.path.samefile(segment(journal, closed[-1]), journal)


def joined(journal):
    """What all files of a journal hold, as if it had never been cut."""
    closed = numbered(journal)
    parts = [content(segment(journal, number)) for number in closed]
    return b"".join(parts) + (b"" if is_linked(journal) else content(journal))


def remove(journal):
    """Takes all files of a journal away."""
    folder = os.path.dirname(journal) or "."
    for name in os.listdir(folder):
        if name == os.path.basename(journal) or name.startswith(os.path.basename(journal) + "."):
            os.remove(os.path.join(folder, name))
