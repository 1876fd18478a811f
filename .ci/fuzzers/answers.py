"""What lines of scripts may be answered, by the readers that were written from docs/FORMATS.md."""
import re

from formats import REASONS, Refused, ask_of
from outside import shown

REPLY = re.compile(rb"yes|created (?:0|[1-9]\d*)|undefined|no (?:" + b"|".join(REASONS) + rb")")
FAULTS = {"bad form", "bad name", "bad label"}
ALL_ANSWERS = {*FAULTS, "held", "not held", "yes", "created", "undefined", *(f"no {it.decode()}" for it in REASONS)}


def answer_of(ask, answer, start):
    """Sees that what is asked can have an answer. Returns the answer's words."""
    is_known = ask.subject < len(start.subjects)
    if ask.action == b"check":
        is_due = answer in (b"held", b"not held") and (is_known or answer == b"not held")
    else:
        is_due = REPLY.fullmatch(answer) and (is_known or answer == b"undefined")
    words = "created" if answer.startswith(b"created ") else answer.decode()
    assert is_due and words != ("yes" if ask.action == b"create" else "created"), f"{ask} is answered {answer}"
    return words


def compared(lines, answers, start):
    """Compares the lines of a script with its answers, as far as these are taken. Returns each line's answer, and the
    subject, action, operands and reply of each request."""
    bound, words, requests = {}, [], []
    for line in lines:
        try:
            ask = ask_of(line, start, bound)
        except Refused as fault:
            answer = next(answers, None)
            assert answer == str(fault).encode(), f"{shown(line)} is answered {answer}, and not {fault}"
            words.append(str(fault))
            continue
        if ask is not None:
            answer = next(answers, b"nothing")
            words.append(answer_of(ask, answer, start))
            if ask.action != b"check":
                requests.append((*ask[:3], answer))
            if ask.variable is not None and words[-1] == "created":
                bound[ask.variable] = int(answer.split(b" ")[1])
    return words, requests


def lines_in(script):
    """The lines of a script, of which the last counts where it has a byte."""
    *lines, last = script.split(b"\n")
    return lines + [last] if last else lines


def are_numbered(replies, start):
    """Sees that objects were made with the numbers after the start's, one after the other; in profile 2 some may come again."""
    found, first = [int(it.split(b" ")[1]) for it in replies if it.startswith(b"created ")], len(start.objects)
    after = [*range(first, first + len(found))]
    is_right = found == after if start.profile == 1 else all(0 < it <= most for it, most in zip(found, after))
    assert is_right, f"{shown(found)} are made after {first - 1}"
