"""Requests and answers as the lines of a script, which the service takes and writes."""
from __future__ import annotations

import re
from typing import Optional, Union

from .faults import BadRequest, Busy, Ended, NotYours, UnknownName
from .numbering import number
from .requests import Create, Delete, Get, Give, Level, Name, Release, Request, Rescind
from .values import Answer, Label, Mode, Reason, Reply

# The forms of names, of what may be a label's text, and of answers, with the entry's number or without.
NAME = re.compile(r"[A-Za-z0-9_-]{1,32}")
TOKEN = re.compile(r"[!-~]+")
REASONS = "|".join(it.name.lower() for it in Reason)
ANSWER = re.compile(
    rf"(?:(?P<reply>yes|undefined)|created (?P<object>\d+)|no (?P<reason>{REASONS}))(?: (?P<number>\d+))?", re.ASCII
)
# What a line is answered that isn't asked.
FAULTS = {
    "bad form": BadRequest, "bad label": BadRequest, "no variables": BadRequest, "bad name": UnknownName,
    "not yours": NotYours, "busy": Busy,
}  # fmt: skip


def name(it: Name) -> str:
    """A subject or an object as a token."""
    if isinstance(it, int):
        return f"#{number(it)}"
    if not NAME.fullmatch(it):
        raise UnknownName(it)
    return it


def label(it: Union[Label, str]) -> str:
    """A label as a token: its text, since a client doesn't know the scheme that a Label's numbers belong to."""
    if isinstance(it, Label) or not TOKEN.fullmatch(it):
        raise BadRequest(f"no label's text: {it!r}")
    return it


def mode(it: Union[Mode, str]) -> str:
    return Mode.of(it).name.lower()


def line_of(request: Request) -> str:
    """The line that asks for a request."""
    subject = name(request.subject)
    if isinstance(request, Get):
        return f"{subject} get-{mode(request.mode)} {name(request.object)}"
    if isinstance(request, Release):
        return f"{subject} release {mode(request.mode)} {name(request.object)}"
    if isinstance(request, (Give, Rescind)):
        word = type(request).__name__.lower()
        return f"{subject} {word} {mode(request.mode)} {name(request.other)} {name(request.object)}"
    if isinstance(request, Create):
        return f"{subject} create {name(request.parent)} {label(request.security)} {label(request.integrity)}"
    if isinstance(request, Delete):
        return f"{subject} delete {name(request.object)}"
    if isinstance(request, Level):
        return f"{subject} level {label(request.security)}"
    return f"{subject} relabel {name(request.object)} {label(request.security)}"


def check_line(subject: Name, access: Union[Mode, str], object: Name) -> str:
    """The line that asks whether an access is held."""
    return f"{name(subject)} check {mode(access)} {name(object)}"


def is_asked(answer: str, line: str) -> None:
    """Raises what an answer says of a line that isn't asked."""
    if answer in FAULTS:
        raise FAULTS[answer](f"{answer}: {line}")


def number_in(digits: Optional[str]) -> Optional[int]:
    return None if digits is None else int(digits)


def answer_of(answer: str, line: str) -> Answer:
    """The answer that the service has written to a line which asks for a request."""
    is_asked(answer, line)
    found = ANSWER.fullmatch(answer)
    if not found:
        raise Ended(f"no answer: {answer!r}")
    entry, reason = number_in(found["number"]), found["reason"]
    if reason:
        return Answer(entry, Reply.DENIED, reason=Reason[reason.upper()])
    if found["reply"]:
        return Answer(entry, Reply[found["reply"].upper()])
    return Answer(entry, Reply.CREATED, object=number_in(found["object"]))


def would_be(answer: str, line: str) -> Answer:
    """The answer that the service has written to a line behind `? `."""
    is_asked(answer, line)
    if not answer.startswith("? "):
        raise Ended(f"no answer: {answer!r}")
    return answer_of(answer[2:], line)


def is_held(answer: str, line: str) -> bool:
    """What a check is answered."""
    is_asked(answer, line)
    if answer not in ("held", "not held"):
        raise Ended(f"no answer: {answer!r}")
    return answer == "held"
