"""What a monitor is asked with and answers: modes, labels, replies with their reasons, answers and entries."""
from __future__ import annotations

import enum
from dataclasses import dataclass
from typing import FrozenSet, Optional, Union

from . import requests
from .faults import BadRequest


class Mode(enum.IntEnum):
    """A mode of access."""

    EXECUTE = 0
    READ = 1
    APPEND = 2
    WRITE = 3

    @classmethod
    def of(cls, mode: Union[Mode, str]) -> Mode:
        """The mode of a word, as scripts have it: 'read'."""
        if isinstance(mode, cls):
            return mode
        found = [it for it in cls if it.name.lower() == mode]
        if not found:
            raise BadRequest(f"no mode: {mode!r}")
        return found[0]


class Kind(enum.IntEnum):
    """A kind of labels."""

    SECURITY = 0
    INTEGRITY = 1


class Reply(enum.IntEnum):
    """What a request is answered. Only YES and CREATED grant it."""

    YES = 0
    CREATED = 1
    UNDEFINED = 2
    DENIED = 16


class Reason(enum.IntEnum):
    """Why a request is denied: the first condition of its rule that fails."""

    DISCRETIONARY = 1
    SIMPLE = 2
    STAR = 3
    INTEGRITY = 4
    AUTHORITY = 5
    COMPATIBILITY = 6
    CEILING = 7
    ROOT = 8
    FULL = 9


@dataclass(frozen=True)
class Label:
    """A label, by numbers: a level below 16, and categories below 256. Monitor.label reads a label's text."""

    level: int
    categories: FrozenSet[int] = frozenset()

    def __post_init__(self) -> None:
        object.__setattr__(self, "categories", frozenset(self.categories))
        if not 0 <= self.level < 16 or any(not 0 <= it < 256 for it in self.categories):
            raise BadRequest(f"no label: {self}")

    def dominates(self, other: Label, *, library: Optional[str] = None) -> bool:
        """Whether this label dominates another: its level is no lower, and it has all categories of the other. The
        library is asked, which is found as for a monitor."""
        # (numbering makes labels, and so needs this module first)
        from .numbering import dominates

        return dominates(self, other, library)


@dataclass(frozen=True)
class Answer:
    """The answer to a request. It is true where the request is granted, and its text is as scripts have it. `number` is
    that of its entry: from a client None where the service doesn't tell it, or nothing was asked."""

    number: Optional[int]
    reply: Reply
    reason: Optional[Reason] = None
    object: Optional[int] = None

    def __bool__(self) -> bool:
        return self.reply in (Reply.YES, Reply.CREATED)

    def __str__(self) -> str:
        if self.reason is not None:
            return f"no {self.reason.name.lower()}"
        return f"created {self.object}" if self.reply is Reply.CREATED else self.reply.name.lower()


@dataclass(frozen=True)
class Entry:
    """An entry of the journal: which session asked what, by numbers, and the answer, which has the entry's number."""

    session: int
    request: requests.Request
    answer: Answer
