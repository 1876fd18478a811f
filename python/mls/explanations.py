"""Why a request is answered as it is: its conditions, and what they rest on."""
from __future__ import annotations

import enum
from dataclasses import dataclass
from typing import Optional, Tuple

from .values import Label, Mode, Reason


class Compared(enum.IntEnum):
    """What a label that a condition compares is the label of."""

    MAXIMUM_OF_CALLER = 1
    CURRENT_OF_CALLER = 2
    REQUESTED_SECURITY = 3
    SECURITY_OF_OBJECT = 4
    REQUESTED_INTEGRITY = 5
    INTEGRITY_OF_OBJECT = 6
    INTEGRITY_OF_SUBJECT = 7


@dataclass(frozen=True)
class Term:
    """A label that a condition compares: what it is the label of, with the object's or the subject's number, and the
    label."""

    kind: Compared
    of: Optional[int]
    label: Label


class Basis(enum.IntEnum):
    """What a condition rests on, in the words of its members: it holds where this is so."""

    # the matrix permits subject the object in the mode
    PERMISSION = 1
    # the mode doesn't observe
    NO_OBSERVING = 2
    # execute neither observes nor alters
    EXECUTE = 3
    # subject is trusted
    TRUST = 4
    # first dominates second
    DOMINANCE = 5
    # first equals second
    EQUALITY = 6
    # subject holds write on object
    WRITING = 7
    # subject holds append or write on object
    ALTERING = 8
    # object has no parent
    NO_PARENT = 9
    # the next number, which object has, is below 4,096
    NUMBER = 10
    # object isn't the root
    NO_ROOT = 11
    # star of all that subject holds, with the current label first
    HOLDINGS = 12
    # also: subject writes parent; and first, its current label, and third, the new one, dominate second, that of object
    RELABELLING = 13
    # the label of each child of object dominates first
    CHILDREN = 14
    # first dominates second, the label of parent, the object's parent; and also: that of each child dominates first
    PLACE = 15
    # simple security of all that is held of object, with label first
    OBSERVERS = 16
    # star of all that is held of object, with label first
    HOLDERS = 17


@dataclass(frozen=True)
class Condition:
    """A condition of a request: the reason of the denial where it is the first that fails, whether it holds, and what
    it rests on. What its basis doesn't name is None."""

    reason: Reason
    holds: bool
    basis: Basis
    also: Optional[bool] = None
    mode: Optional[Mode] = None
    subject: Optional[int] = None
    object: Optional[int] = None
    parent: Optional[int] = None
    first: Optional[Term] = None
    second: Optional[Term] = None
    third: Optional[Term] = None


@dataclass(frozen=True)
class Explanation:
    """The conditions of a request, in the order of its rule. It is true where all hold, and the request would be
    granted. Of a get, `remedy` is the least current label that the subject can take now after which it is granted."""

    conditions: Tuple[Condition, ...]
    remedy: Optional[Label]

    def __bool__(self) -> bool:
        return self.failed is None

    @property
    def failed(self) -> Optional[Condition]:
        """The first condition that doesn't hold, whose reason is that of the denial."""
        return next((it for it in self.conditions if not it.holds), None)
