"""What a monitor holds."""
from __future__ import annotations

from dataclasses import dataclass
from typing import Dict, FrozenSet, Optional

from .values import Label, Mode


@dataclass(frozen=True)
class SubjectInfo:
    """A subject. The star property binds one that isn't trusted."""

    maximum: Label
    current: Label
    integrity: Label
    is_trusted: bool


@dataclass(frozen=True)
class ObjectInfo:
    """An active object. The root, object 0, has no parent."""

    security: Label
    integrity: Label
    parent: Optional[int]


@dataclass(frozen=True)
class PairInfo:
    """A subject and an object: the modes that the matrix permits, and those in which it is held."""

    permitted: FrozenSet[Mode]
    held: FrozenSet[Mode]


@dataclass(frozen=True)
class Counts:
    """How many entries, subjects and active objects there are, and the number that the next object will have, None
    where none is left. Subjects have the numbers below how many there are."""

    entries: int
    subjects: int
    objects: int
    next: Optional[int]


@dataclass(frozen=True)
class StateStart:
    """A start file of a state: its bytes, and the number that each object which is active in the state has there."""

    text: bytes
    numbers: Dict[int, int]
