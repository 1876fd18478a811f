"""Requests. A subject or an object is its name in the start, or its number; a mode may be its word, and a label its
text. In a request that comes from a journal all are numbers, modes and labels. The first member is the subject that
asks, and members stand in the order of a script's line."""
from __future__ import annotations

from dataclasses import dataclass
from typing import TYPE_CHECKING, Union

if TYPE_CHECKING:
    from .values import Label, Mode

Name = Union[str, int]


@dataclass(frozen=True)
class Get:
    """An access to an object."""

    subject: Name
    mode: Union[Mode, str]
    object: Name


@dataclass(frozen=True)
class Release:
    """The end of an access."""

    subject: Name
    mode: Union[Mode, str]
    object: Name


@dataclass(frozen=True)
class Give:
    """A permission for another subject."""

    subject: Name
    mode: Union[Mode, str]
    other: Name
    object: Name


@dataclass(frozen=True)
class Rescind:
    """That another subject be permitted it no longer."""

    subject: Name
    mode: Union[Mode, str]
    other: Name
    object: Name


@dataclass(frozen=True)
class Create:
    """An object below its parent."""

    subject: Name
    parent: Name
    security: Union[Label, str]
    integrity: Union[Label, str]


@dataclass(frozen=True)
class Delete:
    """That an object and all below it be deleted."""

    subject: Name
    object: Name


@dataclass(frozen=True)
class Level:
    """Another current label of the subject."""

    subject: Name
    security: Union[Label, str]


@dataclass(frozen=True)
class Relabel:
    """Another security label of an object."""

    subject: Name
    object: Name
    security: Union[Label, str]


Request = Union[Get, Release, Give, Rescind, Create, Delete, Level, Relabel]
# By the numbers of the actions.
ACTIONS = (Get, Release, Give, Rescind, Create, Delete, Level, Relabel)
