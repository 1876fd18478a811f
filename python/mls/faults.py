"""The exceptions: one for each status below 0 that a call from here can have, and what a client of the service meets. A
denial is none: it is an answer."""
from __future__ import annotations


class Error(Exception):
    """What the library or the service refuses."""


class Closed(Error, ValueError):
    """The monitor, or the client's session, is closed."""


class OutOfMemory(Error, MemoryError):
    """An allocation failed. Nothing was changed: the call may be made again."""


class BadRequest(Error, ValueError):
    """What was given is no request or no label: a number out of range, or a text that its scheme doesn't have."""


class UnknownName(Error, KeyError):
    """The start has no subject, or no object, of this name; or there is none of this number, and it was asked about."""


class Undefined(Error, LookupError):
    """The request is answered `undefined`, so it has no explanation: what it names isn't there, or a label is outside
    the bounds."""


class NoSuchEntry(Error, IndexError):
    """The journal has no entry of this number."""


class NoLibrary(Error, OSError):
    """There is no libmls where it was looked for, or it has another version than this package is for."""


class NoService(Error, ConnectionError):
    """Nothing can be reached at the socket: `path` is its path."""

    def __init__(self, path: str, why: str) -> None:
        super().__init__(f"{path}: {why}")
        self.path = path


class StartRefused(Error, ValueError):
    """The start file is refused: `fault` is the number of its fault, 1 Json to 7 Start, and `cause` that of a fault 3
    Scheme or 7 Start, else 0. Its text is the line of the program mls, as that of the next three is. docs/FORMATS.md
    says what the names are, and `mls lint` prints where the fault is."""

    def __init__(self, text: str, fault: int, cause: int) -> None:
        super().__init__(text)
        self.fault, self.cause = fault, cause


class JournalRefused(Error, ValueError):
    """A line of the journal is no entry's: `line` is the first that is none, counted from 0, where the text counts from
    1, with its fault, 1 BadForm to 4 BadReply."""

    def __init__(self, text: str, line: int, fault: int) -> None:
        super().__init__(text)
        self.line, self.fault = line, fault


class StateRefused(Error, ValueError):
    """The text isn't that of a secure state of the start: `fault` is 1 where a line isn't as it must be, which is then
    in `line`, counted from 0; 2 where it is a state of another start; 3 where it is one that isn't secure."""

    def __init__(self, text: str, fault: int, line: int) -> None:
        super().__init__(text)
        self.fault, self.line = fault, line if fault == 1 else None


class Refused(Error):
    """The service has no session for this process: `busy`, or `not known`."""


class Ended(Error, ConnectionError):
    """The service has ended the session, or wasn't in time: what was asked last may have been taken or not."""


class NotYours(Error, PermissionError):
    """This process may not ask as that subject."""


class Busy(Error):
    """The service has a limit, which this line would pass, and it wasn't asked; or a session is at work in an office,
    which stays open."""


class ReplayDiffers(Error, ValueError):
    """The journal isn't one of its start: `entry` is the first, counted from 0, that hasn't its place as number, or
    hasn't the reply that the rules give, which is then in `wanted`, as a number of the library's."""

    def __init__(self, text: str, entry: int, wanted: int | None) -> None:
        super().__init__(text)
        self.entry, self.wanted = entry, wanted
