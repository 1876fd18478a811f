"""The reference monitor for multilevel security, mls: in the process that uses it, over the shared library libmls, and
as a service, by its socket.

    with mls.Monitor.open(start) as monitor:
        if monitor.get("ann", "read", "plans"):
            ...

    with mls.Client() as client:
        if client.get("ann", "read", "plans"):
            ...

README.md of this package has the first steps, and what is proved below it and what isn't.
"""
from .client import Client
from .explanations import Basis, Compared, Condition, Explanation, Term
from .faults import (
    BadRequest,
    Busy,
    Closed,
    Ended,
    Error,
    JournalRefused,
    NoLibrary,
    NoService,
    NoSuchEntry,
    NotYours,
    OutOfMemory,
    Refused,
    ReplayDiffers,
    StartRefused,
    StateRefused,
    Undefined,
    UnknownName,
)
from .infos import Counts, ObjectInfo, PairInfo, StateStart, SubjectInfo
from .monitor import Monitor
from .office import Office, Session
from .requests import Create, Delete, Get, Give, Level, Relabel, Release, Request, Rescind
from .values import Answer, Entry, Kind, Label, Mode, Reason, Reply

__all__ = [
    "Answer",
    "BadRequest",
    "Basis",
    "Busy",
    "Client",
    "Closed",
    "Compared",
    "Condition",
    "Counts",
    "Create",
    "Delete",
    "Ended",
    "Entry",
    "Error",
    "Explanation",
    "Get",
    "Give",
    "JournalRefused",
    "Kind",
    "Label",
    "Level",
    "Mode",
    "Monitor",
    "NoLibrary",
    "NoService",
    "NoSuchEntry",
    "NotYours",
    "ObjectInfo",
    "Office",
    "OutOfMemory",
    "PairInfo",
    "Reason",
    "Refused",
    "Relabel",
    "Release",
    "ReplayDiffers",
    "Reply",
    "Request",
    "Rescind",
    "Session",
    "StartRefused",
    "StateRefused",
    "StateStart",
    "SubjectInfo",
    "Term",
    "Undefined",
    "UnknownName",
]
__version__ = "0.3.0"
