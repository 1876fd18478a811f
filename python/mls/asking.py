"""What asks by the structs of the library: names are read as it says."""
from __future__ import annotations

from typing import Union

from . import library as lib
from .actions import Actions
from .faults import BadRequest
from .numbering import label_struct
from .requests import ACTIONS, Create, Get, Give, Level, Name, Relabel, Release, Request, Rescind
from .values import Kind, Label, Mode


class Asking(Actions):
    """What makes structs of requests: a monitor, or a session of an office."""

    def subject(self, name: Name) -> int:
        """The number of a subject by its name; a number is its own."""
        raise NotImplementedError

    def object(self, name: Name) -> int:
        """The number of an object by its name in the start; a number is its own."""
        raise NotImplementedError

    def label(self, label: Union[Label, str], kind: Kind = Kind.SECURITY) -> Label:
        """The label of a text in the start's scheme of this kind; a label is its own."""
        raise NotImplementedError

    def _struct(self, request: Request) -> lib.Request:
        """The struct of a request, its names and texts read."""
        if type(request) not in ACTIONS:
            raise BadRequest(f"no request: {request!r}")
        struct = lib.Request(action=ACTIONS.index(type(request)), subject=self.subject(request.subject))
        if isinstance(request, (Get, Release, Give, Rescind)):
            struct.mode = Mode.of(request.mode)
        if isinstance(request, (Give, Rescind)):
            struct.other = self.subject(request.other)
        if isinstance(request, (Create, Level, Relabel)):
            struct.security = label_struct(self.label(request.security))
        if isinstance(request, Create):
            struct.object = self.object(request.parent)
            struct.integrity = label_struct(self.label(request.integrity, Kind.INTEGRITY))
        elif not isinstance(request, Level):
            struct.object = self.object(request.object)
        return struct
