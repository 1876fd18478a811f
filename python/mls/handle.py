"""A handle of the library: how it is opened, called and closed."""
from __future__ import annotations

import ctypes
import threading
import weakref
from ctypes import byref, c_size_t
from types import TracebackType
from typing import Any, Callable, Optional, Type, TypeVar

from . import library as lib
from .faults import (BadRequest, Closed, Error, JournalRefused, OutOfMemory, ReplayDiffers, StartRefused,
                     StateRefused)  # fmt: skip
from .numbering import number

H = TypeVar("H", bound="Handle")
# The room for a line or a label's text at first: most have less.
ROOM = 256
REFUSALS = {lib.CLOSED: Closed, lib.NO_MEMORY: OutOfMemory, lib.INVALID: BadRequest}


def is_ok(status: int, what: str = "") -> None:
    """Raises what a status below 0 says."""
    if status:
        raise REFUSALS.get(status, Error)(what or f"status {status}")


def fault_text(library: ctypes.CDLL, status: int, fault: lib.Fault) -> str:
    """The line that the program mls prints of a fault."""
    buffer, length = ctypes.create_string_buffer(lib.FAULT_TEXT), c_size_t()
    library.mls_fault_text(status, byref(fault), buffer, lib.FAULT_TEXT, byref(length))
    return buffer.raw[: length.value].decode()


def opened(library: ctypes.CDLL, status: int, fault: lib.Fault) -> None:
    """Raises what the status of an opening says."""
    text = fault_text(library, status, fault)
    if status == lib.START_REFUSED:
        raise StartRefused(text, fault.kind, fault.number)
    if status == lib.JOURNAL_REFUSED:
        raise JournalRefused(text, fault.place, fault.kind)
    if status == lib.REPLAY_DIFFERS:
        raise ReplayDiffers(text, fault.place, None if fault.kind == 1 else fault.number)
    if status == lib.STATE_REFUSED:
        raise StateRefused(text, fault.kind, fault.place)
    is_ok(status, "too many entries" if status == lib.INVALID else "an allocation failed")


class Handle:
    """A handle of the library, which is opened as it is made. Its calls take turns."""

    def __init__(self, start: bytes, journal: bytes = b"", *, library: Optional[str] = None) -> None:
        loaded = lib.load(library)
        self._open(loaded, loaded.mls_resume, start, journal)

    def _open(self, library: ctypes.CDLL, call: Callable[..., int], start: bytes, text: bytes, *numbers: int) -> None:
        """Opens the handle by a call that takes a start, a text and numbers of 64 bits."""
        self._library, self._handle, fault = library, lib.Handle(), lib.Fault()
        # (a lock that a signal handler's calls may take again: they come between the library's calls, never in one)
        self._lock = threading.RLock()
        first, then = bytes(start), bytes(text)
        # (nothing that a call is lent may overlap, and of one text there may be one object)
        lent = ctypes.create_string_buffer(then, len(then)) if first is then else then
        taken = (first, len(first), lent, len(then), *(number(it, 64) for it in numbers))
        opened(library, call(byref(self._handle), *taken, byref(fault)), fault)
        self._keep()

    def _keep(self) -> None:
        """Has the handle closed once nobody has it."""
        self._close = weakref.finalize(self, self._library.mls_close, byref(self._handle))
        # (threads may still be in a call when the process ends, and its end frees all)
        self._close.atexit = False

    def close(self) -> None:
        """Closes the monitor and frees what it holds, its journal too. All calls but this one then raise Closed."""
        with self._lock:
            self._close()

    @property
    def is_closed(self) -> bool:
        return not self._close.alive

    def __enter__(self: H) -> H:
        return self

    def __exit__(self, kind: Optional[Type[BaseException]], error: Optional[BaseException],
                 trace: Optional[TracebackType]) -> None:  # fmt: skip
        self.close()

    def __reduce_ex__(self, protocol: Any) -> Any:
        raise TypeError("a monitor is neither copied nor pickled")

    def _yield_up(self) -> lib.Handle:
        """The handle itself, with which this one is closed, and frees nothing."""
        with self._lock:
            if not self._close.detach():
                raise Closed("the monitor is closed")
            return self._handle

    @classmethod
    def _of(cls: Type[H], library: ctypes.CDLL, handle: lib.Handle) -> H:
        """One that has an open handle."""
        kept = cls.__new__(cls)
        kept._library, kept._handle, kept._lock = library, handle, threading.RLock()
        kept._keep()
        return kept

    def _call(self, call: Callable[..., int], *arguments: Any) -> int:
        with self._lock:
            if self.is_closed:
                raise Closed("the monitor is closed")
            return call(byref(self._handle), *arguments)

    def _text(self, call: Callable[..., int], *arguments: Any) -> tuple[int, bytes]:
        """The status and the text of a call that copies one out."""
        length, room = c_size_t(), ROOM
        while True:
            buffer = ctypes.create_string_buffer(room)
            status = self._call(call, *arguments, buffer, room, byref(length))
            if status != lib.TOO_SHORT:
                return status, buffer.raw[: length.value]
            room = length.value
