"""An office: a monitor that threads share, each by a session of its own."""
from __future__ import annotations

import contextlib
import itertools
import threading
import time
from ctypes import byref, c_int, c_size_t, c_uint64, create_string_buffer
from types import TracebackType
from typing import Any, Callable, Optional, Type, Union

from . import actions
from . import library as lib
from .faults import BadRequest, Busy, Closed, NoSuchEntry, UnknownName
from .handle import is_ok
from .monitor import Monitor
from .numbering import answer_of, number
from .reading import Reading
from .requests import Name, Request
from .values import Answer, Kind, Label, Mode


class Office:
    """A monitor that is open to so many sessions, 1 to 64, whose calls run side by side: `sessions` is their tuple, one
    for each thread. The monitor is closed while the office has it; close gives one back, with the journal of all
    sessions. A `with` block that leaves the office open closes it and its monitor."""

    def __init__(self, monitor: Monitor, count: int) -> None:
        if not 1 <= number(count) <= lib.SESSIONS:
            raise BadRequest(f"not 1 to {lib.SESSIONS} sessions: {count}")
        self._subjects, self._objects = _numbers(monitor.subject_name), _numbers(monitor.object_name)
        self._library, self._office, self._sessions = monitor._library, lib.Office(), (lib.Session * count)()
        handle = monitor._yield_up()
        status = self._library.mls_office_open(byref(self._office), byref(handle), self._sessions, count)
        if status:
            monitor._handle = handle
            monitor._keep()
        is_ok(status, "an allocation failed")
        self.sessions = tuple(Session(self, it) for it in range(count))

    def close(self) -> Monitor:
        """The monitor, with the one journal of all sessions. Their calls then raise Closed. Busy if one is at work: end
        the threads first. Then nothing is changed."""
        handle = lib.Handle()
        taken = [session for session in self.sessions if session._lock.acquire(blocking=False)]
        try:
            if len(taken) < len(self.sessions):
                raise Busy("a session is at work")
            is_ok(self._library.mls_office_close(byref(self._office), self._sessions, byref(handle)))
        finally:
            for session in taken:
                session._lock.release()
        return Monitor._of(self._library, handle)

    def __enter__(self) -> Office:
        return self

    def __exit__(self, kind: Optional[Type[BaseException]], error: Optional[BaseException],
                 trace: Optional[TracebackType]) -> None:  # fmt: skip
        with contextlib.suppress(Closed):
            self.close().close()

    def __del__(self) -> None:
        for session in getattr(self, "_sessions", ()):
            self._library.mls_session_drop(byref(session))
        if hasattr(self, "_office"):
            self._library.mls_office_drop(byref(self._office))

    def __reduce_ex__(self, protocol: Any) -> Any:
        raise TypeError("an office is neither copied nor pickled")


class Session(Reading):
    """A session of an office, by its number, which its entries have. Its calls take turns; those of different sessions
    run side by side. Names are those that the monitor had when the office was opened. A label is a Label, which
    Monitor.label reads from its text before."""

    def __init__(self, office: Office, number: int) -> None:
        self.office, self.number = office, number
        self._lock = threading.Lock()

    def _asked(self, name: str, *arguments: Any) -> int:
        """The status of a call, which is made until no other session is at the monitor."""
        call = getattr(self.office._library, f"mls_session_{name}")
        with self._lock:
            for wait in range(1 << 62):
                status: int = call(byref(self.office._sessions[self.number]), *arguments)
                if status != lib.BUSY:
                    if status == lib.CLOSED:
                        is_ok(status)
                    return status
                time.sleep(0 if wait < 8 else 0.0001)
        raise Busy("a session is at work")

    def subject(self, name: Name) -> int:
        """The number of a subject by its name; a number is its own."""
        return _number(self.office._subjects, name)

    def object(self, name: Name) -> int:
        """The number of an object by its name when the office was opened; a number is its own."""
        return _number(self.office._objects, name)

    def label(self, label: Union[Label, str], kind: Kind = Kind.SECURITY) -> Label:
        """A label is its own; its text is read by a monitor."""
        if isinstance(label, Label):
            return label
        raise BadRequest(f"a session takes a Label, no text: {label!r}; before the office opens, Monitor.label reads it")

    def submit(self, request: Request, session: actions.Session = None) -> Answer:
        """Answers a request by the rules, changes the state as they say, and adds its entry to the one journal. It has
        the session's number: `session` is that or None."""
        if session not in (None, self.number):
            raise BadRequest(f"session {self.number} asks for itself alone")
        struct, answer = self._struct(request), lib.Answer()
        is_ok(self._asked("submit", byref(struct), byref(answer)))
        return answer_of(answer.number, answer.reply, answer.object)

    def decide(self, request: Request) -> Answer:
        """What submit would answer now, if no other session made an entry before. Nothing changes."""
        struct, answer = self._struct(request), lib.Answer()
        is_ok(self._asked("decide", byref(struct), byref(answer)))
        return answer_of(answer.number, answer.reply, answer.object)

    def check(self, subject: Name, mode: Union[Mode, str], object: Name) -> bool:
        """Whether a subject holds an access, at some moment between this session's last entry and its next."""
        numbers, held = (self.subject(subject), self.object(object), Mode.of(mode)), c_int()
        is_ok(self._asked("check", *numbers, byref(held)))
        return held.value == 1

    def see(self, n: int) -> bool:
        """Sees the journal, and returns whether it has at least n entries: if so, all that this session is answered from
        then on is of a journal of at least n entries. Where another thread tells the number of its entry, n is that
        number plus one."""
        status = self._asked("see", number(n, 64))
        if status == lib.TOO_EARLY:
            return False
        is_ok(status)
        return True

    def changes(self) -> int:
        """How many changes the journal has since the office was opened: granted requests that took an access or a
        permission away, or changed a label. Each is in the count before its submit returns. While the count is as
        before, no access or permission has gone: a cache keeps a yes of this session's check with the count that was
        read before it. A new office counts from 0."""
        count = c_uint64()
        is_ok(self._asked("changes", byref(count)))
        return count.value

    def meet(self, other: Session) -> None:
        """Gives both sessions, which are of one office, what either has seen."""
        first, second = sorted((self, other), key=lambda it: it.number)
        if self is other or self.office is not other.office:
            raise BadRequest("not two sessions of one office")
        with first._lock, second._lock:
            sessions = self.office._sessions
            is_ok(self.office._library.mls_session_meet(byref(sessions[self.number]), byref(sessions[other.number])))

    def lines(self, first: int = 0, room: int = 1 << 16) -> tuple[bytes, int]:
        """The lines of the journal's entries from one on, while the office is open: whole lines, as many as fit into so
        many bytes, none if there is no such entry yet; and the number of the entry after them. NoSuchEntry if the entry
        is forgotten or above the number of entries; BadRequest if not one line fits: each has less than 4,096 bytes."""
        buffer, length, after = create_string_buffer(room), c_size_t(), c_uint64()
        status = self._asked("entry_text", number(first, 64), buffer, room, byref(length), byref(after))
        if status == lib.NOT_FOUND:
            raise NoSuchEntry(f"no entry {first}")
        if status == lib.TOO_SHORT:
            raise BadRequest(f"no room for the line of entry {first} in {room} bytes")
        is_ok(status, "an allocation failed")
        return buffer.raw[: length.value], after.value

    def forget(self, n: int) -> None:
        """Forgets the entries below n, as far as they are there, so that memory doesn't grow: no session can read them any
        more. All else stays: the state, and the numbers of later entries."""
        is_ok(self._asked("forget", number(n, 64)))


def _numbers(name_of: Callable[[int], Optional[str]]) -> dict[str, int]:
    """The names that a start has, each with its number: those have no gaps."""
    names = itertools.takewhile(lambda name: name is not None, map(name_of, range(lib.OBJECTS)))
    return {name: it for it, name in enumerate(names) if name is not None}


def _number(names: dict[str, int], name: Name) -> int:
    if isinstance(name, int):
        return number(name)
    if name not in names:
        raise UnknownName(name)
    return names[name]
