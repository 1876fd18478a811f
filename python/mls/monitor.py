"""A monitor: a handle of the library, with the calls as methods."""
from __future__ import annotations

from ctypes import byref, c_uint16
from typing import Any, Callable, Iterator, Optional, Union

from . import library as lib
from .actions import Session
from .faults import NoSuchEntry, UnknownName
from .handle import Handle, is_ok
from .infos import StateStart
from .numbering import answer_of, entry_of, label_of, label_struct, number, text_bytes
from .reading import Reading
from .requests import Name, Request
from .values import Answer, Entry, Kind, Label, Mode

class Monitor(Handle, Reading):
    """An open monitor. Its calls may come from all threads: they take turns. It is neither copied nor pickled, nor used
    after a fork in the child of a process with threads."""

    @classmethod
    def open(cls, start: bytes, *, library: Optional[str] = None) -> Monitor:
        """Opens a monitor from the bytes of a start file, with an empty journal."""
        return cls(start, library=library)

    @classmethod
    def resume(cls, start: bytes, journal: bytes, *, library: Optional[str] = None) -> Monitor:
        """Opens a monitor from the bytes of a start file and those of a journal, whose replies are computed anew."""
        return cls(start, journal, library=library)

    @classmethod
    def open_state(cls, start: bytes, state: bytes, number: int, *, library: Optional[str] = None) -> Monitor:
        """Opens a monitor from the bytes of a start file and the text of a state to which so many entries led. It goes
        on from there: objects keep their numbers, the next entry has this number, and those before are forgotten. The
        state is secure and one of that start, or StateRefused is raised; that those entries led to it is for the caller
        to know."""
        monitor, loaded = cls.__new__(cls), lib.load(library)
        monitor._open(loaded, loaded.mls_open_state, start, state, number)
        return monitor

    def _number(self, call: Callable[..., int], name: Name) -> int:
        if isinstance(name, int):
            return number(name)
        found, text = c_uint16(), text_bytes(name)
        if self._call(call, text, len(text), byref(found)) == lib.NOT_FOUND:
            raise UnknownName(name)
        return found.value

    def subject(self, name: Name) -> int:
        """The number of a subject by its name; a number is its own."""
        return self._number(self._library.mls_subject, name)

    def object(self, name: Name) -> int:
        """The number of an object by its name in the start; a number is its own."""
        return self._number(self._library.mls_object, name)

    def label(self, label: Union[Label, str], kind: Kind = Kind.SECURITY) -> Label:
        """The label of a text in the start's scheme of this kind; a label is its own."""
        if isinstance(label, Label):
            return label
        struct, text = lib.Label(), text_bytes(label)
        is_ok(self._call(self._library.mls_read_label, kind, text, len(text), byref(struct)), f"no label: {label!r}")
        return label_of(struct)

    def label_text(self, label: Label, kind: Kind = Kind.SECURITY) -> str:
        """The text of a label in the start's scheme of this kind."""
        status, text = self._text(self._library.mls_write_label, kind, byref(label_struct(label)))
        is_ok(status, f"no label of the scheme: {label}")
        return text.decode()

    def submit(self, request: Request, session: Session = None) -> Answer:
        """Answers a request by the rules, changes the state as they say, and adds its entry to the journal, with the
        session, 0 where none is named."""
        struct, answer = self._struct(request), lib.Answer()
        asker = 0 if session is None else number(session, 32)
        is_ok(self._call(self._library.mls_submit, asker, byref(struct), byref(answer)))
        return answer_of(answer.number, answer.reply, answer.object)

    def decide(self, request: Request) -> Answer:
        """What submit would answer now. Nothing changes."""
        struct, answer = self._struct(request), lib.Answer()
        is_ok(self._call(self._library.mls_decide, byref(struct), byref(answer)))
        return answer_of(answer.number, answer.reply, answer.object)

    def check(self, subject: Name, mode: Union[Mode, str], object: Name) -> bool:
        """Whether a subject holds an access now. No entry is made."""
        numbers = self.subject(subject), self.object(object), Mode.of(mode)
        return self._call(self._library.mls_check, *numbers) == 1

    def _asked(self, name: str, *arguments: Any) -> int:
        return self._call(getattr(self._library, f"mls_{name}"), *arguments)

    def _name(self, call: Callable[..., int], of: int) -> Optional[str]:
        status, text = self._text(call, number(of))
        return None if status == lib.NOT_FOUND else text.decode()

    def subject_name(self, subject: int) -> Optional[str]:
        """The name that the start has for a subject's number, None where it has none."""
        return self._name(self._library.mls_subject_name, subject)

    def object_name(self, object: int) -> Optional[str]:
        """The name that the start has for an object's number. An object that was made later has none, or that of a
        deleted one whose number it has."""
        return self._name(self._library.mls_object_name, object)

    def state_start(self) -> StateStart:
        """A start file of the present state, and the numbers that its objects have there: without gaps, parents before
        their children. A monitor that is opened from it holds what this one does, with an empty journal."""
        numbers = (c_uint16 * lib.OBJECTS)()
        status, text = self._text(lambda *lent: self._library.mls_state_start(*lent, numbers))
        is_ok(status)
        return StateStart(text, {old: new for old, new in enumerate(numbers) if new < lib.OBJECTS})

    def state_text(self) -> bytes:
        """The text of the present state, as `mls state` prints it: open_state goes on from it."""
        status, text = self._text(self._library.mls_state_text)
        is_ok(status, "an allocation failed")
        return text

    @property
    def entry_count(self) -> int:
        """How many entries the journal has, with those that are forgotten."""
        return self._call(self._library.mls_entries)

    @property
    def forgotten(self) -> int:
        """How many of the first entries are forgotten, which is the number of the first that can be read."""
        return self._call(self._library.mls_forgotten)

    def forget(self, n: int) -> None:
        """Forgets the entries below n, as far as they are there, so that memory doesn't grow: nobody can read them any
        more. The state stays, and so do the numbers of the entries that come."""
        self._call(self._library.mls_forget, number(n, 64))

    def entry(self, n: int) -> Entry:
        """Entry n of the journal, counted from 0, unless it is forgotten."""
        struct = lib.Entry()
        if self._call(self._library.mls_entry, number(n, 64), byref(struct)) == lib.NOT_FOUND:
            raise NoSuchEntry(f"no entry {n}")
        return entry_of(struct)

    def entries(self, first: int = 0) -> Iterator[Entry]:
        """The entries from one on that aren't forgotten, up to the last that there is when they are asked for."""
        return map(self.entry, range(max(first, self.forgotten), self.entry_count))

    def line(self, n: int) -> bytes:
        """The line of entry n with its newline, as journals have it."""
        status, text = self._text(self._library.mls_entry_text, number(n, 64))
        if status == lib.NOT_FOUND:
            raise NoSuchEntry(f"no entry {n}")
        is_ok(status, "an allocation failed")
        return text

    def journal(self, first: int = 0) -> bytes:
        """The text of the journal from an entry on, for resume and for `mls replay`: NoSuchEntry where that is
        forgotten."""
        return b"".join(map(self.line, range(first, self.entry_count)))
