"""What is read of a state, and what its rules say: of a monitor's, or of the one that a session sees."""
from __future__ import annotations

import ctypes
from array import array
from ctypes import byref, c_size_t, c_uint16
from typing import Any, Iterable, Iterator, List, TypeVar, Union

from . import library as lib
from .asking import Asking
from .explanations import Explanation
from .faults import Undefined, UnknownName
from .handle import is_ok
from .infos import Counts, ObjectInfo, PairInfo, SubjectInfo
from .numbering import answer_of, counts_of, explanation_of, label_struct, object_of, pair_of, subject_of
from .requests import Name, Request
from .rows import Pair, lent, packed
from .values import Answer, Kind, Label, Mode

S = TypeVar("S", bound=ctypes.Structure)


class Reading(Asking):
    """What a monitor's calls and a session's of the same names have in common."""

    def _asked(self, name: str, *arguments: Any) -> int:
        """The status of the call of this name, on this handle."""
        raise NotImplementedError

    def decide_label(self, subject: Name, mode: Union[Mode, str], security: Union[Label, str],
                     integrity: Union[Label, str]) -> Answer:  # fmt: skip
        """What simple security, star and integrity say now of an access to what has these labels and isn't an object,
        say a row. The matrix isn't asked, nothing is held afterwards, and no entry is made: docs/EMBEDDING.md says how
        star is kept over rows."""
        labels = self.label(security), self.label(integrity, Kind.INTEGRITY)
        structs, reply = [byref(label_struct(it)) for it in labels], c_uint16()
        numbers = self.subject(subject), Mode.of(mode)
        is_ok(self._asked("decide_label", *numbers, *structs, byref(reply)))
        return answer_of(None, reply.value, 0)

    def rows(self, pairs: Iterable[Pair]) -> bytes:
        """The rows of pairs of labels, for decide_rows: each a security label and an integrity label, as texts of the
        start's schemes or as labels. Each text is read once. Rows may be kept, and be used again with every monitor."""
        return packed(self.label, pairs)

    def decide_rows(self, subject: Name, mode: Union[Mode, str], rows: Any) -> array[int]:
        """What decide_label says of the labels of each row, in their order and all in one state, as numbers: 0 for yes.
        `rows` is any buffer of structs `library.Labels`, one after the other: what `rows` returns, a bytearray, an
        array, a memoryview, or an array of numpy. Nobody may write to it meanwhile. BadRequest says that a row has no
        labels; then nothing is decided."""
        numbers, (structs, count) = (self.subject(subject), Mode.of(mode)), lent(rows)
        replies = array("H", bytes(2 * count))
        room = (c_uint16 * count).from_buffer(replies) if count else None
        is_ok(self._asked("decide_labels", *numbers, structs, count, room))
        return replies

    def decide_labels(self, subject: Name, mode: Union[Mode, str], pairs: Iterable[Pair]) -> List[Answer]:
        """What decide_label says of each pair of a security label and an integrity label, in their order and all in one
        state. Each text is read once, and each pair is decided once, however often it comes."""
        asked = list(pairs)
        distinct = list(dict.fromkeys(asked))
        replies = self.decide_rows(subject, mode, self.rows(distinct))
        answers = {pair: answer_of(None, reply, 0) for pair, reply in zip(distinct, replies)}
        return [answers[pair] for pair in asked]

    def explain(self, request: Request) -> Explanation:
        """The conditions of a request, each with whether it holds now and what it rests on, and the remedy of a get. No
        entry is made."""
        struct, count, remedy, room = self._struct(request), c_size_t(), lib.Remedy(), lib.CONDITIONS
        while True:
            rows = (lib.Condition * room)()
            status = self._asked("explain", byref(struct), rows, room, byref(count), byref(remedy))
            if status != lib.TOO_SHORT:
                break
            room = count.value
        if status == lib.NOT_FOUND:
            raise Undefined(f"undefined: {request}")
        is_ok(status)
        return explanation_of(rows[: count.value], remedy)

    def _told(self, name: str, struct: S, *numbers: int) -> S:
        """The struct that a call writes of what has these numbers."""
        status = self._asked(name, *numbers, byref(struct))
        if status == lib.NOT_FOUND:
            raise UnknownName(*numbers)
        is_ok(status)
        return struct

    def subject_info(self, subject: Name) -> SubjectInfo:
        """A subject's labels, and whether it is trusted."""
        return subject_of(self._told("read_subject", lib.SubjectInfo(), self.subject(subject)))

    def object_info(self, object: Name) -> ObjectInfo:
        """An object's labels and parent. UnknownName says that it isn't active."""
        where = self.object(object)
        return object_of(self._told("read_object", lib.ObjectInfo(), where), where)

    def pair(self, subject: Name, object: Name) -> PairInfo:
        """In which modes the matrix permits a subject an object, and in which it is held."""
        numbers = self.subject(subject), self.object(object)
        return pair_of(self._told("read_pair", lib.PairInfo(), *numbers))

    def counts(self) -> Counts:
        """How much there is."""
        return counts_of(self._told("count", lib.Counts()))

    def children(self, object: Name) -> Iterator[int]:
        """The children of an object, by their numbers, as they are when each is asked for. One that isn't active has
        none."""
        where, child = self.object(object), c_uint16()
        while self._asked("next_child", where, child.value, byref(child)) != lib.NOT_FOUND:
            yield child.value
