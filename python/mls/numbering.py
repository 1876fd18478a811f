"""Values as the numbers of the library's structs, and back."""
from __future__ import annotations

from ctypes import byref
from typing import Any, Callable, FrozenSet, Optional

from . import library
from .explanations import Basis, Compared, Condition, Explanation, Term
from .faults import BadRequest
from .infos import Counts, ObjectInfo, PairInfo, SubjectInfo
from .requests import Create, Delete, Get, Give, Level, Relabel, Release, Request, Rescind
from .values import Answer, Entry, Label, Mode, Reason, Reply


def number(value: int, bits: int = 16) -> int:
    """A number that has so many bits: of one that hasn't, ctypes would pass on another."""
    if not isinstance(value, int) or not 0 <= value < 1 << bits:
        raise BadRequest(f"no number below {1 << bits}: {value!r}")
    return value


def text_bytes(text: str) -> bytes:
    """The bytes of a name or of a label's text. A text that is no Unicode, as a file's name may be, has bytes that no
    name and no label has."""
    if not isinstance(text, str):
        raise BadRequest(f"no text: {text!r}")
    return text.encode("utf-8", "surrogatepass")


def label_struct(label: Label) -> library.Label:
    struct = library.Label(level=label.level)
    for it in label.categories:
        struct.categories[it // 64] |= 1 << it % 64
    return struct


def label_of(struct: library.Label) -> Label:
    words = enumerate(struct.categories)
    return Label(struct.level, frozenset(64 * n + bit for n, word in words for bit in range(64) if word >> bit & 1))


def dominates(first: Label, second: Label, name: Optional[str]) -> bool:
    """Whether a label dominates another, by the library of a file's name."""
    structs = label_struct(first), label_struct(second)
    result: int = library.load(name).mls_dominates(*map(byref, structs))
    return result == 1


def answer_of(number: Optional[int], reply: int, made: int) -> Answer:
    if reply >= Reply.DENIED:
        return Answer(number, Reply.DENIED, reason=Reason(reply - Reply.DENIED))
    return Answer(number, Reply(reply), object=made if reply == Reply.CREATED else None)


def request_of(struct: library.Request) -> Request:
    """The request that a struct says; what its action doesn't use isn't looked at."""
    subject, where = struct.subject, struct.object
    # (by the numbers of the actions)
    readers: tuple[Callable[[], Request], ...] = (
        lambda: Get(subject, Mode(struct.mode), where),
        lambda: Release(subject, Mode(struct.mode), where),
        lambda: Give(subject, Mode(struct.mode), struct.other, where),
        lambda: Rescind(subject, Mode(struct.mode), struct.other, where),
        lambda: Create(subject, where, label_of(struct.security), label_of(struct.integrity)),
        lambda: Delete(subject, where),
        lambda: Level(subject, label_of(struct.security)),
        lambda: Relabel(subject, where, label_of(struct.security)),
    )
    action: int = struct.action
    return readers[action]()


def entry_of(struct: library.Entry) -> Entry:
    answer = answer_of(struct.number, struct.reply, struct.object)
    return Entry(struct.session, request_of(struct.request), answer)


def subject_of(struct: library.SubjectInfo) -> SubjectInfo:
    labels = label_of(struct.maximum), label_of(struct.current), label_of(struct.integrity)
    return SubjectInfo(*labels, struct.trusted == 1)


def object_of(struct: library.ObjectInfo, number: int) -> ObjectInfo:
    return ObjectInfo(label_of(struct.security), label_of(struct.integrity), struct.parent if number else None)


def modes_of(total: int) -> FrozenSet[Mode]:
    return frozenset(it for it in Mode if total >> it & 1)


def pair_of(struct: library.PairInfo) -> PairInfo:
    return PairInfo(modes_of(struct.permitted), modes_of(struct.held))


def counts_of(struct: library.Counts) -> Counts:
    following = struct.next if struct.next < library.OBJECTS else None
    return Counts(struct.entries, struct.subjects, struct.objects, following)


# The terms that are of some object or subject.
OF_NUMBERS = (Compared.SECURITY_OF_OBJECT, Compared.INTEGRITY_OF_OBJECT, Compared.INTEGRITY_OF_SUBJECT)
# The members that a basis names.
NAMED: dict[Basis, set[str]] = {
    Basis.PERMISSION: {"subject", "object", "mode"},
    Basis.NO_OBSERVING: {"mode"},
    Basis.EXECUTE: set(),
    Basis.TRUST: {"subject"},
    Basis.DOMINANCE: {"first", "second"},
    Basis.EQUALITY: {"first", "second"},
    Basis.WRITING: {"subject", "object"},
    Basis.ALTERING: {"subject", "object"},
    Basis.NO_PARENT: {"object"},
    Basis.NUMBER: {"object"},
    Basis.NO_ROOT: {"object"},
    Basis.HOLDINGS: {"subject", "first"},
    Basis.RELABELLING: {"subject", "object", "parent", "also", "first", "second", "third"},
    Basis.CHILDREN: {"object", "first"},
    Basis.PLACE: {"object", "parent", "also", "first", "second"},
    Basis.OBSERVERS: {"object", "first"},
    Basis.HOLDERS: {"object", "first"},
}


def term_of(struct: library.Term) -> Term:
    kind = Compared(struct.kind)
    return Term(kind, struct.of if kind in OF_NUMBERS else None, label_of(struct.label))


READERS: dict[str, Callable[[Any], Any]] = {
    "mode": Mode, "also": bool, "first": term_of, "second": term_of, "third": term_of,
}  # fmt: skip


def condition_of(struct: library.Condition) -> Condition:
    basis = Basis(struct.basis)
    members = {it: READERS.get(it, int)(getattr(struct, it)) for it in NAMED[basis]}
    return Condition(Reason(struct.reason), struct.holds == 1, basis, **members)


def explanation_of(structs: list[library.Condition], remedy: library.Remedy) -> Explanation:
    label = label_of(remedy.label) if remedy.there == 1 else None
    return Explanation(tuple(map(condition_of, structs)), label)
