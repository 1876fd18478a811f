"""Rows for batches: the labels of many things that are no objects, in a buffer that the library reads."""
from __future__ import annotations

import ctypes
from typing import Any, Callable, Dict, Iterable, Tuple, Union

from . import library as lib
from .faults import BadRequest
from .numbering import label_struct
from .values import Kind, Label

# The security label and the integrity label of a row, each as a text of its scheme or as a label.
Pair = Tuple[Union[Label, str], Union[Label, str]]
SIZE = ctypes.sizeof(lib.Labels)


class Texts(Dict[Union[Label, str], bytes]):
    """The bytes of the structs of labels of a kind. Each text is read when it is looked up first."""

    def __init__(self, read: Callable[[Union[Label, str], Kind], Label], kind: Kind) -> None:
        super().__init__()
        self._read, self._kind = read, kind

    def __missing__(self, label: Union[Label, str]) -> bytes:
        found = self[label] = bytes(label_struct(self._read(label, self._kind)))
        return found


def packed(read: Callable[[Union[Label, str], Kind], Label], pairs: Iterable[Pair]) -> bytes:
    """The rows of pairs of labels, whose texts `read` reads."""
    first, second = Texts(read, Kind.SECURITY), Texts(read, Kind.INTEGRITY)
    return b"".join([first[security] + second[integrity] for security, integrity in pairs])


def lent(rows: Any) -> Tuple[Any, int]:
    """The rows of a buffer as a call takes them, and how many they are. They are copied only if they aren't aligned, or
    can't be written to and aren't the whole of some bytes."""
    view = memoryview(rows)
    count, rest = divmod(view.nbytes, SIZE)
    if rest or not view.c_contiguous:
        raise BadRequest(f"no rows of {SIZE} bytes, one after the other: {view.nbytes} bytes")
    if not count:
        return None, 0
    if isinstance(view.obj, bytes) and len(view.obj) == view.nbytes:
        return ctypes.cast(ctypes.c_char_p(view.obj), ctypes.POINTER(lib.Labels)), count
    whole = lib.Labels * count
    if not view.readonly:
        shared = whole.from_buffer(rows)
        if ctypes.addressof(shared) % ctypes.alignment(lib.Labels) == 0:
            return shared, count
    return whole.from_buffer_copy(rows), count
