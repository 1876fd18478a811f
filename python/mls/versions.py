"""Which version of the library this package is for, and that another is refused."""
from __future__ import annotations

import ctypes
import os
from ctypes import c_char_p, c_void_p

from .faults import NoLibrary

# MAJOR.MINOR, as mls_version() returns it. The next minor version may add numbers that this package can't name.
WANTED = "0.3"


class Place(ctypes.Structure):
    """What the system's loader says of an address (`dladdr`)."""

    _fields_ = [("file", c_char_p), ("base", c_void_p), ("symbol", c_char_p), ("address", c_void_p)]


def file_of(library: ctypes.CDLL) -> str:
    """The file that a library was loaded from; empty if the loader does not say."""
    place = Place()
    try:
        is_told = ctypes.CDLL(None).dladdr(ctypes.cast(library.mls_version, c_void_p), ctypes.byref(place))
    except (AttributeError, OSError, TypeError, ctypes.ArgumentError):
        return ""
    return os.fsdecode(place.file) if is_told and place.file else ""


def refuse_others(library: ctypes.CDLL, where: str, more: str) -> None:
    """Raises NoLibrary unless the library has the version that this package is for. The text begins with where it was
    looked for, and ends with what may help."""
    library.mls_version.restype = c_char_p
    found = library.mls_version().decode("ascii", "replace")
    if found != WANTED:
        file = file_of(library)
        name = f"libmls of {file}" if file else "libmls"
        raise NoLibrary(f"{where}: {name} has version {found}, and this package wants {WANTED}: {more}")
