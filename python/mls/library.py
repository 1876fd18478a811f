"""The shared library by ctypes: the structs, the calls and the statuses as include/mls.h has them."""
from __future__ import annotations

import ctypes
import functools
import os
from ctypes import POINTER, c_char_p, c_int, c_size_t, c_uint8, c_uint16, c_uint32, c_uint64, c_void_p

from .faults import NoLibrary
from .versions import refuse_others

# The name that the loader looks for, unless the environment names a file.
NAME, VARIABLE = "libmls.so.0", "MLS_LIBRARY"
HELP = f"install the package libmls0, or name the file of libmls by {VARIABLE} or by the argument library"
CLOSED, NO_MEMORY, INVALID = -1, -3, -4
START_REFUSED, JOURNAL_REFUSED, REPLAY_DIFFERS = -5, -6, -7
TOO_SHORT, NOT_FOUND = -8, -9
STATE_REFUSED, BUSY, TOO_EARLY = -10, -11, -12
# Object numbers are below the first, and no request has more conditions than the second.
OBJECTS, CONDITIONS = 4096, 4
# An office has no more sessions than the first, and the line of a fault is not longer than the second.
SESSIONS, FAULT_TEXT = 64, 80


class Handle(ctypes.Structure):
    _fields_ = [("held", c_uint32), ("monitor", c_void_p)]


class Office(ctypes.Structure):
    _fields_ = [("held", c_uint32), ("hall", c_void_p), ("serial", c_uint64), ("count", c_uint16)]


class Session(ctypes.Structure):
    _fields_ = [("held", c_uint32), ("place", c_void_p), ("office", c_uint64), ("number", c_uint16)]


class Label(ctypes.Structure):
    _fields_ = [("level", c_uint8), ("categories", c_uint64 * 4)]


class Labels(ctypes.Structure):
    _fields_ = [("security", Label), ("integrity", Label)]


class Request(ctypes.Structure):
    _fields_ = [
        ("action", c_uint8), ("mode", c_uint8), ("subject", c_uint16), ("other", c_uint16), ("object", c_uint16),
        ("security", Label), ("integrity", Label),
    ]  # fmt: skip


class Answer(ctypes.Structure):
    _fields_ = [("number", c_uint64), ("reply", c_uint16), ("object", c_uint16)]


class Entry(ctypes.Structure):
    _fields_ = [
        ("number", c_uint64), ("session", c_uint32), ("reply", c_uint16), ("object", c_uint16), ("request", Request),
    ]  # fmt: skip


class Fault(ctypes.Structure):
    _fields_ = [("kind", c_uint16), ("number", c_uint16), ("place", c_uint64)]


class SubjectInfo(ctypes.Structure):
    _fields_ = [("maximum", Label), ("current", Label), ("integrity", Label), ("trusted", c_uint8)]


class ObjectInfo(ctypes.Structure):
    _fields_ = [("security", Label), ("integrity", Label), ("parent", c_uint16)]


class PairInfo(ctypes.Structure):
    _fields_ = [("permitted", c_uint8), ("held", c_uint8)]


class Counts(ctypes.Structure):
    _fields_ = [("entries", c_uint64), ("subjects", c_uint16), ("objects", c_uint16), ("next", c_uint16)]


class Term(ctypes.Structure):
    _fields_ = [("kind", c_uint16), ("of", c_uint16), ("label", Label)]


class Condition(ctypes.Structure):
    _fields_ = [
        ("reason", c_uint16), ("holds", c_uint8), ("also", c_uint8), ("basis", c_uint8), ("mode", c_uint8),
        ("subject", c_uint16), ("object", c_uint16), ("parent", c_uint16),
        ("first", Term), ("second", Term), ("third", Term),
    ]  # fmt: skip


class Remedy(ctypes.Structure):
    _fields_ = [("there", c_uint8), ("label", Label)]


MONITOR, LENGTH = POINTER(Handle), POINTER(c_size_t)
OFFICE, SESSION = POINTER(Office), POINTER(Session)
# The calls: what each returns, and what it takes.
CALLS = {
    "mls_open": (c_int, [MONITOR, c_char_p, c_size_t, POINTER(Fault)]),
    "mls_resume": (c_int, [MONITOR, c_char_p, c_size_t, c_char_p, c_size_t, POINTER(Fault)]),
    "mls_open_state": (c_int, [MONITOR, c_char_p, c_size_t, c_char_p, c_size_t, c_uint64, POINTER(Fault)]),
    "mls_submit": (c_int, [MONITOR, c_uint32, POINTER(Request), POINTER(Answer)]),
    "mls_check": (c_int, [MONITOR, c_uint16, c_uint16, c_uint8]),
    "mls_decide": (c_int, [MONITOR, POINTER(Request), POINTER(Answer)]),
    "mls_entries": (c_uint64, [MONITOR]),
    "mls_entry": (c_int, [MONITOR, c_uint64, POINTER(Entry)]),
    "mls_entry_text": (c_int, [MONITOR, c_uint64, c_char_p, c_size_t, LENGTH]),
    "mls_forget": (c_int, [MONITOR, c_uint64]),
    "mls_forgotten": (c_uint64, [MONITOR]),
    "mls_subject": (c_int, [MONITOR, c_char_p, c_size_t, POINTER(c_uint16)]),
    "mls_object": (c_int, [MONITOR, c_char_p, c_size_t, POINTER(c_uint16)]),
    "mls_read_label": (c_int, [MONITOR, c_int, c_char_p, c_size_t, POINTER(Label)]),
    "mls_write_label": (c_int, [MONITOR, c_int, POINTER(Label), c_char_p, c_size_t, LENGTH]),
    "mls_dominates": (c_int, [POINTER(Label), POINTER(Label)]),
    "mls_decide_label": (c_int, [MONITOR, c_uint16, c_uint8, POINTER(Label), POINTER(Label), POINTER(c_uint16)]),
    "mls_decide_labels": (c_int, [MONITOR, c_uint16, c_uint8, POINTER(Labels), c_size_t, POINTER(c_uint16)]),
    "mls_read_subject": (c_int, [MONITOR, c_uint16, POINTER(SubjectInfo)]),
    "mls_read_object": (c_int, [MONITOR, c_uint16, POINTER(ObjectInfo)]),
    "mls_read_pair": (c_int, [MONITOR, c_uint16, c_uint16, POINTER(PairInfo)]),
    "mls_count": (c_int, [MONITOR, POINTER(Counts)]),
    "mls_next_child": (c_int, [MONITOR, c_uint16, c_uint16, POINTER(c_uint16)]),
    "mls_subject_name": (c_int, [MONITOR, c_uint16, c_char_p, c_size_t, LENGTH]),
    "mls_object_name": (c_int, [MONITOR, c_uint16, c_char_p, c_size_t, LENGTH]),
    "mls_explain": (c_int, [MONITOR, POINTER(Request), POINTER(Condition), c_size_t, LENGTH, POINTER(Remedy)]),
    "mls_state_start": (c_int, [MONITOR, c_char_p, c_size_t, LENGTH, POINTER(c_uint16)]),
    "mls_state_text": (c_int, [MONITOR, c_char_p, c_size_t, LENGTH]),
    "mls_office_open": (c_int, [OFFICE, MONITOR, SESSION, c_uint16]),
    "mls_office_close": (c_int, [OFFICE, SESSION, MONITOR]),
    "mls_office_drop": (None, [OFFICE]),
    "mls_session_drop": (None, [SESSION]),
    "mls_session_submit": (c_int, [SESSION, POINTER(Request), POINTER(Answer)]),
    "mls_session_check": (c_int, [SESSION, c_uint16, c_uint16, c_uint8, POINTER(c_int)]),
    "mls_session_decide": (c_int, [SESSION, POINTER(Request), POINTER(Answer)]),
    "mls_session_see": (c_int, [SESSION, c_uint64]),
    "mls_session_changes": (c_int, [SESSION, POINTER(c_uint64)]),
    "mls_session_meet": (c_int, [SESSION, SESSION]),
    "mls_session_entry_text": (c_int, [SESSION, c_uint64, c_char_p, c_size_t, LENGTH, POINTER(c_uint64)]),
    "mls_session_forget": (c_int, [SESSION, c_uint64]),
    "mls_session_decide_label": (c_int, [SESSION, c_uint16, c_uint8, POINTER(Label), POINTER(Label), POINTER(c_uint16)]),
    "mls_session_decide_labels": (c_int, [SESSION, c_uint16, c_uint8, POINTER(Labels), c_size_t, POINTER(c_uint16)]),
    "mls_session_explain": (c_int, [SESSION, POINTER(Request), POINTER(Condition), c_size_t, LENGTH, POINTER(Remedy)]),
    "mls_session_read_subject": (c_int, [SESSION, c_uint16, POINTER(SubjectInfo)]),
    "mls_session_read_object": (c_int, [SESSION, c_uint16, POINTER(ObjectInfo)]),
    "mls_session_read_pair": (c_int, [SESSION, c_uint16, c_uint16, POINTER(PairInfo)]),
    "mls_session_count": (c_int, [SESSION, POINTER(Counts)]),
    "mls_session_next_child": (c_int, [SESSION, c_uint16, c_uint16, POINTER(c_uint16)]),
    "mls_close": (None, [MONITOR]),
    "mls_fault_text": (c_int, [c_int, POINTER(Fault), c_char_p, c_size_t, LENGTH]),
    "mls_version": (c_char_p, []),
    "mls_status_word": (c_char_p, [c_int]),
    "mls_action_word": (c_char_p, [c_int]),
    "mls_mode_word": (c_char_p, [c_int]),
    "mls_reply_word": (c_char_p, [c_int]),
    "mls_reason_word": (c_char_p, [c_int]),
}  # fmt: skip


@functools.lru_cache(maxsize=None)
def load(name: str | None = None) -> ctypes.CDLL:
    """Loads the library: of this file's name, of that in MLS_LIBRARY, or as the loader finds it. NoLibrary where there is
    none, where it has another minor version than this package is for, and where it lacks a call."""
    asked = os.environ.get(VARIABLE)
    where = f"library={name!r}" if name else f"{VARIABLE}={asked}" if asked else f"{NAME} in the loader's folders"
    try:
        library = ctypes.CDLL(name or asked or NAME)
        refuse_others(library, where, HELP)
        for call, (result, arguments) in CALLS.items():
            function = getattr(library, call)
            function.restype, function.argtypes = result, arguments
    except NoLibrary:
        raise
    except (OSError, AttributeError) as error:
        raise NoLibrary(f"{where}: {error}: {HELP}") from error
    return library
