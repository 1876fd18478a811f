"""The calls of the library for C that read and write texts, by ctypes."""
import ctypes
import sys

from outside import TOP

sys.path.insert(1, f"{TOP}/python")
from mls.library import Answer, Fault, Handle, Label, Request

OK, CLOSED, INVALID, START, JOURNAL, REPLAY, NOT_FOUND, TOO_SHORT, STATE = 0, -1, -4, -5, -6, -7, -9, -8, -10
GET, DENIED, DISCRETIONARY = 0, 16, 1
SECURITY, INTEGRITY = 0, 1
# The byte that memory for a result is filled with, so that it is seen what was written.
BEFORE = b"\xa5"
BUFFER = 4096

Size = ctypes.c_size_t


def label_of(level, bits):
    """A label in numbers: its categories in four words."""
    return Label(level, tuple(bits >> 64 * word & (1 << 64) - 1 for word in range(4)))


def loaded(library):
    """The library's calls."""
    calls = ctypes.CDLL(library)
    calls.mls_entries.restype = calls.mls_forgotten.restype = ctypes.c_uint64
    return calls


def filled(kind):
    """Memory for a result that wasn't written yet."""
    result = kind()
    ctypes.memset(ctypes.byref(result), BEFORE[0], ctypes.sizeof(result))
    return result


def is_untouched(result):
    return bytes(result) == ctypes.sizeof(result) * BEFORE


class Opened:
    """A handle that a start file, and perhaps a journal, or a state's text and the number of entries that led to it,
    was read into: the status, and the fault that was told."""

    def __init__(self, calls, start, journal=None, state=None):
        self.calls, self.handle, fault = calls, Handle(), filled(Fault)
        self.at = ctypes.byref(self.handle)
        read, texts = calls.mls_open, [start, Size(len(start))]
        if journal is not None:
            read, texts = calls.mls_resume, [*texts, journal, Size(len(journal))]
        elif state is not None:
            text, number = state
            read, texts = calls.mls_open_state, [*texts, text, Size(len(text)), ctypes.c_uint64(number)]
        self.status = read(self.at, *texts, ctypes.byref(fault))
        is_told = self.status in (START, JOURNAL, REPLAY, STATE)
        self.fault = (fault.kind, fault.number, fault.place) if is_told else None
        assert self.status == OK or is_told, f"the start is read with status {self.status}"
        assert is_told or is_untouched(fault), "a fault is written though there is none"
        assert self.is_open() == (self.status == OK), f"the handle after status {self.status}"

    def __enter__(self):
        return self

    def __exit__(self, *_):
        self.calls.mls_close(self.at)

    def is_open(self):
        found = ctypes.c_uint16()
        return self.calls.mls_subject(self.at, b"", Size(0), ctypes.byref(found)) != CLOSED

    def entries(self):
        return self.calls.mls_entries(self.at)

    def number(self, find, name):
        """The number of a name, by mls_subject or mls_object; None where there is no such name."""
        found = filled(ctypes.c_uint16)
        status = find(self.at, name, Size(len(name)), ctypes.byref(found))
        assert status == OK or status == NOT_FOUND and is_untouched(found), f"{name} is looked for with status {status}"
        return found.value if status == OK else None

    def text(self, write, *what, room=BUFFER):
        """A text that is copied out: into a buffer that is one byte too short, and into one that isn't."""
        length, buffer = Size(), ctypes.create_string_buffer(room * BEFORE, room)
        status = write(self.at, *what, buffer, Size(room), ctypes.byref(length))
        assert status == OK, f"a text is copied out with status {status}"
        found, rest = buffer.raw[:length.value], buffer.raw[length.value:]
        assert rest == len(rest) * BEFORE, "more than a text is written"
        short = ctypes.create_string_buffer(room * BEFORE, room)
        status = write(self.at, *what, short, Size(len(found) - 1), ctypes.byref(length))
        assert (status, length.value) == (TOO_SHORT, len(found)), f"status {status} where the buffer is too short"
        assert short.raw == room * BEFORE, "a buffer that is too short is written to"
        return found

    def state(self):
        """The text of the state."""
        return self.text(self.calls.mls_state_text, room=16 * BUFFER)

    def journal(self):
        """The text of the journal."""
        lines = (self.text(self.calls.mls_entry_text, ctypes.c_uint64(number)) for number in range(self.entries()))
        return b"".join(lines)

    def forgets(self, number):
        """Forgets the entries below a number, and returns how many are forgotten, which can't be copied out then."""
        line, length = ctypes.create_string_buffer(BUFFER), Size()
        assert self.calls.mls_forget(self.at, ctypes.c_uint64(number)) == OK
        gone = self.calls.mls_forgotten(self.at)
        for it in range(gone):
            status = self.calls.mls_entry_text(self.at, ctypes.c_uint64(it), line, Size(BUFFER), ctypes.byref(length))
            assert status == NOT_FOUND, f"a forgotten entry is copied out with status {status}"
        return gone

    def decided(self, **request):
        """The reply that a request would have."""
        answer = Answer()
        status = self.calls.mls_decide(self.at, ctypes.byref(Request(**request)), ctypes.byref(answer))
        assert status == OK, f"a decision has status {status}"
        return answer.reply

    def holds(self, subject, thing, mode):
        """Whether a subject holds an access to an object now."""
        status = self.calls.mls_check(self.at, ctypes.c_uint16(subject), ctypes.c_uint16(thing), ctypes.c_uint8(mode))
        assert status in (0, 1), f"a check has status {status}"
        return status == 1

    def submit(self, session, request):
        """The answer to a request, which is made."""
        answer = Answer()
        status = self.calls.mls_submit(self.at, ctypes.c_uint32(session), ctypes.byref(request), ctypes.byref(answer))
        assert status == OK, f"a submit has status {status}"
        return answer

    def label(self, kind, text):
        """The level and the bits of the categories of a label's text; None where it is no label's."""
        found = filled(Label)
        status = self.calls.mls_read_label(self.at, ctypes.c_int(kind), text, Size(len(text)), ctypes.byref(found))
        assert status == OK or status == INVALID and is_untouched(found), f"a label is read with status {status}"
        if status == INVALID:
            return None
        return found.level, sum(word << 64 * place for place, word in enumerate(found.categories))

    def label_text(self, kind, label):
        """The text of a label."""
        given = label_of(*label[:2])
        return self.text(self.calls.mls_write_label, ctypes.c_int(kind), ctypes.byref(given))
