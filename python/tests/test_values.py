"""What needs no library: values, the numbers that they are passed on as, and that calls, structs and numbers are those
of the header."""
import ctypes
import enum
import pathlib
import re
import unittest
import unittest.mock

import mls
from mls import library, numbering, versions

HEADER = pathlib.Path(__file__).resolve().parent.parent.parent / "include" / "mls.h"
CODE = re.sub(r"/\*.*?\*/", "", HEADER.read_text(), flags=re.S)
# The types of the header. A pointer to bytes is one to char, which takes bytes.
STRUCTS = {
    "mls_monitor": library.Handle, "mls_label": library.Label, "mls_request": library.Request,
    "mls_answer": library.Answer, "mls_journal_entry": library.Entry, "mls_fault": library.Fault,
    "mls_subject_info": library.SubjectInfo, "mls_object_info": library.ObjectInfo, "mls_pair_info": library.PairInfo,
    "mls_counts": library.Counts, "mls_term": library.Term, "mls_condition": library.Condition,
    "mls_remedy": library.Remedy, "mls_labels": library.Labels, "mls_office": library.Office, "mls_session": library.Session,
}  # fmt: skip
TYPES = {**STRUCTS, "int": ctypes.c_int, "size_t": ctypes.c_size_t}
TYPES.update({f"uint{n}_t": getattr(ctypes, f"c_uint{n}") for n in (8, 16, 32, 64)})
POINTERS = {"uint8_t": ctypes.c_char_p, "char": ctypes.c_char_p, "void": ctypes.c_void_p}


def declared(text):
    """The types and the names of what a declaration declares."""
    base, names = re.fullmatch(r"(?:const )?(\w+) ?(.*)", " ".join(text.split())).groups()
    for name in names.split(", "):
        pointer, name, count = re.fullmatch(r"(\*?)(\w*)(?:\[(\d+)\])?", name).groups()
        if pointer:
            yield name, POINTERS.get(base) or ctypes.POINTER(TYPES[base])
        elif base != "void":
            yield name, TYPES[base] * int(count) if count else TYPES[base]


class Header(unittest.TestCase):
    """The calls, structs and numbers are those of the header."""

    def test_calls(self):
        calls = re.findall(r"^(?!MLS_INLINE)([a-z][\w ]* \*?)(mls_\w+)\(([^)]*)\);", CODE, re.M)
        found = {}
        for result, name, parameters in calls:
            taken = [kind for it in parameters.split(",") for _, kind in declared(it)]
            found[name] = next((kind for _, kind in declared(result)), None), taken
        self.assertEqual(found, library.CALLS)
        self.assertGreater(len(calls), 25)

    def test_structs(self):
        structs = re.findall(r"^typedef struct \{(.*?)\} (\w+);", CODE, re.M | re.S)
        self.assertEqual(sorted(name for _, name in structs), sorted(STRUCTS))
        for body, name in structs:
            members = [it for line in body.split(";") if line.strip() for it in declared(line)]
            self.assertEqual(members, STRUCTS[name]._fields_, name)

    def test_numbers(self):
        numbers = {name: int(value) for name, value in re.findall(r"\bMLS_(\w+) = (-?\d+)(?! <<)", CODE)}

        def of(kind: enum.EnumMeta, *, front="", end=""):
            self.assertEqual({f"{front}{it.name}{end}": numbers.get(f"{front}{it.name}{end}") for it in kind},
                             {f"{front}{it.name}{end}": it.value for it in kind})  # fmt: skip
            return len(kind)

        kinds = [mls.Mode, mls.Reply, mls.Reason, mls.Compared]
        known = sum(map(of, kinds)) + of(mls.Basis, front="BY_") + of(mls.Kind, end="_LABEL")
        for name in ("OBJECTS", "CONDITIONS", "SESSIONS", "FAULT_TEXT"):
            self.assertEqual(numbers[name], getattr(library, name), name)
        for name, value in (("ECLOSED", library.CLOSED), ("ENOMEM", library.NO_MEMORY), ("EINVAL", library.INVALID),
                            ("ESTART", library.START_REFUSED), ("EJOURNAL", library.JOURNAL_REFUSED),
                            ("EREPLAY", library.REPLAY_DIFFERS), ("ERANGE", library.TOO_SHORT),
                            ("ENOTFOUND", library.NOT_FOUND), ("ESTATE", library.STATE_REFUSED),
                            ("EBUSY", library.BUSY), ("EAGAIN", library.TOO_EARLY)):  # fmt: skip
            self.assertEqual(numbers[name], value, name)
        # and beside these: OK, EOPEN, the actions, and NO_TERM
        self.assertEqual(len(numbers), known + 4 + 11 + 2 + len(mls.requests.ACTIONS) + 1)


class Values(unittest.TestCase):

    def test_answers_read_as_in_a_script(self):
        rows = [
            (numbering.answer_of(3, 0, 0), True, "yes"),
            (numbering.answer_of(3, 1, 4), True, "created 4"),
            (numbering.answer_of(3, 2, 0), False, "undefined"),
            (numbering.answer_of(3, 17, 0), False, "no discretionary"),
            (numbering.answer_of(3, 25, 0), False, "no full"),
        ]
        for answer, is_granted, text in rows:
            self.assertEqual((bool(answer), str(answer), answer.number), (is_granted, text, 3))

    def test_replies_that_there_are_none_of(self):
        for reply in (3, 16, 26, 65535):
            with self.assertRaises(ValueError):
                str(numbering.answer_of(0, reply, 0))

    def test_labels_keep_their_categories(self):
        for categories in (set(), {0}, {63, 64}, {255}, set(range(256))):
            label = mls.Label(15, frozenset(categories))
            self.assertEqual(numbering.label_of(numbering.label_struct(label)), label)
        struct = numbering.label_struct(mls.Label(2, frozenset({0, 65, 255})))
        self.assertEqual((struct.level, list(struct.categories)), (2, [1, 2, 0, 1 << 63]))

    def test_labels_that_are_none(self):
        for level, categories in ((16, ()), (-1, ()), (0, (256,)), (0, (-1,))):
            with self.assertRaises(ValueError):
                mls.Label(level, frozenset(categories))

    def test_conditions_of_each_basis(self):
        term = library.Term(kind=2, of=9, label=numbering.label_struct(mls.Label(1)))
        fields = {"mode": 1, "also": 1, "subject": 0, "object": 6, "parent": 5, "first": term, "second": term,
                  "third": term}  # fmt: skip
        told = mls.Term(mls.Compared.CURRENT_OF_CALLER, None, mls.Label(1))
        values = {"mode": mls.Mode.READ, "also": True, "subject": 0, "object": 6, "parent": 5, "first": told,
                  "second": told, "third": told}  # fmt: skip
        for basis in mls.Basis:
            found = numbering.condition_of(library.Condition(reason=3, holds=1, basis=basis, **fields))
            self.assertEqual((found.reason, found.holds, found.basis), (mls.Reason.STAR, True, basis))
            for name, value in values.items():
                self.assertEqual(getattr(found, name), value if name in numbering.NAMED[basis] else None)
        for basis in (0, 18):
            with self.assertRaises(ValueError):
                numbering.condition_of(library.Condition(reason=3, basis=basis))

    def test_terms_of_each_kind(self):
        for kind in mls.Compared:
            of = 9 if kind.name.endswith(("_OF_OBJECT", "_OF_SUBJECT")) else None
            self.assertEqual(numbering.term_of(library.Term(kind=kind, of=9)), mls.Term(kind, of, mls.Label(0)))
        with self.assertRaises(ValueError):
            numbering.term_of(library.Term(kind=0))

    def test_an_explanation_is_true_where_all_conditions_hold(self):
        holds, fails = (mls.Condition(mls.Reason.STAR, it, mls.Basis.EXECUTE) for it in (True, False))
        for conditions, failed in (((), None), ((holds,), None), ((holds, fails, holds), fails)):
            told = mls.Explanation(conditions, None)
            self.assertEqual((bool(told), told.failed), (failed is None, failed))

    def test_sets_of_modes(self):
        self.assertEqual(numbering.modes_of(0), frozenset())
        self.assertEqual(numbering.modes_of(0xFA), {mls.Mode.READ, mls.Mode.WRITE})

    def test_modes_by_their_words(self):
        self.assertEqual([mls.Mode.of(it) for it in ("execute", "read", "append", "write")], list(mls.Mode))
        self.assertEqual(mls.Mode.of(mls.Mode.APPEND), mls.Mode.APPEND)
        for word in ("", "READ", "get-read", 1):
            with self.assertRaises(ValueError):
                mls.Mode.of(word)

    def test_numbers_out_of_range_are_refused(self):
        self.assertEqual((numbering.number(65535), numbering.number(2**32 - 1, 32)), (65535, 2**32 - 1))
        for value, bits in ((65536, 16), (-1, 16), (2**32, 32), ("1", 16), (1.0, 16)):
            with self.assertRaises(mls.BadRequest):
                numbering.number(value, bits)

    def test_texts_that_no_name_has(self):
        for text in ("\udc80", "\ud800", "\0", "\xe9"):
            self.assertIsInstance(numbering.text_bytes(text), bytes)
        for value in (None, 1.5, b"x"):
            with self.assertRaises(mls.BadRequest):
                numbering.text_bytes(value)

    def test_requests_of_each_action(self):
        low, high = mls.Label(0), mls.Label(3, frozenset({200}))
        wanted = [
            mls.Get(1, mls.Mode.WRITE, 7), mls.Release(1, mls.Mode.WRITE, 7), mls.Give(1, mls.Mode.WRITE, 2, 7),
            mls.Rescind(1, mls.Mode.WRITE, 2, 7), mls.Create(1, 7, high, low), mls.Delete(1, 7), mls.Level(1, high),
            mls.Relabel(1, 7, high),
        ]  # fmt: skip
        for action, request in enumerate(wanted):
            struct = numbering.library.Request(
                action=action, mode=3, subject=1, other=2, object=7,
                security=numbering.label_struct(high), integrity=numbering.label_struct(low),
            )  # fmt: skip
            self.assertEqual(numbering.request_of(struct), request)


class Libraries(unittest.TestCase):

    def test_a_library_that_is_not_there(self):
        rows = [
            ({}, "/no/such/file", "library='/no/such/file': "), ({"MLS_LIBRARY": "/none"}, None, "MLS_LIBRARY=/none: "),
            ({}, "libc.so.6", "library='libc.so.6': "),
        ]  # fmt: skip
        for given, name, front in rows:
            library.load.cache_clear()
            with unittest.mock.patch.dict("os.environ", given), self.assertRaises(mls.NoLibrary) as caught:
                library.load(name)
            told = str(caught.exception)
            self.assertTrue(told.startswith(front) and "libmls0" in told and "MLS_LIBRARY" in told, told)
        library.load.cache_clear()

    def test_other_versions(self):
        """Each other version is refused, with both versions and the file that it was loaded from."""
        for said in ("0.2", "0.4", "1.3", "0.3.1", "0.30", "0", ""):
            other = unittest.mock.MagicMock()
            other.mls_version.return_value = said.encode()
            with unittest.mock.patch.object(versions, "file_of", return_value="/usr/lib/libmls.so.9"):
                with self.assertRaises(mls.NoLibrary) as caught:
                    versions.refuse_others(other, "MLS_LIBRARY=x", library.HELP)
            wanted = f"MLS_LIBRARY=x: libmls of /usr/lib/libmls.so.9 has version {said}, and this package wants 0.3: "
            self.assertEqual(str(caught.exception), wanted + library.HELP)
        other.mls_version.return_value = b"0.3"
        versions.refuse_others(other, "", "")

    def test_a_file_is_named(self):
        """The loader is asked where a function is; a library that has none of that name isn't found."""
        given = ctypes.CDLL("libc.so.6")
        given.mls_version = given.abs
        self.assertRegex(versions.file_of(given), r"/libc\.so\.6$")
        self.assertEqual(versions.file_of(object()), "")


if __name__ == "__main__":
    unittest.main()
