"""The package over the library: decisions by labels, what a monitor holds, and explanations. Without a library these
tests are skipped, as those of test_monitor."""
import array
import itertools
import unittest
import unittest.mock

import mls
from test_monitor import MISSING, STANDARD

try:
    import numpy
except ImportError:
    numpy = None

ANN, BOB, SEC, AUD = range(4)
ROOT, PLANS, MEMO, TOOL, MADE = range(5)
PAIRS = list(itertools.product(range(4), mls.Mode, range(4)))


@unittest.skipIf(MISSING, MISSING)
class Readers(unittest.TestCase):
    def setUp(self):
        self.monitor = mls.Monitor.open(STANDARD)
        self.addCleanup(self.monitor.close)

    def test_dominance(self):
        labels = [mls.Label(*it) for it in ((0,), (1,), (1, {0}), (1, {0, 64}), (2, {64}), (15, {0, 64, 255}))]
        for a, b in itertools.product(labels, repeat=2):
            wanted = a.level >= b.level and a.categories >= b.categories
            self.assertIs(a.dominates(b), wanted, (a, b))
        with self.assertRaisesRegex(mls.NoLibrary, "/no/such/library.*libmls0.*MLS_LIBRARY"):
            labels[0].dominates(labels[1], library="/no/such/library")

    def test_decisions_by_labels(self):
        m = self.monitor
        rows = [
            ("ann", "read", "S:A", "hi", "yes"), ("ann", "read", "S:B", "hi", "no simple"),
            ("bob", mls.Mode.READ, "C", "lo", "no star"), ("ann", "read", "U", "lo", "no integrity"),
            (BOB, "append", mls.Label(2, {0}), mls.Label(0), "yes"), (4, "read", "U", "lo", "undefined"),
            ("ann", "read", mls.Label(4), "lo", "undefined"), ("ann", "read", "U", mls.Label(0, {0}), "undefined"),
        ]  # fmt: skip
        for *asked, wanted in rows:
            answer = m.decide_label(*asked)
            self.assertEqual((str(answer), bool(answer), answer.number), (wanted, wanted == "yes", None), asked)
        for asked in (("ann", "read", "Q", "lo"), ("ann", "read", "U", "S"), ("ann", "write", "U", "")):
            with self.assertRaises(mls.BadRequest):
                m.decide_label(*asked)
        m.level("bob", "C")
        self.assertTrue(m.decide_label("bob", "read", "C", "lo"))
        self.assertEqual(m.entry_count, 1)

    def test_batches(self):
        """Each reply is that of the call for its row; a pair that comes often is read and decided once."""
        m, texts = self.monitor, ("U", "C", "S:A", "S:B", "T:A,B", mls.Label(2, {0}), mls.Label(4))
        pairs = list(itertools.product(texts, ("lo", "hi", mls.Label(0, {70}))))
        for subject, mode in itertools.product(range(5), mls.Mode):
            wanted = [m.decide_label(subject, mode, *pair) for pair in pairs]
            self.assertEqual(m.decide_labels(subject, mode, pairs), wanted)
            self.assertEqual(m.decide_labels(subject, mode, iter(pairs[::-1] * 3)), wanted[::-1] * 3)
            numbers = [it.reply + (it.reason or 0) for it in wanted]
            self.assertEqual(list(m.decide_rows(subject, mode, m.rows(pairs))), numbers)
        with unittest.mock.patch.object(mls.Monitor, "label", side_effect=m.label) as read:
            answers = m.decide_labels("bob", "read", zip(["C", "U"] * 1000, itertools.repeat("lo")))
        self.assertEqual(([str(it) for it in answers], read.call_count), (["no star", "yes"] * 1000, 3))
        self.assertEqual((m.decide_labels("bob", "read", []), m.entry_count), ([], 0))
        for pairs in ([("Q", "lo")], [("U", "lo"), ("U", "S")], [("U", 3)]):
            with self.assertRaises(mls.BadRequest):
                m.decide_labels("bob", "read", pairs)
        for asked in (("bob", "raed", [("U", "lo")]), (65536, "read", [])):
            with self.assertRaises(mls.BadRequest):
                m.decide_labels(*asked)
        with self.assertRaises(mls.UnknownName):
            m.decide_labels("eve", "read", [])

    def test_rows_in_buffers(self):
        """Any buffer of rows is taken, wherever it begins; one that is none, or has a row that is none, is refused."""
        m = self.monitor
        rows = m.rows([("U", "lo"), ("C", "lo"), ("S:A", "hi")] * 50)
        wanted = list(m.decide_rows("bob", "read", rows))
        self.assertEqual((len(rows), sorted(set(wanted))), (150 * 80, [0, 18, 19]))
        words, shifted = array.array("Q", rows), bytearray(b"#" + rows)
        structs = (mls.library.Labels * 150).from_buffer_copy(rows)
        buffers = [bytearray(rows), memoryview(rows), memoryview(rows)[:], words, memoryview(words), structs,
                   memoryview(structs), memoryview(shifted)[1:], memoryview(bytes(shifted))[1:]]  # fmt: skip
        if numpy:
            buffers += [numpy.frombuffer(rows, mls.library.Labels), numpy.array(words).reshape(-1, 10)]
        for rows_in in buffers:
            replies = m.decide_rows("bob", "read", rows_in)
            self.assertEqual((list(replies), replies.typecode), (wanted, "H"))
        self.assertEqual(list(m.decide_rows("bob", "read", memoryview(words)[10:20])), wanted[1:2])
        for empty in (b"", bytearray(), memoryview(b""), array.array("Q")):
            self.assertEqual(list(m.decide_rows("bob", "read", empty)), [])
        no_labels = rows + b"\x10" + bytes(79), rows[:40] + b"\xff" * 40
        for refused in (rows[1:], rows[:79], memoryview(rows)[::2], *no_labels):
            with self.assertRaises(mls.BadRequest):
                m.decide_rows("bob", "read", refused)
        for refused in ("U", None, [("U", "lo")]):
            with self.assertRaises(TypeError):
                m.decide_rows("bob", "read", refused)
        lent = bytearray(rows)
        m.decide_rows("bob", "read", lent)
        lent.clear()
        m.close()
        with self.assertRaises(mls.Closed):
            m.decide_rows(0, "read", rows)

    def test_batches_of_a_session(self):
        m = self.monitor
        pairs = [(m.label("U"), mls.Label(0)), (m.label("C"), mls.Label(0))] * 2
        rows, wanted = m.rows(pairs), [m.decide_labels(it, "read", pairs) for it in range(5)]
        session = mls.Office(m, 2).sessions[1]
        self.assertEqual([session.decide_labels(it, "read", pairs) for it in range(5)], wanted)
        self.assertEqual((session.rows(pairs), list(session.decide_rows("bob", "read", rows))), (rows, [0, 19, 0, 19]))
        with self.assertRaises(mls.BadRequest):
            session.decide_labels("bob", "read", [("U", "lo")])

    def test_decisions_by_the_labels_of_objects(self):
        """They are what the rule for a get says, where the matrix permits that."""
        m, seen = self.monitor, set()
        for subject, mode, where in PAIRS:
            info, is_permitted = m.object_info(where), mode in m.pair(subject, where).permitted
            found = str(m.decide_label(subject, mode, info.security, info.integrity))
            wanted = found if is_permitted else "no discretionary"
            self.assertEqual(str(m.decide(mls.Get(subject, mode, where))), wanted)
            seen.add((is_permitted, found))
        self.assertGreaterEqual(len(seen), 5)

    def test_subjects(self):
        m, low, high = self.monitor, mls.Label(0), mls.Label(1)
        self.assertEqual(m.subject_info("sec"), mls.SubjectInfo(mls.Label(3, {0, 1}), low, high, True))
        self.assertEqual(m.subject_info(BOB), mls.SubjectInfo(high, low, low, False))
        for subject in (4, 65535, "zoe"):
            with self.assertRaises(mls.UnknownName):
                m.subject_info(subject)

    def test_objects(self):
        m, low, high = self.monitor, mls.Label(0), mls.Label(1)
        self.assertEqual(m.object_info("plans"), mls.ObjectInfo(mls.Label(2, {0}), high, ROOT))
        self.assertEqual(m.object_info("root"), mls.ObjectInfo(low, high, None))
        self.assertEqual(m.counts(), mls.Counts(0, 4, 4, 4))
        self.assertEqual((list(m.children("root")), list(m.children(TOOL))), ([PLANS, MEMO, TOOL], []))
        for where in (MADE, 65535, "zoo"):
            with self.assertRaises(mls.UnknownName):
                m.object_info(where)
        m.get("sec", "write", "root")
        self.assertEqual(m.create("sec", "root", "S:B", "lo").object, MADE)
        self.assertEqual(m.object_info(MADE), mls.ObjectInfo(mls.Label(2, {1}), low, ROOT))
        self.assertEqual(m.counts(), mls.Counts(2, 4, 5, 5))
        m.delete("sec", "memo")
        self.assertEqual((m.counts(), list(m.children("root"))), (mls.Counts(3, 4, 4, 5), [PLANS, TOOL, MADE]))
        with self.assertRaises(mls.UnknownName):
            m.object_info("memo")
        self.assertEqual((list(m.children("memo")), m.object_name(MEMO)), ([], "memo"))

    def test_all_objects_that_there_can_be(self):
        m = self.monitor
        m.get("sec", "write", "root")
        while m.create("sec", "root", "U", "lo"):
            pass
        self.assertEqual(list(m.children("root")), list(range(1, 4096)))
        self.assertEqual((m.counts().objects, m.counts().next), (4096, None))

    def test_children_that_are_deleted_meanwhile(self):
        m, children = self.monitor, self.monitor.children("root")
        m.get("sec", "write", "root")
        self.assertEqual(next(children), PLANS)
        m.delete("sec", "plans")
        m.delete("sec", "memo")
        self.assertEqual(list(children), [TOOL])

    def test_pairs(self):
        m, mode = self.monitor, mls.Mode
        self.assertEqual(m.pair("ann", "plans"), mls.PairInfo({mode.READ, mode.WRITE}, set()))
        self.assertEqual(m.pair(BOB, TOOL), mls.PairInfo({mode.EXECUTE}, set()))
        m.get("ann", "read", "plans")
        self.assertEqual(m.pair("ann", "plans"), mls.PairInfo({mode.READ, mode.WRITE}, {mode.READ}))
        for pair in ((4, TOOL), (BOB, MADE), ("bob", "zoo")):
            with self.assertRaises(mls.UnknownName):
                m.pair(*pair)

    def test_a_start_of_the_state(self):
        m, numbers = self.monitor, {ROOT: 0, PLANS: 1, TOOL: 2, MADE: 3}
        answers = [
            m.get("ann", "read", "plans"), m.get("sec", "write", "root"), m.create("sec", "root", "S:B", "lo"),
            m.give("sec", "append", "bob", MADE), m.get("bob", "append", MADE), m.delete("sec", "memo"),
        ]  # fmt: skip
        self.assertTrue(all(answers))
        told = m.state_start()
        self.assertEqual((told.numbers, m.entry_count), (numbers, len(answers)))
        with mls.Monitor.open(told.text) as new:
            self.assertEqual(new.counts(), mls.Counts(0, 4, 4, 4))
            for subject, mode, old in itertools.product(range(4), mls.Mode, numbers):
                self.assertEqual(new.pair(subject, numbers[old]), m.pair(subject, old))
                gets = mls.Get(subject, mode, old), mls.Get(subject, mode, numbers[old])
                self.assertEqual(new.decide(gets[1]).reply, m.decide(gets[0]).reply)
            self.assertEqual([new.subject_info(it) for it in range(4)], [m.subject_info(it) for it in range(4)])
            self.assertEqual([new.object_name(it) for it in range(4)], ["root", "plans", "tool", "o4"])
            self.assertTrue(new.check("bob", "append", "o4") and not new.check("ann", "read", "o4"))
            # what it opens with is a state, whose objects have their numbers already
            self.assertEqual(new.state_start(), mls.StateStart(told.text, {it: it for it in range(4)}))

    def test_names_of_numbers(self):
        m = self.monitor
        self.assertEqual([m.subject_name(it) for it in range(5)], ["ann", "bob", "sec", "aud", None])
        self.assertEqual([m.object_name(it) for it in range(5)], ["root", "plans", "memo", "tool", None])
        with mls.Monitor.open(STANDARD.replace(b'"tool"', b'"%s"' % (b"n" * 32))) as named:
            self.assertEqual(named.object_name(TOOL), "n" * 32)

    def test_a_get_that_is_denied_is_explained(self):
        m, low, high = self.monitor, mls.Label(0), mls.Label(1)
        of_memo = mls.Term(mls.Compared.SECURITY_OF_OBJECT, MEMO, high)
        caller = [mls.Term(it, None, label) for it, label in ((mls.Compared.MAXIMUM_OF_CALLER, high),
                                                              (mls.Compared.CURRENT_OF_CALLER, low))]  # fmt: skip
        trusts = [mls.Term(it, of, low) for it, of in ((mls.Compared.INTEGRITY_OF_OBJECT, MEMO),
                                                       (mls.Compared.INTEGRITY_OF_SUBJECT, BOB))]  # fmt: skip
        basis, reason = mls.Basis, mls.Reason
        wanted = (
            mls.Condition(reason.DISCRETIONARY, True, basis.PERMISSION, mode=mls.Mode.READ, subject=BOB, object=MEMO),
            mls.Condition(reason.SIMPLE, True, basis.DOMINANCE, first=caller[0], second=of_memo),
            mls.Condition(reason.STAR, False, basis.DOMINANCE, first=caller[1], second=of_memo),
            mls.Condition(reason.INTEGRITY, True, basis.DOMINANCE, first=trusts[0], second=trusts[1]),
        )
        get = mls.Get("bob", "read", "memo")
        told = m.explain(get)
        self.assertEqual(told, mls.Explanation(wanted, high))
        self.assertEqual((bool(told), told.failed, m.entry_count), (False, wanted[2], 0))
        self.assertTrue(m.level("bob", told.remedy) and m.submit(get) and m.explain(get))

    def test_a_relabel_is_explained(self):
        new = mls.Term(mls.Compared.REQUESTED_SECURITY, None, mls.Label(3, {0}))
        current, of_plans = (mls.Term(it, of, mls.Label(2, {0})) for it, of in (
            (mls.Compared.CURRENT_OF_CALLER, None), (mls.Compared.SECURITY_OF_OBJECT, PLANS)))  # fmt: skip
        of_root = mls.Term(mls.Compared.SECURITY_OF_OBJECT, ROOT, mls.Label(0))
        of = {"object": PLANS, "parent": ROOT}
        wanted = (
            mls.Condition(mls.Reason.AUTHORITY, False, mls.Basis.RELABELLING, also=False, subject=ANN, **of,
                          first=current, second=of_plans, third=new),
            mls.Condition(mls.Reason.COMPATIBILITY, True, mls.Basis.PLACE, also=True, **of, first=new, second=of_root),
            mls.Condition(mls.Reason.SIMPLE, True, mls.Basis.OBSERVERS, object=PLANS, first=new),
            mls.Condition(mls.Reason.STAR, True, mls.Basis.HOLDERS, object=PLANS, first=new),
        )  # fmt: skip
        self.assertEqual(self.monitor.explain(mls.Relabel("ann", "plans", "T:A")), mls.Explanation(wanted, None))

    def test_explanations_are_those_of_the_replies(self):
        remedies = 0
        for row in PAIRS:
            with mls.Monitor.open(STANDARD) as m:
                told, answer = m.explain(mls.Get(*row)), m.decide(mls.Get(*row))
                self.assertEqual((bool(told), told.failed and told.failed.reason), (bool(answer), answer.reason))
                if told.remedy and not told:
                    self.assertTrue(m.level(row[0], told.remedy) and m.get(*row))
                    remedies += 1
        self.assertGreater(remedies, 0)
        self.assertEqual(self.monitor.explain(mls.Release(*PAIRS[0])), mls.Explanation((), None))

    def test_each_basis_is_met(self):
        requests = [mls.Get(*it) for it in PAIRS]
        for who in ("ann", "sec"):
            requests += [mls.Create(who, "root", "T:A", "lo"), mls.Give(who, "read", "bob", "tool"),
                         mls.Level(who, "T:A")]  # fmt: skip
            for where in ("root", "plans"):
                requests += [mls.Delete(who, where), mls.Relabel(who, where, "T:A")]
        met = {it.basis for request in requests for it in self.monitor.explain(request).conditions}
        self.assertEqual(met, set(mls.Basis))

    def test_requests_that_are_undefined(self):
        undefined = [mls.Get("bob", "read", MADE), mls.Get(4, "read", "memo"), mls.Level("bob", mls.Label(4)),
                     mls.Create("sec", "root", "U", mls.Label(4))]  # fmt: skip
        for request in undefined:
            self.assertEqual(self.monitor.decide(request).reply, mls.Reply.UNDEFINED)
            with self.assertRaises(mls.Undefined):
                self.monitor.explain(request)


if __name__ == "__main__":
    unittest.main()
