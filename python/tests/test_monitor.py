"""The package over the library: each call, each exception, what is resumed, and threads. MLS_LIBRARY names the library,
where the loader doesn't find it; without one these tests are skipped."""
import contextlib
import copy
import dataclasses
import doctest
import gc
import itertools
import json
import pathlib
import pickle
import threading
import unittest

import mls
from mls import library
from pretend import service

PYTHON = pathlib.Path(__file__).resolve().parent.parent
STANDARD = (PYTHON.parent / "examples" / "standard.json").read_bytes()
KEPT = b"0 5 0 get-read 1 yes\n1 6 1 get-read 2 no star\n"

try:
    library.load()
    MISSING = ""
except OSError as error:
    MISSING = f"there is no library: {error}"


@unittest.skipIf(MISSING, MISSING)
class Monitors(unittest.TestCase):
    def setUp(self):
        self.monitor = mls.Monitor.open(STANDARD)
        self.addCleanup(self.monitor.close)

    def asked(self, *answers):
        """The answers' texts."""
        return [str(it) for it in answers]

    def test_each_action(self):
        m = self.monitor
        answers = [
            m.get("sec", "write", "root"), m.create("sec", "root", "S:A", "lo"), m.give("sec", "append", "bob", 4),
            m.get("bob", "append", 4), m.relabel("sec", 4, "S:A"), m.rescind("sec", "append", "bob", 4),
            m.delete("sec", 4), m.release("sec", "write", "root"), m.level("bob", "C"), m.get("bob", "read", 4),
        ]  # fmt: skip
        texts = ["yes", "created 4", "yes", "yes", "yes", "yes", "yes", "yes", "yes", "undefined"]
        self.assertEqual(self.asked(*answers), texts)
        wanted = [
            mls.Get(2, mls.Mode.WRITE, 0), mls.Create(2, 0, mls.Label(2, {0}), mls.Label(0)),
            mls.Give(2, mls.Mode.APPEND, 1, 4), mls.Get(1, mls.Mode.APPEND, 4), mls.Relabel(2, 4, mls.Label(2, {0})),
            mls.Rescind(2, mls.Mode.APPEND, 1, 4), mls.Delete(2, 4), mls.Release(2, mls.Mode.WRITE, 0),
            mls.Level(1, mls.Label(1)), mls.Get(1, mls.Mode.READ, 4),
        ]  # fmt: skip
        self.assertEqual([it.request for it in m.entries()], wanted)
        self.assertEqual([it.answer for it in m.entries()], answers)
        self.assertEqual([it.number for it in answers], list(range(10)))

    def test_a_denial_is_an_answer(self):
        answer = self.monitor.get("bob", "read", "memo", session=6)
        self.assertEqual(answer, mls.Answer(0, mls.Reply.DENIED, mls.Reason.STAR))
        self.assertFalse(answer)
        self.assertEqual(self.monitor.entry(0).session, 6)

    def test_decide_changes_nothing(self):
        m = self.monitor
        for _ in range(2):
            self.assertEqual(m.decide(mls.Get("ann", "read", "plans")), mls.Answer(0, mls.Reply.YES))
        self.assertEqual((m.entry_count, m.check("ann", "read", "plans"), m.journal()), (0, False, b""))

    def test_check_sees_what_is_held(self):
        m = self.monitor
        m.get("ann", "read", "plans")
        self.assertIs(m.check("ann", "read", "plans"), True)
        for row in (("ann", "write", "plans"), ("bob", "read", "plans"), ("ann", "read", 4095), (300, "read", "plans")):
            self.assertIs(m.check(*row), False)
        m.release("ann", "read", "plans")
        self.assertIs(m.check("ann", "read", "plans"), False)

    def test_names_and_labels(self):
        m = self.monitor
        self.assertEqual((m.subject("sec"), m.object("memo"), m.subject(7)), (2, 2, 7))
        label = m.label("S:B,A")
        self.assertEqual((label, m.label_text(label)), (mls.Label(2, {0, 1}), "S:A,B"))
        self.assertEqual(m.label("hi", mls.Kind.INTEGRITY), mls.Label(1))
        self.assertEqual(m.label_text(mls.Label(1), mls.Kind.INTEGRITY), "hi")
        for name in ("memo", "", "n\0", "\xff"):
            with self.assertRaises(mls.UnknownName):
                m.subject(name)
        for text in ("Q", "", "S:", "S\0"):
            with self.assertRaises(mls.BadRequest):
                m.label(text)
        with self.assertRaises(mls.BadRequest):
            m.label_text(mls.Label(15))

    def test_numbers_that_ctypes_would_cut(self):
        calls = [
            lambda: self.monitor.get(65536, "read", "plans"),
            lambda: self.monitor.check(0, "read", 65537),
            lambda: self.monitor.get("ann", "read", "plans", session=2**32),
            lambda: self.monitor.give("sec", "read", -1, "plans"),
            lambda: self.monitor.entry(2**64),
            lambda: self.monitor.forget(2**64),
            lambda: self.monitor.forget(-1),
            lambda: self.monitor.object_info(65536),
            lambda: self.monitor.subject_name(65536),
            lambda: self.monitor.decide_label(65536, "read", "S", "lo"),
            lambda: list(self.monitor.children(65536)),
            lambda: mls.Monitor.open_state(STANDARD, self.monitor.state_text(), 2**64),
            lambda: mls.Monitor.open_state(STANDARD, self.monitor.state_text(), -1),
        ]
        for call in calls:
            with self.assertRaises(mls.BadRequest):
                call()
        self.assertEqual(self.monitor.entry_count, 0)

    def test_entries_that_there_are_none_of(self):
        for call in (self.monitor.entry, self.monitor.line):
            with self.assertRaises(mls.NoSuchEntry):
                call(0)

    def test_entries_that_are_forgotten(self):
        m = self.monitor
        for _ in range(3):
            m.get("bob", "read", "memo")
        kept = m.line(2)
        m.forget(2)
        self.assertEqual((m.forgotten, m.entry_count, m.line(2)), (2, 3, kept))
        for call in (m.entry, m.line, m.journal):
            with self.assertRaises(mls.NoSuchEntry):
                call(1)
        self.assertEqual([entry.answer.number for entry in m.entries()], [2])
        self.assertEqual(m.journal(2), kept)
        m.forget(2**64 - 1)
        self.assertEqual((m.forgotten, list(m.entries()), m.get("bob", "read", "memo").number), (3, [], 3))

    def test_lines_longer_than_the_first_room(self):
        names = [f"c{n:03}" for n in range(256)]
        categories = json.dumps(["A", "B", *names[2:]]).encode()
        start = STANDARD.replace(b'"categories": ["A", "B"]', b'"categories": ' + categories)
        with mls.Monitor.open(start) as m:
            label = m.label("T:" + ",".join(["A", "B", *names[2:]]))
            self.assertEqual(len(label.categories), 256)
            self.assertEqual(m.label(m.label_text(label)), label)
            m.level("bob", label)
            self.assertGreater(len(m.line(0)), 256)
            self.assertEqual(m.entry(0).request, mls.Level(1, label))

    def test_a_journal_is_resumed(self):
        with mls.Monitor.resume(STANDARD, KEPT) as m:
            self.assertEqual((m.entry_count, m.check(0, "read", 1), m.journal()), (2, True, KEPT))
            m.release("ann", "read", "plans")
            self.assertEqual((m.journal(2), m.line(2)), (b"2 0 0 release read 1 yes\n",) * 2)
            self.assertEqual([it.answer.number for it in m.entries(1)], [1, 2])

    def test_what_is_refused(self):
        rows = [
            (b"{", 1, 0, "1 Json"), (b"{}", 2, 0, "2 Members"),
            (STANDARD.replace(b'["lo", "hi"]', b"[]"), 3, 1, "3 Scheme 1 NoLevels"),
            (STANDARD.replace(b'"current": "U"', b'"current": "T:A,B"', 1), 7, 6, "7 Start 6 CurrentAboveMaximum"),
        ]  # fmt: skip
        for start, fault, cause, text in rows:
            with self.assertRaises(mls.StartRefused) as caught:
                mls.Monitor.open(start)
            self.assertEqual((caught.exception.fault, caught.exception.cause), (fault, cause))
            self.assertEqual(str(caught.exception), f"start {text}")
        with self.assertRaises(mls.JournalRefused) as caught:
            mls.Monitor.resume(STANDARD, KEPT + b"x\n")
        self.assertEqual((caught.exception.line, caught.exception.fault), (2, 1))
        self.assertEqual(str(caught.exception), "line 3: entry 1 BadForm")
        with self.assertRaises(mls.JournalRefused) as caught:
            mls.Monitor.resume(STANDARD, STANDARD)
        self.assertEqual((caught.exception.line, caught.exception.fault), (0, 1))
        for journal, entry, wanted in ((KEPT + KEPT, 2, None), (KEPT.replace(b"no star", b"yes"), 1, 19)):
            with self.assertRaises(mls.ReplayDiffers) as caught:
                mls.Monitor.resume(STANDARD, journal)
            self.assertEqual((caught.exception.entry, caught.exception.wanted), (entry, wanted))
            text = f"1 Number at {entry}" if wanted is None else f"2 Differs at {entry} expected no star"
            self.assertEqual(str(caught.exception), f"replay {text}")

    def test_a_monitor_that_goes_on(self):
        """A store in miniature: it keeps each line and each entry, and goes on from a state's text."""
        m, lines, number = self.monitor, [], 6
        answers = [
            m.get("ann", "read", "plans"), m.get("sec", "write", "root"), m.create("sec", "root", "S:B", "lo"),
            m.give("sec", "append", "bob", 4), m.get("bob", "append", 4), m.delete("sec", "memo"),
        ]  # fmt: skip
        self.assertTrue(all(answers))
        lines += [m.line(n) for n in range(number)]
        state = m.state_text()
        m.forget(number)
        for answer in (m.release("ann", "read", "plans", session=9), m.create("sec", "root", "U", "lo")):
            lines.append(m.line(answer.number))
        behind, at_last = list(m.entries()), m.state_text()
        self.assertEqual([it.answer.number for it in behind], [6, 7])
        m.close()
        with mls.Monitor.open_state(STANDARD, state, number) as on:
            self.assertEqual((on.entry_count, on.forgotten, on.journal(number), on.state_text()), (6, 6, b"", state))
            self.assertTrue(on.check("ann", "read", "plans") and on.check("bob", "append", 4))
            with self.assertRaises(mls.NoSuchEntry):
                on.entry(5)
            self.assertEqual([on.submit(it.request, it.session) for it in behind], [it.answer for it in behind])
            self.assertEqual((list(on.entries()), on.state_text()), (behind, at_last))
            lines += [on.line(on.create("sec", "root", "C", "lo").number)]
            with mls.Monitor.resume(STANDARD, b"".join(lines)) as whole:
                self.assertEqual((whole.state_text(), whole.entry_count), (on.state_text(), 9))

    def test_states_that_are_refused(self):
        state = self.monitor.state_text()
        end = b"permit aud read plans\n"
        rows = [
            (b"", 1, 0, "line 1: not of a state"), (state[:-1], 1, 21, "line 22: not of a state"),
            (state.replace(b"next 4", b"next 3"), 1, 1, "line 2: not of a state"),
            (state.replace(b"profile 1", b"profile 2"), 2, None, "a state of another start"),
            (state.replace(b"bob maximum C", b"bob maximum S"), 2, None, "a state of another start"),
            (state.replace(end, end + b"access bob read memo\n"), 3, None, "a state that is not secure"), (STANDARD, 1, 0, ""),
        ]  # fmt: skip
        for text, fault, line, told in rows:
            with self.assertRaises(mls.StateRefused) as caught:
                mls.Monitor.open_state(STANDARD, text, 7)
            self.assertEqual((caught.exception.fault, caught.exception.line), (fault, line))
            self.assertIn(told, str(caught.exception))
        with self.assertRaises(mls.StartRefused):
            mls.Monitor.open_state(b"{}", state, 7)
        with self.assertRaisesRegex(mls.BadRequest, "too many entries"):
            mls.Monitor.open_state(STANDARD, state, 2**63 + 1)
        with mls.Monitor.open_state(STANDARD, state, 2**63) as on:
            self.assertEqual((on.entry_count, on.get("ann", "read", "plans").number), (2**63, 2**63))

    def test_a_closed_monitor(self):
        m = self.monitor
        m.close()
        m.close()
        self.assertTrue(m.is_closed)
        calls = [
            lambda: m.get(0, "read", 1), lambda: m.decide(mls.Delete(0, 1)), lambda: m.check(0, "read", 1), m.journal,
            lambda: m.entry(0), lambda: m.line(0), lambda: m.entry_count, lambda: m.subject("ann"),
            lambda: m.forget(0), lambda: m.forgotten,
            lambda: m.label("S"), lambda: m.label_text(mls.Label(0)), lambda: m.decide_label(0, "read", "S", "lo"),
            lambda: m.decide_label(0, "read", mls.Label(0), mls.Label(0)), lambda: m.decide_rows(0, "read", b""),
            lambda: m.decide_labels(0, "read", [("S", "lo")]), lambda: m.rows([("S", "lo")]),
            lambda: m.explain(mls.Delete(0, 1)), m.state_start, m.state_text,
            lambda: m.subject_info(0), lambda: m.object_info(0), lambda: m.pair(0, 0), m.counts,
            lambda: list(m.children(0)), lambda: m.subject_name(0), lambda: m.object_name(0),
        ]  # fmt: skip
        for call in calls:
            with self.assertRaises(mls.Closed):
                call()

    def test_a_monitor_is_not_copied(self):
        for call in (copy.copy, copy.deepcopy, pickle.dumps):
            with self.assertRaises(TypeError):
                call(self.monitor)

    def test_a_monitor_that_nobody_has_is_closed(self):
        m = mls.Monitor.open(STANDARD)
        closing = m._close
        del m
        gc.collect()
        self.assertFalse(closing.alive)

    def test_threads_take_turns(self):
        m, rounds, held = self.monitor, 300, []

        def work(subject, object, session):
            for _ in range(rounds):
                if m.get(subject, "read", object, session=session):
                    held.append(m.check(subject, "read", object))
                    m.release(subject, "read", object, session=session)

        rows = (("ann", "plans", 0), ("aud", "plans", 1), ("bob", "memo", 2), ("sec", "memo", 3))
        threads = [threading.Thread(target=work, args=row) for row in rows]
        for it in threads:
            it.start()
        for it in threads:
            it.join()
        self.assertTrue(held and all(held))
        of_bob = [it.session for it in m.entries()].count(2)
        self.assertEqual(of_bob, rounds)
        with mls.Monitor.resume(STANDARD, m.journal()) as resumed:
            self.assertEqual(resumed.entry_count, m.entry_count)

    def test_sessions_ask_side_by_side(self):
        office, rounds, numbers = mls.Office(self.monitor, 4), 300, [[] for _ in range(4)]
        self.assertTrue(self.monitor.is_closed)

        def work(session):
            for n in range(rounds):
                answer = (session.release if n % 2 else session.get)("ann", "read", "plans")
                self.assertTrue(answer)
                numbers[session.number].append(answer.number)
                session.check("ann", "read", "plans")
                self.assertEqual(str(session.decide(mls.Get("bob", "read", "memo"))), "no star")

        threads = [threading.Thread(target=work, args=(it,)) for it in office.sessions]
        for it in threads:
            it.start()
        for it in threads:
            it.join()
        with office.close() as m:
            self.assertEqual(m.entry_count, 4 * rounds)
            for session in range(4):
                self.assertEqual([n for n, it in enumerate(m.entries()) if it.session == session], numbers[session])
            with mls.Monitor.resume(STANDARD, m.journal()) as resumed:
                self.assertEqual(resumed.entry_count, m.entry_count)

    def test_sessions_count_what_is_taken_away(self):
        office = mls.Office(self.monitor, 2)
        first, second = office.sessions
        first.get("ann", "read", "plans")
        self.assertEqual((first.changes(), second.changes()), (0, 0))
        first.release("ann", "read", "plans")
        self.assertEqual((second.changes(), first.changes()), (1, 1))
        self.assertFalse(first.submit(mls.Rescind("ann", "read", "ann", "plans")))
        self.assertEqual(second.changes(), 1)
        office.close().close()
        self.assertRaises(mls.Closed, first.changes)

    def test_a_session_sees_what_another_did(self):
        office = mls.Office(self.monitor, 2)
        first, second = office.sessions
        number = first.get("ann", "read", "plans").number
        self.assertTrue(second.see(number + 1))
        self.assertTrue(second.check("ann", "read", "plans"))
        self.assertFalse(second.see(number + 2))
        first.release("ann", "read", "plans")
        first.meet(second)
        self.assertFalse(second.check("ann", "read", "plans"))
        for wrong in (lambda: first.meet(first), lambda: first.see(-1), lambda: first.see(2**64)):
            self.assertRaises(mls.BadRequest, wrong)
        office.close().close()
        self.assertRaises(mls.Closed, lambda: first.see(0))
        self.assertRaises(mls.Closed, lambda: first.meet(second))

    def test_a_session_forgets_while_the_office_is_open(self):
        office = mls.Office(self.monitor, 2)
        first, second = office.sessions
        first.get("ann", "read", "plans")
        second.get("bob", "read", "memo")
        last, _ = second.lines(1)
        first.forget(1)
        self.assertRaises(mls.NoSuchEntry, second.lines)
        self.assertEqual(second.lines(1), (last, 2))
        second.forget(0)
        self.assertEqual(first.lines(1), (last, 2))
        for wrong in (lambda: first.forget(-1), lambda: first.forget(2**64)):
            self.assertRaises(mls.BadRequest, wrong)
        with office.close() as m:
            self.assertEqual((m.forgotten, m.entry_count, m.journal(1)), (1, 2, last))
            self.assertTrue(m.check("ann", "read", "plans"))
        self.assertRaises(mls.Closed, lambda: first.forget(0))

    def test_a_session_reads_while_the_office_is_open(self):
        m = self.monitor
        told = lambda it: (it.subject_info("ann"), it.object_info("memo"), it.pair("ann", "plans"), it.counts(),
                           list(it.children("root")), it.explain(mls.Get("bob", "read", "memo")),
                           it.decide_label("ann", "read", label, trust))  # fmt: skip
        label, trust = m.subject_info("bob").current, m.subject_info("bob").integrity
        m.get("ann", "read", "plans")
        wanted, journal = told(m), m.journal()
        office = mls.Office(m, 2)
        first, second = office.sessions
        self.assertEqual(told(first), wanted)
        self.assertEqual(first.lines(), (journal, 1))
        self.assertEqual(first.lines(1), (b"", 1))
        answer = second.get("bob", "read", "memo")
        self.assertEqual(answer.number, 1)
        line, after = first.lines(1)
        self.assertEqual(after, 2)
        self.assertEqual(first.lines(0, len(journal)), (journal, 1))
        self.assertRaises(mls.NoSuchEntry, lambda: first.lines(3))
        self.assertRaises(mls.BadRequest, lambda: first.lines(0, 3))
        self.assertRaises(mls.UnknownName, lambda: first.subject_info(99))
        self.assertRaises(mls.Undefined, lambda: first.explain(mls.Get("bob", "read", 99)))
        with office.close() as m:
            self.assertEqual(m.journal(), journal + line)
        self.assertRaises(mls.Closed, lambda: first.counts())

    def test_an_office_and_its_sessions(self):
        for count in (0, 65):
            with self.assertRaises(mls.BadRequest):
                mls.Office(self.monitor, count)
        office = mls.Office(self.monitor, 2)
        with self.assertRaises(mls.Closed):
            mls.Office(self.monitor, 2)
        first, second = office.sessions
        self.assertTrue(second.get("ann", "read", "plans", session=1))
        self.assertTrue(first.check(0, "read", 1))
        for wrong in (lambda: first.get("ann", "read", "plans", session=1), lambda: first.level("bob", "C")):
            with self.assertRaises(mls.BadRequest):
                wrong()
        for wrong in (lambda: first.check("eve", "read", "plans"), lambda: first.check("ann", "read", "sheets")):
            with self.assertRaises(mls.UnknownName):
                wrong()
        with self.assertRaises(TypeError):
            copy.copy(office)
        with office.close() as m:
            self.assertEqual([it.session for it in m.entries()], [1])
        for late in (lambda: second.check("ann", "read", "plans"), office.close):
            with self.assertRaises(mls.Closed):
                late()

    def test_a_with_block_closes_an_office_and_its_monitor(self):
        with mls.Office(self.monitor, 2) as office:
            first, second = office.sessions
            first.get("ann", "read", "plans")
        self.assertRaises(mls.Closed, lambda: second.counts())
        self.assertRaises(mls.Closed, office.close)
        with mls.Office(mls.Monitor.open(STANDARD), 1) as office:
            office.sessions[0].get("ann", "read", "plans")
            m = office.close()
        with m:
            self.assertEqual(m.entry_count, 1)
        with self.assertRaises(ZeroDivisionError):
            with mls.Office(mls.Monitor.open(STANDARD), 1) as office:
                1 // 0
        self.assertRaises(mls.Closed, office.close)

    def test_an_office_over_a_start_that_has_all_objects(self):
        start = json.loads(STANDARD)
        row = {"parent": "root", "security": "U", "integrity": "lo"}
        start["objects"] += [{"name": f"o{it}", **row} for it in range(len(start["objects"]), library.OBJECTS)]
        full = mls.Monitor.open(json.dumps(start).encode())
        self.assertIsNone(full.counts().next)
        office = mls.Office(full, 1)
        self.assertFalse(office.sessions[0].check("ann", "read", "o4095"))
        self.assertEqual(str(office.sessions[0].get("ann", "read", "o4095")), "no discretionary")
        office.close().close()

    def test_words_are_those_of_the_library(self):
        words = library.load()
        rows = [
            (words.mls_mode_word, mls.Mode, [it.name.lower() for it in mls.Mode]),
            (words.mls_reason_word, mls.Reason, [it.name.lower() for it in mls.Reason]),
            (words.mls_reply_word, mls.Reply, ["yes", "created", "undefined", "?"]),
            (words.mls_action_word, range(8), [it.__name__.lower() for it in mls.requests.ACTIONS]),
        ]
        for call, numbers, wanted in rows:
            self.assertEqual([call(it).decode() for it in numbers], wanted)


@unittest.skipIf(MISSING, MISSING)
class Clients(unittest.TestCase):
    """A client is answered what a monitor answers."""

    def setUp(self):
        self.monitor, self.behind = mls.Monitor.open(STANDARD), mls.Monitor.open(STANDARD)
        self.addCleanup(self.monitor.close)
        self.addCleanup(self.behind.close)

    def requests(self):
        """Gets and releases of all, and each other action, which lead to each kind of answer."""
        names, objects = ("ann", "bob", "sec", "aud", 7), ("root", "plans", "memo", "tool", 4)
        yield from (mls.Get(*it) for it in itertools.product(names, mls.Mode, objects))
        yield from (mls.Release(*it) for it in itertools.product(names[::2], mls.Mode, objects[1:]))
        yield from (mls.Create(it, "root", "S:B,A", "lo") for it in names)
        for who in names:
            yield mls.Give(who, "read", "bob", 4)
            yield from (mls.Level(who, it) for it in ("C", "T"))
            yield mls.Relabel(who, "memo", "T")
            yield mls.Rescind(who, "append", "bob", "plans")
            yield from (mls.Delete(who, it) for it in objects)

    def test_the_same_answers(self):
        seen = set()
        for has_numbers in (False, True):
            with service(self.behind, has_numbers) as path, mls.Client(path, timeout=60) as client:
                for request in self.requests():
                    would, answer = self.monitor.decide(request), self.monitor.submit(request, session=1)
                    wanted = answer if has_numbers else dataclasses.replace(answer, number=None)
                    found = client.decide(request), client.submit(request)
                    self.assertEqual(found, (dataclasses.replace(would, number=None), wanted))
                    seen.add(str(answer).rstrip(" 0123456789"))
                    if isinstance(request, mls.Get):
                        row = request.subject, request.mode, request.object
                        self.assertIs(client.check(*row), self.monitor.check(*row))
        denials = {f"no {it}" for it in ("discretionary", "star", "integrity", "authority", "ceiling", "root")}
        self.assertLessEqual({"yes", "created", "undefined"} | denials, seen)
        self.assertEqual(self.behind.journal(), self.monitor.journal())

    def test_names_and_labels_that_there_are_none_of(self):
        with service(self.behind) as path, mls.Client(path, timeout=10) as client:
            for call in (lambda m: m.get("zoe", "read", "plans"), lambda m: m.check("ann", "read", "none")):
                for answers in (client, self.monitor):
                    with self.assertRaises(mls.UnknownName):
                        call(answers)
            for answers in (client, self.monitor):
                with self.assertRaises(mls.BadRequest):
                    answers.level("ann", "Q")


def load_tests(loader, tests, pattern):
    """With these, what README shows, over a service that is a stand-in."""
    if not MISSING:
        running = contextlib.ExitStack()
        behind = running.enter_context

        def begin(test):
            test.globs.update(standard=STANDARD, path=behind(service(behind(mls.Monitor.open(STANDARD)))))

        readme = str(PYTHON / "README.md")
        how = {"module_relative": False, "setUp": begin, "tearDown": lambda test: running.close()}
        tests.addTests(doctest.DocFileSuite(readme, **how))
    return tests


if __name__ == "__main__":
    unittest.main()
