"""The client of the service: its lines, answers and exceptions, over a socket that answers what the test says."""
import socket
import tempfile
import threading
import unittest
import unittest.mock

import mls

GETS = [("execute", "ann get-execute plans"), ("read", "ann get-read plans"), (mls.Mode.APPEND, "ann get-append plans")]


class Clients(unittest.TestCase):
    def client(self, *answers, greeting="session 7\n"):
        """A client whose lines are answered so, whatever they are."""
        ours, self.theirs = socket.socketpair()
        self.theirs.settimeout(10)
        self.addCleanup(self.theirs.close)
        self.theirs.sendall((greeting + "".join(f"{it}\n" for it in answers)).encode())
        client = mls.Client.over(ours)
        self.addCleanup(client.close)
        return client

    def sent(self):
        return self.theirs.recv(1 << 16).decode()

    def test_each_action_is_a_line(self):
        client = self.client(*["yes"] * 11)
        for mode, line in GETS:
            client.get("ann", mode, "plans")
            self.assertEqual(self.sent(), line + "\n")
        rows = [
            (client.get(0, "write", 65535), "#0 get-write #65535"),
            (client.release("ann", "read", 1), "ann release read #1"),
            (client.give("sec", mls.Mode.READ, "ann", "plans"), "sec give read ann plans"),
            (client.rescind("sec", "append", 1, "plans"), "sec rescind append #1 plans"),
            (client.create("sec", "root", "S:A,B", "hi"), "sec create root S:A,B hi"),
            (client.delete("sec", 4), "sec delete #4"),
            (client.level("bob", "C"), "bob level C"),
            (client.relabel("sec", 4, "S"), "sec relabel #4 S"),
        ]
        for answer, _ in rows:
            self.assertEqual(answer, mls.Answer(None, mls.Reply.YES))
        self.assertEqual(self.sent(), "".join(f"{line}\n" for _, line in rows))

    def test_answers(self):
        reply, reason = mls.Reply, mls.Reason
        rows = [
            ("yes", mls.Answer(None, reply.YES)),
            ("yes 0", mls.Answer(0, reply.YES)),
            ("undefined 12", mls.Answer(12, reply.UNDEFINED)),
            ("created 4", mls.Answer(None, reply.CREATED, object=4)),
            ("created 4 9", mls.Answer(9, reply.CREATED, object=4)),
            *((f"no {it.name.lower()}", mls.Answer(None, reply.DENIED, it)) for it in reason),
            ("no star 3", mls.Answer(3, reply.DENIED, reason.STAR)),
        ]
        client = self.client(*(line for line, _ in rows))
        for line, wanted in rows:
            answer = client.delete("ann", "plans")
            self.assertEqual((answer, bool(answer)), (wanted, line[0] in "yc"))

    def test_decide_and_check(self):
        client = self.client("? yes", "? no star", "held", "not held")
        self.assertEqual(client.decide(mls.Get("ann", "read", "plans")), mls.Answer(None, mls.Reply.YES))
        self.assertEqual(client.decide(mls.Level("bob", "C")), mls.Answer(None, mls.Reply.DENIED, mls.Reason.STAR))
        self.assertIs(client.check("ann", "read", "plans"), True)
        self.assertIs(client.check(3, mls.Mode.WRITE, 4), False)
        lines = "? ann get-read plans\n? bob level C\nann check read plans\n#3 check write #4\n"
        self.assertEqual(self.sent(), lines)

    def test_what_is_not_asked(self):
        rows = [
            ("bad form", mls.BadRequest), ("bad label", mls.BadRequest), ("bad name", mls.UnknownName),
            ("no variables", mls.BadRequest), ("not yours", mls.NotYours), ("busy", mls.Busy),
        ]  # fmt: skip
        client = self.client(*(line for line, _ in rows for _ in range(2)), *(f"? {line}" for line, _ in rows), "held")
        for _, kind in rows:
            with self.assertRaises(kind):
                client.get("ann", "read", "plans")
            with self.assertRaises(kind):
                client.check("ann", "read", "plans")
        for _, kind in rows:
            with self.assertRaises(kind):
                client.decide(mls.Get("ann", "read", "plans"))
        self.assertTrue(client.check("ann", "read", "plans"))

    def test_what_is_refused_before_it_is_sent(self):
        client = self.client()
        names = ["", "a b", "#4", "$x", "; x", "?", "a\nb", "\u00e4", "x" * 33]
        for it in names:
            with self.assertRaises(mls.UnknownName):
                client.delete(it, "plans")
            with self.assertRaises(mls.UnknownName):
                client.delete("ann", it)
            with self.assertRaises(mls.UnknownName):
                client.check("ann", "read", it)
        for it in ("", "S A", "S\n", "S\t", "\u00e4", mls.Label(1)):
            with self.assertRaises(mls.BadRequest):
                client.level("ann", it)
        for call in (lambda: client.delete(65536, 0), lambda: client.delete(-1, 0),
                     lambda: client.get(0, "read", 1, session=6)):  # fmt: skip
            with self.assertRaises(mls.BadRequest):
                call()
        for line in ("", "  ", "; note", " ;", "a\nb"):
            with self.assertRaises(mls.BadRequest):
                client.ask(line)
        with self.assertRaises(ValueError):
            client.get("ann", "get-read", "plans")
        client.close()
        self.assertEqual(self.sent(), "")

    def test_lines_as_they_are(self):
        client = self.client("yes 3", "? held", "not yours", *map(str, range(130)), '{"sessions": {"open": 1}}')
        self.assertEqual(client.ask("ann get-read plans"), "yes 3")
        self.assertEqual(client.ask("? ann check read plans"), "? held")
        with self.assertRaises(mls.NotYours):
            client.stats()
        self.assertEqual(client.ask_all(["x"] * 130), [*map(str, range(130))])
        self.assertEqual(client.stats()["sessions"], {"open": 1})
        client.note("two\nlines")
        self.assertTrue(self.sent().endswith("x\nx\nstats\n; two lines\n"))

    def test_sessions(self):
        with self.client() as client:
            self.assertEqual((client.session, client.is_closed), (7, False))
        self.assertTrue(client.is_closed)
        for call in (lambda: client.ask("x"), lambda: client.note("x"), lambda: client.check("ann", "read", "plans")):
            with self.assertRaises(mls.Closed):
                call()
        for greeting, text in (("busy\n", "busy"), ("not known\n", "not known"), ("session x\n", "session x")):
            with self.assertRaises(mls.Refused) as caught:
                self.client(greeting=greeting)
            self.assertEqual(str(caught.exception), text)

    def test_sessions_that_end(self):
        client = self.client("yes")
        self.theirs.shutdown(socket.SHUT_WR)
        self.assertTrue(client.delete("ann", "plans"))
        with self.assertRaises(mls.Ended):
            client.delete("ann", "plans")
        self.assertTrue(client.is_closed)
        client = self.client(greeting="session 7\nyes\nno star")
        self.theirs.shutdown(socket.SHUT_WR)
        self.assertEqual(client.ask("a"), "yes")
        with self.assertRaises(mls.Ended):
            client.ask("b")
        client = self.client()
        self.theirs.close()
        with self.assertRaises(mls.Ended):
            client.ask("a")
        for answer in ("maybe", "yes yes", "no", "no no", "created", "held", ""):
            client = self.client(answer, "yes")
            with self.assertRaises(mls.Ended):
                client.delete("ann", "plans")
            self.assertTrue(client.is_closed)
        for answer in ("yes", "no star", "?", "?? yes"):
            with self.assertRaises(mls.Ended):
                self.client(answer).check("ann", "read", "plans")
            with self.assertRaises(mls.Ended):
                self.client(answer).decide(mls.Delete("ann", "plans"))

    def test_an_answer_that_is_late_is_not_taken_for_another(self):
        client = self.client(greeting="session 7\nye")
        client._socket.settimeout(0.05)
        with self.assertRaises(mls.Ended):
            client.get("ann", "read", "plans")
        with self.assertRaises(mls.Closed):
            client.get("bob", "read", "memo")

    def test_an_interrupt_ends_the_session(self):
        client = self.client("yes")
        client._line = unittest.mock.Mock(side_effect=KeyboardInterrupt)
        with self.assertRaises(KeyboardInterrupt):
            client.get("ann", "read", "plans")
        with self.assertRaises(mls.Closed):
            client.get("bob", "read", "memo")

    def test_threads_take_turns(self):
        client, rounds, found = self.client(), 200, []

        def answer():
            with self.theirs.makefile("rb") as lines:
                for line in lines:
                    self.theirs.sendall(b"created %d\n" % int(line.split()[0][1:]))

        def ask(number):
            found.extend(client.delete(number, 0).object == number for _ in range(rounds))

        threads = [threading.Thread(target=answer), *(threading.Thread(target=ask, args=(it,)) for it in range(1, 5))]
        for it in threads:
            it.start()
        for it in threads[1:]:
            it.join()
        client.close()
        threads[0].join()
        self.assertEqual(found, [True] * 4 * rounds)

    def test_nothing_is_at_the_socket(self):
        with tempfile.TemporaryDirectory() as folder, socket.socket(socket.AF_UNIX) as dead:
            dead.bind(f"{folder}/dead")
            for path, why in ((f"{folder}/none", "No such file"), (f"{folder}/dead", "refused"), ("x" * 200, "too long")):
                with self.assertRaisesRegex(mls.NoService, why) as caught:
                    mls.Client(path)
                self.assertEqual((caught.exception.path, str(caught.exception).partition(":")[0]), (path, path))

    def test_exceptions_are_the_packages(self):
        kinds = [it for it in map(mls.__dict__.get, mls.__all__) if isinstance(it, type) and issubclass(it, Exception)]
        self.assertTrue(len(kinds) > 15 and all(issubclass(it, mls.Error) for it in kinds))
        self.assertTrue(issubclass(mls.NoService, OSError) and issubclass(mls.NoLibrary, OSError))
        self.assertTrue(issubclass(mls.Ended, ConnectionError) and issubclass(mls.NotYours, PermissionError))


if __name__ == "__main__":
    unittest.main()
