"""What a client writes and is answered."""
import os
import signal

from mls_replica_client import Session
from world import exchange


def test_lines_and_answers(world):
    first, second, third = world.sockets()
    with Session([first], "a") as a, Session([second], "b") as b, Session([third], "c") as c:
        count = int(c.would("ann check read plans").rpartition(" ")[2])
        rows = [(a.ask, "ann get-read plans", f"yes {count}"), (b.ask, "bob get-read memo", f"no star {count + 1}"),
                (c.would, "ann check read plans", f"held {count + 2}"),
                (a.would, "aud get-read plans", f"yes {count + 2}"), (a.ask, "ann frob plans", "bad form"),
                (b.ask, "zoe get-read plans", "bad name"), (c.ask, "ann check read plans", "held"),
                (a.ask, "$x = sec create root S hi", "bad form"), (a.ask, "", "bad form"),
                (a.ask, "; note", "bad form"), (a.would, "; note", "bad form"),
                (a.ask, "  ann   release read plans ", f"yes {count + 2}"),
                (b.would, "ann check read plans", f"not held {count + 3}"), (b.ask, "x" * 20_001, "bad form"),
                (c.ask, "bob get-read memo", f"no star {count + 3}")]
        for ask, line, due in rows:
            found = ask(line)
            assert found == due, f"{line[:40]!r}: {found!r}, and {due!r} was due"
        # (on a machine that is busy it may be too old)
        while (found := c.would_about("ann check read plans")) == "stale":
            pass
        assert found == f"not held {count + 4}", found


def test_a_request_is_asked_once(world):
    """Whoever sends it again, to whichever machine, has the answer of the first time."""
    first, second, third = world.sockets()
    greeting, answer = exchange(first, "hello once", "{0} 1 sec get-write root")
    session = greeting.split()[2]
    for at in (second, third, first):
        again, found = exchange(at, "hello once", "{0} 1 sec get-write root")
        assert (again, found) == (greeting, answer), (again, found)
    assert exchange(second, "hello once", "{0} 3 sec get-write root")[1] == f"{session} 3 gap"
    for number in range(2, 11):
        answered = exchange(third, "hello once", f"{{0}} {number} sec release write root")[1]
        assert answered.startswith(f"{session} {number} yes "), answered
    assert exchange(first, "hello once", "{0} 2 sec get-write root")[1] == f"{session} 2 too old"
    assert exchange(first, "hello once", "{0} 10 sec release write root")[1] == answered


def test_another_line_under_a_used_number(world):
    """It is refused, on each machine: while the first is still owed, when it is answered, and after a start."""
    machine = world.machines[0]
    session = exchange(machine.socket, "hello other")[0].split()[2]
    core = machine.core()
    with machine.connected() as one, machine.connected() as two:
        texts = [it.makefile() for it in (one, two)]
        for it, text in zip((one, two), texts):
            it.sendall(b"hello other\n")
            assert text.readline().split()[2] == session
        os.kill(core, signal.SIGSTOP)
        try:
            one.sendall(f"{session} 1 aud get-read plans\n".encode())
            two.sendall(f"{session} 1 ann frob\n".encode())
            two.settimeout(30)
            assert texts[1].readline() == f"{session} 1 another line\n"
        finally:
            os.kill(core, signal.SIGCONT)
        answered = texts[0].readline().rstrip("\n")
    assert answered.startswith(f"{session} 1 ") and "line" not in answered, answered
    machine.end_replica()
    machine.begin_replica()
    machine.serves()
    for at in world.sockets():
        asked = ["hello other", "{0} 1 ann frob", "{0} 1 ; aud get-read plans", "{0} 1 aud get-read plans"]
        found = exchange(at, *asked)[1:]
        assert found == [f"{session} 1 another line", f"{session} 1 another line", answered], found


def test_many_at_once(world):
    """A session that sends many before it reads has all answers; a line that is no request has one too."""
    with world.machines[0].connected() as sock:
        lines = [f"{{}} {k} aud get-read plans" for k in range(1, 501)]
        sock.sendall(b"hello many\n")
        text = sock.makefile()
        session = text.readline().split()[2]
        sock.sendall("".join(line.format(session) + "\n" for line in lines).encode())
        found = [text.readline().split() for _ in lines]
        assert sorted(int(row[1]) for row in found) == list(range(1, 501))
        sock.sendall(b"hello\nx 1 y\n999999 1 ann get-read plans\n")
        assert [text.readline() for _ in range(3)] == ["- bad form\n", "- bad form\n", "999999 1 not open\n"]
