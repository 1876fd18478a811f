"""A monitor that dies or doesn't answer, and queries that are cancelled."""
import os
import signal
import time

LOST = "ERROR:  mls: the monitor was lost in this transaction\n"
TIMED_OUT = "ERROR:  canceling statement due to statement timeout\n"


def unreached(world, why):
    return f"ERROR:  mls: the monitor is not reached at {world.folder}/mlsd.sock: {why}"


def closed(world):
    return unreached(world, "it closed the connection\n")


def held(world):
    """What the monitor holds once what sessions let go is released: they don't wait for that."""
    end = time.monotonic() + 60
    while world.monitor.accesses() and time.monotonic() < end:
        time.sleep(0.05)
    return world.monitor.accesses()


def dies(world, kill):
    bob = world.server.session("bob")
    assert bob.ask("BEGIN; SELECT id FROM docs WHERE id = 1;") == "1\n"
    kill()
    # (what was answered holds for the transaction)
    assert bob.ask("SELECT id FROM docs WHERE id = 1;") == "1\n"
    assert bob.ask("SAVEPOINT s; SELECT id FROM docs;") == closed(world)
    assert bob.ask("ROLLBACK TO s; SELECT id FROM docs;") == LOST
    assert bob.ask("ROLLBACK; SELECT id FROM docs;").startswith(unreached(world, ""))
    assert bob.ask("INSERT INTO docs VALUES (50, 'U_hi', 'x');").startswith(unreached(world, ""))
    world.monitor.start()
    assert bob.ask("SELECT id FROM docs;") == "1\n"
    bob.close()
    assert held(world) == []


def test_mlsd_dies_in_a_transaction(world):
    dies(world, world.monitor.kill)


def test_the_core_dies_in_a_transaction(world):
    dies(world, world.monitor.kill_core)


def test_a_level_is_asked_for_again(world):
    ann = world.server.session("ann")
    assert ann.ask("SELECT mls.level('S:A'); SELECT count(*) FROM docs;") == "S:A\n4\n"
    world.monitor.kill()
    world.monitor.start()
    assert ann.ask("SELECT count(*) FROM docs;") == closed(world)
    lost = "ERROR:  mls: the monitor was lost, and the session's level with it\n"
    assert ann.ask("SELECT count(*) FROM docs;") == lost
    assert ann.ask("NOTIFY dawn;") == lost
    assert ann.ask("SELECT mls.level('C'); SELECT count(*) FROM docs;") == "C\n2\n"
    ann.close()


def test_a_commit_needs_no_monitor(world):
    bob = world.server.session("bob")
    assert bob.ask("BEGIN; INSERT INTO docs VALUES (50, 'U_hi', 'x') RETURNING id;") == "50\n"
    world.monitor.kill()
    assert bob.ask("COMMIT;") == ""
    world.monitor.start()
    assert bob.ask("SELECT id FROM docs ORDER BY id;") == "1\n50\n"
    bob.close()
    assert held(world) == []


def test_a_query_is_cancelled_while_it_asks(world):
    with world.opened("append_up"):
        cancelled(world)


def cancelled(world):
    bob = world.server.session("bob")
    assert bob.ask("SELECT id FROM docs WHERE id = 1;") == "1\n"
    core = world.monitor.core()
    for k in range(3):
        os.kill(core, signal.SIGSTOP)
        began = time.monotonic()
        assert bob.ask("SET statement_timeout = 100; SELECT id FROM docs; SET statement_timeout = 0;") == TIMED_OUT
        assert bob.ask("BEGIN; COMMIT;") == ""
        # (of the monitor it would wait as long as mls.timeout)
        assert time.monotonic() - began < 20, "a cancel waited for the monitor"
        os.kill(core, signal.SIGCONT)
        # (the answer that was due then isn't taken for another)
        assert bob.ask("SELECT id FROM docs ORDER BY id; INSERT INTO docs VALUES (60, 'U_lo', 'x');"
                       f"SELECT {k};") == f"1\n{k}\n"
        unknown = bob.ask("INSERT INTO docs VALUES (61, 'nothing', 'x');")
        assert unknown == "ERROR:  mls: the monitor says bad name to bob\n", unknown
        assert world.ask("postgres", "DELETE FROM docs WHERE id = 60 RETURNING label;") == "U_lo\n"
    bob.close()
    assert held(world) == []


def test_a_client_that_ends_lets_go(world):
    ann = world.server.session("ann")
    assert ann.ask("BEGIN; SELECT id FROM docs WHERE id = 1;") == "1\n"
    assert held_by(world) != []
    ann.process.kill()
    ann.process.communicate()
    assert held(world) == []


def held_by(world):
    return world.monitor.accesses()


def test_sessions_share_a_subject(world):
    """Without a pool: the end of one takes nothing from the other, and one's read stands in the way of the other's
    level."""
    first, second = world.server.session("ann"), world.server.session("ann")
    assert first.ask("SELECT mls.level('S:A'); BEGIN; SELECT id FROM docs WHERE id = 3;") == "S:A\n3\n"
    held_by_first = world.monitor.accesses()
    assert second.ask("SELECT id FROM docs WHERE id = 3;") == "3\n"
    assert world.monitor.accesses() == held_by_first != []
    assert second.ask("SELECT mls.level('U');") == "ERROR:  mls: ann may not work at U: no star\n"
    assert first.ask("SELECT body FROM docs WHERE id = 3; COMMIT;") == "attack at dawn\n"
    assert held(world) == []
    assert second.ask("SELECT mls.level('U');") == "U\n"
    # (which is the level of both)
    assert first.ask("SELECT id FROM docs;") == "1\n"


def test_no_answer_in_time(world):
    with world.server.having(timeout="300ms"):
        core = world.monitor.core()
        bob = world.server.session("bob")
        os.kill(core, signal.SIGSTOP)
        answers = bob.ask("SELECT id FROM docs;"), bob.ask("SELECT id FROM docs;")
        os.kill(core, signal.SIGCONT)
        assert answers == (unreached(world, "no answer in time\n"),) * 2, answers
    assert bob.ask("SELECT id FROM docs;") == "1\n"
    bob.close()
    assert held(world) == []


def test_many_containers_at_once(world):
    """More releases than mlsd takes lines of one client before it answers: nothing blocks."""
    levels = [f"{level}{categories}" for level in "UCST" for categories in ("", "-A", "-B", "-A-B")]
    values = ", ".join(f"({100 + k}, '{label}_{integrity}', 'x')" for k, (label, integrity) in
                       enumerate((label, integrity) for label in levels for integrity in ("lo", "hi")))
    with world.opened("append_up"):
        for _ in range(4):
            assert world.ask("bob", f"BEGIN; INSERT INTO docs VALUES {values}; ROLLBACK;") == ""
            assert world.ask("bob", "SELECT count(*) FROM docs;") == "1\n"
    assert held(world) == []
