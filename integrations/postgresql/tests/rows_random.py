"""Sessions that do things at random while queries are cancelled, mlsd is killed and the core stands still: what is
shown is right or an error of the monitor's, the server lives, and nothing stays held."""
import os
import random
import re
import signal
import threading
import time

SECONDS = 3
# What each may see at the level at which it works all the time.
SEES = {"ann": ("S:A", "1\n2\n3\n4\n"), "bob": ("C", "1\n2\n"), "eve": ("T:A,B", "1\n2\n3\n4\n5\n")}
IDS = "SELECT id FROM docs ORDER BY id;"
FAULTS = re.compile("ERROR:  (mls: the monitor (is not reached|was lost)|canceling statement due to statement timeout)")
# What PostgreSQL says to the statements behind one that met a fault.
AFTER = re.compile('ERROR:  (current transaction is aborted|savepoint "a" does not exist)')


def deeds(dice):
    """Statements, of which each SELECT shows all that the role may see."""
    return dice.choice([
        IDS, f"BEGIN; {IDS} COMMIT;", f"BEGIN; {IDS} ROLLBACK;",
        f"BEGIN; SAVEPOINT a; {IDS} ROLLBACK TO a; {IDS} COMMIT;",
        "BEGIN; INSERT INTO docs SELECT 500, 'T-A-B_lo', 'x' FROM docs LIMIT 1; ROLLBACK;", f"DISCARD ALL; {IDS}",
        f"SET statement_timeout = {dice.randint(1, 9)}; {IDS} SET statement_timeout = 0;",
        f"BEGIN; SET LOCAL statement_timeout = {dice.randint(1, 9)}; SAVEPOINT a; {IDS} ROLLBACK TO a; {IDS} COMMIT;",
    ])


def lives(world, role, seed, is_over, faults):
    """One session, which notes of each deed whether it met a fault, and says what was wrongly shown."""
    level, due = SEES[role]
    dice, session = random.Random(seed), world.server.session(role)
    while not is_over.is_set():
        answer = session.ask(f"ROLLBACK; SELECT mls.level('{level}'); " + deeds(dice))
        shown = "".join(line for line in answer.splitlines(keepends=True) if line[0].isdigit())
        faults.append(bool(FAULTS.search(answer)))
        time.sleep(0.05 if faults[-1] else 0)
        wrong = [line for line in answer.splitlines() if line.startswith("ERROR") and not FAULTS.match(line)
                 and not AFTER.match(line)]
        if shown not in ("", due, 2 * due) or wrong:
            faults.append(f"{role}: {answer}")
    session.close()


def stand_still(world, dice, faults):
    """The core stops, and goes on, again and again; until some deeds went well, however slow the machine is."""
    core, end, before = world.monitor.core(), time.monotonic() + SECONDS, faults.count(False)
    while time.monotonic() < end or faults.count(False) - before < 5:
        assert time.monotonic() < end + 60, f"only {faults.count(False) - before} deeds went well"
        time.sleep(dice.random() / 5)
        os.kill(core, signal.SIGSTOP)
        time.sleep(dice.random() / 20)
        os.kill(core, signal.SIGCONT)


def test_sessions_at_random(world):
    with world.opened("append_up"):
        at_random(world)


def at_random(world):
    seed = random.randrange(1 << 30)
    dice, is_over, faults = random.Random(seed), threading.Event(), []
    sessions = [threading.Thread(target=lives, args=(world, role, seed + k, is_over, faults))
                for k, role in enumerate(["ann", "ann", "bob", "bob", "eve"])]
    for session in sessions:
        session.start()
    try:
        for kill in (world.monitor.kill, world.monitor.kill_core):
            stand_still(world, dice, faults)
            kill()
            world.monitor.start()
        stand_still(world, dice, faults)
    finally:
        is_over.set()
        for session in sessions:
            session.join()
    wrong = [fault for fault in faults if isinstance(fault, str)]
    assert not wrong, f"seed {seed}: {wrong[0]}"
    with open(world.server.log, encoding="utf-8") as file:
        assert "was terminated by signal" not in file.read(), f"seed {seed}: a backend crashed"
    while world.monitor.accesses():
        time.sleep(0.1)
