"""The guard's own state: its lock, its log beside the journal, and its end."""
import os
import shutil
import signal
import stat
import sys
import time

from judging import judge
from world import HERE, SECONDS, World, content, mls, put, same, service_of, waits


def has(world, what):
    """Whether the log has a line of a kind."""
    return os.path.exists(f"{world.state}/journal.sessions") and any(it[1] == what for it in world.log())


def test_two_guards_at_once(_):
    """The second is refused, and changes nothing."""
    with World() as world:
        guard = world.begin()
        waits(lambda: has(world, "started"), "to start")
        log = world.log()
        same(world.run(), (75, f"guard: {world.state}/journal.sessions: in use\n"))
        same(world.log(), log)
        world.send("m", b"lunch")
        waits(lambda: has(world, "closed"), "to move")
        guard.send_signal(signal.SIGTERM)
        same(guard.wait(SECONDS), 0)
        judge(world)


def test_it_is_told_to_end(_):
    """The message in hand goes its way to the end, and no other is taken."""
    with World() as world:
        world.write_filter("sleep 1")
        world.send("m", b"lunch")
        world.send("n", b"dinner")
        guard = world.begin()
        waits(lambda: has(world, "copied"), "to copy")
        guard.send_signal(signal.SIGTERM)
        same(guard.wait(SECONDS), 0)
        same((world.log()[-1][1], world.told(1)["closed"]), ("ended", ["delivered", "0000000001"]))
        same(os.listdir(world.high), ["n"])
        same(world.run(), (0, ""))
        judge(world)


def test_a_service_that_ends(_):
    """The guard ends with it, and goes on when it is started again."""
    with World() as world:
        guard = world.begin()
        waits(lambda: has(world, "started"), "to start")
        os.kill(service_of(guard), signal.SIGKILL)
        time.sleep(0.1)
        world.send("m", b"lunch")
        same(guard.wait(SECONDS), 1)
        same(world.run(), (0, ""))
        judge(world)


def test_statuses_of_the_service(_):
    """What it says by its end the guard says too: 5 is a sync that failed, 3 a forged journal."""
    for does, wanted in (("echo ready 0; read line; exit 5", 5), ("exit 3", 3), ("exit 1", 1), ("kill -KILL $$", 1),
                         ("echo ready 0; read line; kill -KILL $$", 1), ("echo ready 0; exec <&-; exit 5", 5),
                         ("echo ready 0; read line; echo 7 yes 0; cat", 3), ("echo ready 0; read line; echo 1 y", 4),
                         ("echo ready 0; read line; printf '1 yes'", 1)):
        with World() as world:
            put(f"{world.folder}/program", f"#!/bin/sh\n{does}\n".encode(), 0o755)
            world.send("m", b"lunch")
            status, said = world.run(program=f"{world.folder}/program")
            same((does, status), (does, wanted))
            world.nothing_moved()
            same(os.listdir(world.high), ["m"])


def test_modes(_):
    """What is high is the guard's alone, whatever its senders' umask was."""
    with World() as world:
        world.send("m", b"lunch")
        world.dies("writer release read")
        found = {name: stat.S_IMODE(os.stat(f"{world.state}/{name}").st_mode)
                 for name in ("spool", "refused", "spool/1", "journal", "journal.sessions")}
        same(found, {"spool": 0o700, "refused": 0o700, "spool/1": 0o400, "journal": 0o600, "journal.sessions": 0o600})


def test_a_log_that_is_torn(_):
    """What a crash leaves at its end is cut off: half a line, or zeros."""
    half = b"1 copied 2026-11-27T00:00:00.000Z entry 5 bytes 3 sha"
    for torn in (half[:5], half, 100 * b"\0", b"1 clo\0\0\0\n9 x\n"):
        with World() as world:
            world.send("m", b"lunch")
            world.dies(" copied ")
            with open(f"{world.state}/journal.sessions", "ab") as file:
                file.write(torn)
            same(world.run(), (0, ""))
            told = [what for number, what, _ in world.log() if number]
            same(told, ["opened", "taken", "copied", "verdict", "closed"])
            assert b"\0" not in content(f"{world.state}/journal.sessions")
            judge(world)


def test_a_log_that_is_damaged(_):
    with World() as world:
        world.send("m", b"lunch")
        same(world.run(), (0, ""))
        name, whole = f"{world.state}/journal.sessions", content(f"{world.state}/journal.sessions")
        for damaged, why in ((whole + b"what\n", "line 8: not a line of this file"),
                             (whole + b"2 taken now entry 3 yes\n", "line 8: not a line of this file"),
                             (whole + b"0 started now entry 3 next\n", "line 8: not a line of this file"),
                             (b"\0" + 70_000 * b"x" + whole, "damaged behind byte 0")):
            put(name, damaged)
            same(world.run(), (3, f"guard: {name}: {why}\n"))
            same(content(name), damaged)


def test_a_log_of_another_journal(_):
    """Neither goes on without the other."""
    with World() as world:
        world.send("m", b"lunch")
        same(world.run(), (0, ""))
        log, journal = f"{world.state}/journal.sessions", f"{world.state}/journal"
        for name in (log, journal):
            os.rename(name, f"{world.folder}/kept")
            same(world.run(), (3, f"guard: {log}: is of another journal\n"))
            os.rename(f"{world.folder}/kept", name)
        same(world.run(), (0, ""))
        # (a log that lost what decided how a message goes on)
        world.send("n", b"dinner")
        world.dies("relabeller relabel")
        lines = content(log).splitlines(keepends=True)
        put(log, b"".join(line for line in lines if b"2 verdict" not in line))
        same(world.run(), (3, "guard: session 2: the log lacks verdict\n"))


def test_a_new_journal(_):
    """With a log that has the old one's last line: no number of a session, and no low name, comes twice."""
    with World() as world:
        world.send("m", b"lunch")
        same(world.run(), (0, ""))
        os.mkdir(f"{world.folder}/old")
        for name in ("journal", "journal.sessions"):
            shutil.move(f"{world.state}/{name}", f"{world.folder}/old/{name}")
        put(f"{world.state}/journal.sessions", content(f"{world.folder}/old/journal.sessions").splitlines(True)[-1])
        world.send("n", b"dinner")
        same(world.run(), (0, ""))
        world.receive()
        same(world.received, {"0000000001": b"lunch", "0000000002": b"dinner"})
        same(world.told(2)["closed"], ["delivered", "0000000002"])


def test_what_an_auditor_reads(_):
    """The commands of README.md: what the monitor let go is what the log says went down."""
    with World() as world:
        for number, message in enumerate((b"lunch", b"a SECRET", b"dinner")):
            world.send(f"m{number}", message)
        same(world.run(), (0, ""))
        journal = f"{world.state}/journal"
        same(mls("replay", world.start, journal), (0, "entries 56\nsecure yes\n"))
        _, said = mls("journal", "--by", "relabeller", "--reply", "yes", world.start, journal)
        relabelled = [int(line.split()[2]) for line in said.splitlines() if " relabel " in line]
        down = [number for number, what, more in world.log() if what == "closed" and more[0] == "delivered"]
        same((relabelled, down), ([1, 3], [1, 3]))
        same(mls("journal", "--reply", "no", world.start, journal), (4, ""))
        _, said = mls("journal", "--session", "2", world.start, journal)
        same([line.split(" ", 3)[3] for line in said.splitlines()][6:9], [
            "reader release write outbox: yes", "relabeller give read checker #6: yes", "checker get-read #6: yes"])
        judge(world)


def test_a_spool_that_is_gone(_):
    """Before a start, and under a guard that runs: it ends, and what is high stays there. What was refused may be moved
    away."""
    with World() as world:
        spool = f"{world.state}/spool"
        world.send("m", b"lunch")
        world.dies(" verdict ")
        for away in (lambda: os.rename(spool, f"{world.folder}/away"), lambda: None):
            away()
            same(world.run(), (3, f"guard: {spool}: is gone\n"))
            world.nothing_moved()
        os.rename(f"{world.folder}/away", spool)
        os.rename(f"{world.state}/refused", f"{world.folder}/refused")
        guard = world.begin()
        waits(lambda: has(world, "closed"), "to move")
        os.rmdir(spool)
        world.send("n", b"dinner")
        same((guard.wait(SECONDS), os.listdir(world.high)), (3, ["n"]))
        assert content(f"{world.folder}/said").endswith(f"guard: {spool}: is gone\n".encode())
        os.mkdir(spool, 0o700)
        same(world.run(), (0, ""))
        judge(world)


def test_a_spool_that_goes_at_the_last_moment(_):
    """Between the look and the rename: the message isn't taken for one that its sender took back."""
    with World() as world:
        world.send("m", b"lunch")
        world.dies("relabeller create")
        words = [sys.executable, f"{HERE}/vanishing.py", f"{world.state}/spool"]
        same(world.run(before=words), (3, f"guard: {world.state}/spool: is gone\n"))
        same(os.listdir(world.high), ["m"])
        os.mkdir(f"{world.state}/spool", 0o700)
        same(world.run(), (0, ""))
        judge(world)


def test_folders_that_do_not_fit(_):
    with World() as world:
        low = world.low
        for name in ("high", "state"):
            world.low = f"{world.folder}/{name}"
            same(world.run(), (2, "guard: HIGH, LOW and STATE are three folders\n"))
        world.low = f"{world.folder}/none"
        same(world.run()[0], 1)
        world.low = low
        if os.path.isdir("/dev/shm") and os.stat("/dev/shm").st_dev != os.stat(world.state).st_dev:
            world.high = "/dev/shm"
            same(world.run(), (2, "guard: HIGH and STATE lie on two file systems\n"))
