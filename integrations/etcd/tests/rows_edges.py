"""At the edges: an etcd that went back, a disk that fails or is full, and what no replica has written into the log.
Each over an etcd of its own."""
import contextlib
import secrets

from single import Replica, Single

HALTED = "halted: "


def test_an_older_etcd_behind_the_checkpoint(world):
    """Its head is compared before anything is done: the journal is as it was, and a machine that was behind doesn't go
    on with another history."""
    with Single(world.start) as single:
        ahead, behind = Replica(single, "ahead", "10").begin().serves(), Replica(single, "behind").begin().serves()
        went_back(single, ahead, behind, 40)
        assert ahead.begin().ends(HALTED, "the log went back: it ends with batch ", " was fed") == 3
        is_halted(single, ahead, behind)


def test_an_older_etcd_behind_the_journal(world):
    """Where the checkpoint's place is still in the log, and entries behind it aren't."""
    with Single(world.start) as single:
        ahead, behind = Replica(single, "ahead").begin().serves(), Replica(single, "behind").begin().serves()
        went_back(single, ahead, behind, 40)
        assert ahead.begin().ends(HALTED, "the journal has more than the log gives, from entry ") == 3
        is_halted(single, ahead, behind)


def test_an_older_etcd_that_went_on(world):
    """A machine that was behind has served another history by then: it ends too, and nothing is lost of either."""
    with Single(world.start) as single:
        ahead, behind = Replica(single, "ahead").begin().serves(), Replica(single, "behind").begin().serves()
        went_back(single, ahead, behind, 40)
        behind.begin().serves().asks(60, ["bob get-read memo"])
        assert ahead.begin().ends(HALTED, "the journal differs from the log at entry ") == 3
        assert behind.ends(HALTED) == 3
        is_halted(single, ahead, behind)


def test_an_etcd_that_goes_back_under_a_replica(world):
    """That runs meanwhile."""
    with Single(world.start) as single:
        ahead, behind = Replica(single, "ahead").begin().serves(), Replica(single, "behind").begin().serves()
        behind.asks(4)
        behind.end()
        single.keep_data()
        ahead.asks(40)
        ahead.journal_was = ahead.entries()
        single.put_data_back()
        assert ahead.ends(HALTED, "the log ") == 3
        is_halted(single, ahead, behind)


def went_back(single, ahead, behind, count):
    """Both have ended; etcd has what it had before so many answers of the one."""
    behind.asks(4)
    behind.end()
    single.keep_data()
    ahead.asks(count)
    ahead.end()
    ahead.journal_was = ahead.entries()
    assert ahead.journal_was.count(b"\n") == count + 4
    single.put_data_back()


def is_halted(single, ahead, behind):
    """The journal has all that was answered, also after a second start; and nobody serves."""
    assert ahead.entries() == ahead.journal_was, "the journal was changed"
    assert single.value("mls/halt") != "", "nobody has halted the log"
    for it in (ahead, behind):
        assert it.begin().ends(HALTED) == 3
    assert ahead.entries() == ahead.journal_was, "the journal was changed"


# What fails, as failing.py has it; what is told; and the status.
FAULTS = [
    (("fsync", "journal.again", "EIO", "0"), "journal.again: Input/output error", 5),
    (("write", "journal.again", "EIO", "0"), "journal.again: Input/output error", 5),
    (("write", "journal.again", "ENOSPC", "0"), "journal.again: the disk is full", 1),
    (("rename", "journal.again", "EIO", "0"), "journal: Input/output error", 5),
    (("fsync", "/one", "EIO", "0"), "/one: Input/output error", 5),
    (("fsync", "/one", "EIO", "1"), "/one: Input/output error", 5),
    (("write", "journal.checkpoint.new", "EIO", "0"), "journal.checkpoint.new: Input/output error", 5),
    (("fsync", "journal.checkpoint.new", "EIO", "0"), "journal.checkpoint.new: Input/output error", 5),
    (("rename", "journal.checkpoint.new", "EIO", "0"), "journal.checkpoint: Input/output error", 5),
    (("write", "journal.checkpoint.new", "ENOSPC", "0"), "journal.checkpoint.new: the disk is full", 1),
    (("write", "journal.checkpoint.new", "EDQUOT", "0"), "journal.checkpoint.new: the disk is full", 1),
    (("fsync", "journal.marks", "EIO", "0"), "journal.marks: Input/output error", 5),
]


def test_a_disk_that_fails_at_a_start(world):
    """A line, no traceback, and a status for which the unit doesn't start it again; a full disk has another."""
    with Single(world.start) as single:
        # (a checkpoint, and entries behind it)
        one = Replica(single, "one", "5").begin().serves()
        one.asks(12)
        one.end()
        for how, told, wanted in FAULTS:
            status = one.begin_failing(*how).ends(told)
            assert status == wanted, f"{how}: status {status}: {one.told()[-500:]}"
        one.begin().serves().asks(4)
        assert one.entries().count(b"\n") == 16


def test_a_disk_that_fails_while_it_serves(world):
    """At the next checkpoint."""
    with Single(world.start) as single:
        one = Replica(single, "one", "5").begin().serves()
        one.asks(12)
        one.end()
        # (a start has written one checkpoint by the time it serves)
        for how, told, wanted in FAULTS:
            if ".again" in how[1] or "/one" in how[1]:
                continue
            how = (*how[:-1], "1")
            one.begin_failing(*how).serves()
            asked = begun_to_ask(one, 10)
            status = one.ends(told)
            assert status == wanted, f"{how}: status {status}: {one.told()[-500:]}"
            asked.close()
        one.begin().serves().asks(4)


def begun_to_ask(replica, count):
    """So many requests at once, and once they are answered so many more, whose answers nobody needs."""
    sock = replica.connected()
    sock.sendall(b"hello many.%s\n" % secrets.token_hex(8).encode())
    answers = sock.makefile("rb")
    session = answers.readline().split()[2]
    with contextlib.suppress(OSError):
        for first in (1, count + 1):
            numbers = range(first, first + count)
            sock.sendall(b"".join(b"%s %d aud get-read plans\n" % (session, k) for k in numbers))
            for _ in numbers if first == 1 else ():
                answers.readline()
    return sock


def test_a_malformed_digest(world):
    """All end with 3, and say which key; nobody is started again over it."""
    with Single(world.start) as single:
        one, two = (Replica(single, name).begin().serves() for name in ("one", "two"))
        single.etcdctl("put", "mls/digest/x", "12 rubbish", check=True)
        for it in (one, two):
            assert it.ends("mls/digest/x: is no digest: '12 rubbish'") == 3
        for value in ("12 rubbish", "", "12", "1000 " + "0" * 63, "0 " + "0" * 64, "1000 " + "0" * 64 + "\n"):
            single.etcdctl("put", "mls/digest/x", "--", value, check=True)
            assert one.begin().ends("mls/digest/x: is no digest: ") == 3
        single.etcdctl("del", "mls/digest/x", check=True)
        assert one.begin().serves().asks(2) == ["yes 0", "yes 1"]


def test_a_rubbish_batch(world):
    """All end with 3, and say which; so does log-lines."""
    for rubbish in ("rubbish", "+ a b\n", "1 -1 ann get-read plans\n", "1 1 ann get-read plans"):
        with Single(world.start) as single:
            one, two = (Replica(single, name).begin().serves() for name in ("one", "two"))
            one.asks(2)
            number = 1 + one.stats()["batch"]
            single.etcdctl("put", "mls/log", "--", rubbish, check=True)
            for it in (one, two):
                assert it.ends(f"mls/log: batch {number} is none that a replica writes") == 3, rubbish
            assert one.begin().ends(f"mls/log: batch {number} is none that a replica writes") == 3, rubbish
            assert one.entries().count(b"\n") == 2
            done = single.log_lines()
            assert done.returncode == 3 and f"mls/log: batch {number} is none" in done.stderr, done
