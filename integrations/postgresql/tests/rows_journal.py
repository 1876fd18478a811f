"""The journal beside the database: entries joined with transactions, a dump that is restored, a new journal, reads
that are kept."""
import json
import re
import subprocess

from monitor import MLS, Monitor


def is_release(entry):
    return entry.split()[4] == "release"


def transactions(world, session):
    """Of each note of a session its text, and the entries of its transaction. A note has the number that the next
    entry had when it came; releases that were still under way then are entries behind it, and belong to the
    transaction before."""
    journal = world.monitor.entries()
    # (a core that stands in for the real one writes the session 0 with every entry: then the numbers of entries alone
    # join)
    carried = session if any(entry.split()[2] != "0" for entry in journal) else 0
    entries = [entry for entry in journal if entry.split()[2] == str(carried)]
    notes = [note for note in world.monitor.notes() if note[0] == session]
    ends = [note[1] for note in notes[1:]] + [len(journal)]
    parts = [[entry for entry in entries if note[1] <= int(entry.split()[0]) < end] for note, end in zip(notes, ends)]
    for before, part in zip([[], *parts], parts):
        while part and is_release(part[0]):
            before.append(part.pop(0))
    return [(note[2], part) for note, part in zip(notes, parts)]


def test_the_journal_joins_with_transactions(world):
    """From a statement in the server's log to the entries that it made, by the note of its transaction."""
    number = world.ask("ann", "SELECT mls.level('S:A'), mls.session(); BEGIN; SELECT body FROM docs WHERE id = 3; "
                              "INSERT INTO docs VALUES (70, 'U_hi', 'x'); ROLLBACK; "
                              "SELECT 'later' FROM docs WHERE id = 4;")
    session = int(number.splitlines()[0].split("|")[1])
    with open(world.server.log, encoding="utf-8") as file:
        asked = r"(\S+) (\d+) ann LOG:  statement: SELECT body FROM docs WHERE id = 3;"
        logged = [re.match(asked, line) for line in file]
    transaction, process = [match for match in logged if match][-1].group(1, 2)
    mine = [part for text, part in transactions(world, session) if text.startswith(f"tx {transaction} pid {process} ")]
    assert [[entry.split(" ", 3)[3] for entry in part] for part in mine] == [
        ["ann get-read S_hi: yes", "ann get-append U_hi: no star", "ann release read S_hi: yes"]], mine


def test_labels_survive_a_dump(world):
    words = ["pg_dump", "-h", world.folder, "-U", "postgres", "-d", "demo"]
    dump = subprocess.run(words, capture_output=True, text=True, check=True)
    assert "'U_hi'" not in dump.stdout and "\tS-A_hi\tagents in A\n" in dump.stdout
    world.ask("postgres", "CREATE DATABASE again;")
    said = world.server.ask("postgres", "\\set ON_ERROR_STOP on\n\\o /dev/null\n" + dump.stdout, "again")
    assert said == "", said
    again = "SELECT mls.is_protected('d.docs'), count(*) FROM d.docs;"
    assert world.server.ask("postgres", again, "again") == "t|5\n"
    assert world.server.ask("bob", again, "again") == "t|1\n"
    world.ask("postgres", "DROP DATABASE again;")
    # (and whoever isn't a superuser dumps what it sees)
    mine = ["pg_dump", "-h", world.folder, "-U", "bob", "-d", "demo", "-t", "d.docs", "--data-only"]
    assert subprocess.run(mine, capture_output=True, check=False).returncode == 1
    seen = subprocess.run([*mine, "--enable-row-security"], capture_output=True, text=True, check=True).stdout
    assert "1\tU_hi\tlunch at noon\n" in seen and "S_hi" not in seen


def test_labels_survive_a_new_journal(world):
    """The new start has the containers in another order, so each has another number."""
    old = world.monitor
    old.stop()
    words = [MLS, "state", "--start", old.start_file, old.journal]
    text = subprocess.run(words, capture_output=True, check=True).stdout
    start = json.loads(text)
    names = [thing["name"] for thing in start["objects"]]
    start["objects"][1:] = start["objects"][:0:-1]
    assert names.index("S_hi") != [thing["name"] for thing in start["objects"]].index("S_hi")
    with open(f"{world.folder}/next.json", "w", encoding="utf-8") as file:
        json.dump(start, file)
    world.monitor = Monitor(world.folder, "journal2", f"{world.folder}/next.json")
    try:
        world.monitor.start()
        world.same([
            ("bob", "SELECT id FROM docs;", "1\n"),
            ("ann", "SELECT mls.level('S'); SELECT id FROM docs ORDER BY id; "
                    "SELECT mls.level('U');", "S\n1\n2\n3\nU\n"),
        ])
    finally:
        world.monitor.stop()
        world.monitor = old
        old.start()


def permits(world, deed):
    """What sec does, who may change what is permitted."""
    assert world.monitor.ask(f"sec get-write root\nsec {deed}\n") == ["yes", "yes"]


def test_reads_are_kept(world):
    with world.server.having(keep="on"):
        bob = world.server.session("bob")
        counts = [world.monitor.count()]
        for sql in (*2 * ["SELECT id FROM docs WHERE id = 1;"], "BEGIN; SELECT body FROM docs; COMMIT;"):
            bob.ask(sql)
            counts.append(world.monitor.count())
        # (the first asks; of the third the four that are denied are asked for each time)
        assert [b - a for a, b in zip(counts, counts[1:])] == [1, 0, 4], counts
        # (what is kept doesn't stand in the way of another level, and is asked for again there)
        at_another = bob.ask("SELECT mls.level('C'); SELECT id FROM docs ORDER BY id; SELECT mls.level('U');")
        assert at_another == "C\n1\n2\nU\n", at_another
        assert bob.ask("BEGIN; SELECT id FROM docs WHERE id = 2; SELECT mls.held(); COMMIT;") == "\n"
        assert bob.ask("SELECT id FROM docs WHERE id = 1;") == "1\n"
        # (what is taken away is gone with the next transaction)
        permits(world, "rescind read bob U_hi")
        assert bob.ask("SELECT id FROM docs WHERE id = 1; SELECT 'no more';") == "no more\n"
        permits(world, "give read bob U_hi")
        assert bob.ask("SELECT id FROM docs WHERE id = 1;") == "1\n"
        bob.close()


def test_kept_reads_are_asked_about_at_times(world):
    with world.server.having(keep="on", recheck="1min"):
        bob = world.server.session("bob")
        assert bob.ask("SELECT id FROM docs WHERE id = 1;") == "1\n"
        permits(world, "rescind read bob U_hi")
        # (so long, as README.md says, it is still shown)
        assert bob.ask("SELECT id FROM docs WHERE id = 1;") == "1\n"
        world.server.set(recheck="10ms")
        assert bob.ask("SELECT pg_sleep(0.1); SELECT id FROM docs WHERE id = 1;") == "\n"
        permits(world, "give read bob U_hi")
        bob.close()


def test_denials_are_foreseen(world):
    with world.server.having(preview="on"):
        first = world.monitor.count()
        assert world.ask("bob", "SELECT id FROM docs;") == "1\n"
        world.monitor.settle()
        entries = world.monitor.entries()[first:]
        said = [entry.split(" ", 3)[3] for entry in entries]
        assert said == ["bob get-read U_hi: yes", "bob release read U_hi: yes"], entries
        # (a denial that errors is an entry all the same)
        assert world.ask("bob", "INSERT INTO docs VALUES (80, 'C_hi', 'x'); "
                                "UPDATE docs SET label = 'C_hi';").startswith("ERROR:  mls: bob")
