"""What bench/durable.sh prints: the program, a start file and a folder are its words."""
import os
import random
import resource
import sqlite3
import statistics
import subprocess
import sys
import time

PROGRAM, START, FOLDER = sys.argv[1:]
SCRIPTS, SCRIPT_BYTES = 16, 1_048_576
RUNS, ROUNDS = 5, 5
# Requests of a round: one at a time, and with many in flight.
ALONE, IN_FLIGHT, MANY = 2_000, 1_000, 400_000
# Gets, releases and denials: each has an entry, and no answer depends on what was asked before. With the answers and the
# entries after their number.
LINES = [
    (b"ann get-read plans\n", b"yes\n", b" 0 0 get-read 1 yes\n"),
    (b"ann release read plans\n", b"yes\n", b" 0 0 release read 1 yes\n"),
    (b"bob get-read memo\n", b"no star\n", b" 0 1 get-read 2 no star\n"),
    (b"bob get-execute tool\n", b"yes\n", b" 0 1 get-execute 3 yes\n"),
    (b"sec get-write root\n", b"yes\n", b" 0 2 get-write 0 yes\n"),
]
DRAWN = random.Random(1).choices(LINES, k=MANY)


def path(name):
    return os.path.join(FOLDER, name)


def processor_time(words, source=None):
    """The least processor seconds of some runs of the program; each journal is made anew."""
    found = []
    for _ in range(RUNS):
        if os.path.exists(path("journal")):
            os.remove(path("journal"))
        before = resource.getrusage(resource.RUSAGE_CHILDREN)
        with open(source or os.devnull, "rb") as asked:
            subprocess.run([PROGRAM, *words], stdin=asked, stdout=subprocess.DEVNULL, check=True)
        after = resource.getrusage(resource.RUSAGE_CHILDREN)
        found.append(after.ru_utime + after.ru_stime - before.ru_utime - before.ru_stime)
    return min(found)


def measure_processor_time():
    names, count, rnd = [], 0, random.Random(2)
    with open(path("all"), "wb") as whole:
        for number in range(SCRIPTS):
            text = b""
            while len(text) < SCRIPT_BYTES - 30:
                text += b"".join(line for line, *_ in rnd.choices(LINES, k=min(1_000, 1 + (SCRIPT_BYTES - 30 - len(text)) // 30)))
            count += text.count(b"\n")
            whole.write(text)
            names.append(path(f"script{number}"))
            with open(names[-1], "wb") as script:
                script.write(text)
    serial = processor_time(["run", "--serial", "--journal", path("journal"), START, *names])
    size = os.path.getsize(path("journal"))
    serving = processor_time(["serve", "--journal", path("journal"), START], path("all"))
    batches = -(-os.path.getsize(path("all")) // 65_536)
    print(f"processor time: {count} requests, some {batches} reads, a journal of {size} bytes")
    print(f"  run --serial: {serial / count * 1e9:.0f} ns a line")
    print(f"  serve:        {serving / count * 1e9:.0f} ns a line, {serving / serial:.2f} of it")


class Service:
    """A service over a new journal, and its client."""

    def __init__(self, name):
        self.run = subprocess.Popen([PROGRAM, "serve", "--journal", path(name), START], stdin=subprocess.PIPE, stdout=subprocess.PIPE, bufsize=0)
        assert self.run.stdout.read(8) == b"ready 0\n"
        self.asked, self.answers = self.run.stdin.fileno(), self.run.stdout.fileno()

    def end(self):
        self.run.stdin.close()
        assert self.run.stdout.read() == b"" and self.run.wait() == 0
        self.run.stdout.close()


def one_at_a_time(turn):
    service = Service(f"alone{turn}")
    begun = time.monotonic()
    for line, answer, _ in DRAWN[:ALONE]:
        os.write(service.asked, line)
        assert os.read(service.answers, 100) == answer
    seconds = time.monotonic() - begun
    service.end()
    return ALONE / seconds


def in_flight(turn):
    """With so many lines asked and not answered, at each moment: as many are asked anew as were answered."""
    service = Service(f"many{turn}")
    begun, asked, answered = time.monotonic(), IN_FLIGHT, 0
    os.write(service.asked, b"".join(line for line, *_ in DRAWN[:IN_FLIGHT]))
    while answered < MANY:
        part = os.read(service.answers, 65_536)
        count = part.count(b"\n")
        answered += count
        more = DRAWN[asked : asked + count]
        asked += len(more)
        if more:
            os.write(service.asked, b"".join(line for line, *_ in more))
    seconds = time.monotonic() - begun
    service.end()
    return MANY / seconds


def sqlite_rows(turn):
    """One-row transactions."""
    base = sqlite3.connect(path(f"base{turn}"), isolation_level=None)
    assert base.execute("pragma journal_mode=wal").fetchone() == ("wal",)
    base.execute("pragma synchronous=full")
    base.execute("create table journal (number integer primary key, entry text)")
    begun = time.monotonic()
    for number, (_, _, entry) in enumerate(DRAWN[:ALONE]):
        base.execute("insert into journal values (?, ?)", (number, entry.decode()))
    seconds = time.monotonic() - begun
    base.close()
    return ALONE / seconds


def bare_syncs(turn, entries):
    """A loop of write and fdatasync of the entries' lines, so many of them at once; how many entries a second."""
    count = max(ALONE // (1 + entries // 100), 1)
    pieces = [b"".join(b"%d" % (at + place) + entry for place, (*_, entry) in enumerate(DRAWN[at : at + entries]))
              for at in (entries * place % (MANY - entries) for place in range(count))]
    file = os.open(path(f"bare{entries}.{turn}"), os.O_WRONLY | os.O_CREAT | os.O_APPEND, 0o600)
    begun = time.monotonic()
    for piece in pieces:
        os.write(file, piece)
        os.fdatasync(file)
    seconds = time.monotonic() - begun
    os.close(file)
    return entries * count / seconds


def main():
    measure_processor_time()
    ways = {
        "mls serve, one at a time": one_at_a_time,
        "bare loop, one entry a sync": lambda turn: bare_syncs(turn, 1),
        f"SQLite {sqlite3.sqlite_version}, one row a transaction": sqlite_rows,
        f"mls serve, {IN_FLIGHT} in flight": in_flight,
        f"bare loop, {IN_FLIGHT} entries a sync": lambda turn: bare_syncs(turn, IN_FLIGHT),
    }
    found = {name: [] for name in ways}
    for turn in range(ROUNDS):
        for name, way in ways.items():
            found[name].append(way(turn))
    print(f"a second, the middle of {ROUNDS} rounds, and the least and the most:")
    middles = [statistics.median(rates) for rates in found.values()]
    for (name, rates), middle in zip(found.items(), middles):
        print(f"  {name}: {middle:.0f} ({min(rates):.0f} to {max(rates):.0f})")
    alone, bare, rows, many, bare_many = middles
    print(f"one at a time: {alone / rows:.2f} of SQLite, {alone / bare:.2f} of the bare loop")
    print(f"{IN_FLIGHT} in flight: {many / alone:.0f} times one at a time, {many / bare_many:.2f} of the bare loop")


if __name__ == "__main__":
    main()
