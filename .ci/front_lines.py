"""A night of lines, as fast as mlsd takes them on one processor: clients come and go and are killed, files are closed,
and of each answer the journal has the entry, under the number that the answer had."""
import array
import os
import random
import re
import subprocess
import time

import fronts
import outside
from front_night import METRICS, MEMORY, samples, wishes
from front_pools import POOL, RULES, START, of_pool, start
from fronts import JOURNAL, Front, core, fresh, held, levels
from outside import IS_PROVED, same

SHORT = FULL = False
# Lines in all; 8 hours of 200 a second have as many as the last. A night may also end by its seconds.
LINES, SHORT_LINES, FULL_LINES, LATEST = 30_000, 6_000, 8 * 3_600 * 200, None
# Clients, lines that each has in flight, and the bytes of a file of the journal.
CLIENTS, BLOCK, SEGMENT = 12, 64, 4_194_304
# Tokens of an action behind its word.
ARGUMENTS = {b"level": 1, b"release": 2}
REPLIES = [b"", b"yes", b"no star", b"no ceiling", b"no discretionary", b"no simple", b"undefined"]
CODES = {reply: code for code, reply in enumerate(REPLIES)}


class Answers:
    """What was answered under each number: the session, and the code of the reply."""

    def __init__(self):
        self.sessions, self.codes = array.array("I"), bytearray()
        self.count = self.numbered = self.most = 0

    def add(self, session, lines):
        """Takes answers; that of a question, of a fault and of mlsd itself has no number."""
        self.count += len(lines)
        for line in lines:
            reply, _, number = line.rpartition(b" ")
            if not number.isdigit():
                continue
            number = int(number)
            if number >= len(self.codes):
                more = number + 65_536 - len(self.codes)
                self.sessions.extend(array.array("I", bytes(4 * more)))
                self.codes.extend(bytes(more))
            assert not self.codes[number], f"two answers have the number {number}"
            self.sessions[number], self.codes[number] = session, CODES[reply]
            self.numbered += 1
            self.most = max(self.most, number)

    def are_in(self, files):
        """Each has its entry in these files, in which all numbers stand in their order; returns how many entries."""
        number = found = 0
        for name in files:
            with open(name, "rb") as file:
                for line in file:
                    words = line.split()
                    same(int(words[0]), number)
                    if number < len(self.codes) and self.codes[number]:
                        reply = b" ".join(words[4 + ARGUMENTS.get(words[3], 1) :])
                        is_same = int(words[1]) == self.sessions[number] and CODES[reply] == self.codes[number]
                        assert is_same, (line, self.sessions[number], REPLIES[self.codes[number]])
                        found += 1
                    number += 1
        same(found, self.numbered)
        return number


class Driver:
    """One thread that asks for all clients: each gets a block of lines, and then the answers of each are read."""

    def __init__(self, front, rnd):
        self.front, self.rnd, self.answers = front, rnd, Answers()
        # (of clients with a subject of the pool, and of the others)
        mine = [("\n".join(wishes(rnd, BLOCK)) + "\n").encode() for _ in range(200)]
        self.blocks = {True: mine, False: [re.sub(rb"(?m)^app", b"sec", block) for block in mine]}
        self.clients, self.opened, self.killed, self.turns, self.seconds = [], 0, 0, 0, 0.0
        self.memory, self.rests, self.began, self.at = 0, 0.0, time.monotonic(), 0.0

    def come(self):
        while len(self.clients) < CLIENTS:
            client = self.front.client()
            client.is_pooled = sum(it.is_pooled for it in self.clients) < len(POOL)
            self.clients.append(client)
            self.opened += 1

    def turn(self):
        """A block for each client. After some, one is killed with lines in flight, or closes."""
        self.come()
        for client in self.clients:
            client._socket.sendall(self.rnd.choice(self.blocks[client.is_pooled]))
        self.turns += 1
        if self.turns % 5 == 0:
            client = self.clients.pop(self.rnd.randrange(CLIENTS))
            self.answers.add(client.session, fronts.received(client._socket, 1).splitlines())
            client.close()
            self.killed += 1
        for client in self.clients:
            found = fronts.received(client._socket, BLOCK)
            assert found.endswith(b"\n") and found.count(b"\n") == BLOCK, found[-99:]
            self.answers.add(client.session, found.splitlines())
        if self.turns % 7 == 0:
            self.clients.pop(self.rnd.randrange(len(self.clients))).close()

    def used(self):
        """Seconds of processor time of mlsd, its core and this process."""
        with open(f"/proc/{self.front.core_pid()}/stat", encoding="ascii") as file:
            ticks = sum(map(int, file.read().rpartition(")")[2].split()[11:13]))
        return self.front.used() + ticks / os.sysconf("SC_CLK_TCK") + time.process_time()

    def look(self):
        """Each second: the memory of both, and a rest where more than one processor was used."""
        if time.monotonic() < self.at + 1:
            return
        pids = (self.front.run.pid, self.front.core_pid())
        self.memory = max(self.memory, sum(resident(pid) for pid in pids))
        more = self.used() - self.first - (time.monotonic() - self.began)
        if more > 0:
            self.rests += more
            time.sleep(more)
        self.at = time.monotonic()

    def run(self, lines, latest):
        self.first, seen = self.used(), {}
        while self.answers.count < lines and (latest is None or time.monotonic() < self.began + latest):
            self.turn()
            self.look()
            if os.path.exists(METRICS) and self.rnd.random() < 0.01:
                found = samples()
                grows = [name for name in seen if name.endswith(("_total", "_count", "_entries")) or "_total{" in name]
                same([name for name in grows if found[name] < seen[name]], [])
                seen = found
        self.seconds = time.monotonic() - self.began


def resident(pid):
    with open(f"/proc/{pid}/status", encoding="ascii") as file:
        return next(int(line.split()[1]) for line in file if line.startswith("VmRSS:"))


def files_of(name):
    closed = sorted(it for it in os.listdir(".") if re.fullmatch(rf"{re.escape(name)}\.\d{{20}}", it))
    return [*closed, name]


def are_counted(found, driver, entries):
    """The metrics at the end are what happened."""
    files, of_sessions = files_of(JOURNAL), files_of(f"{JOURNAL}.sessions")
    of = lambda who: sum(count for key, count in found.items() if key.startswith(f'mlsd_answers_total{{from="{who}"'))
    # (the last line of the sessions file is written once the core has ended)
    last = open(of_sessions[-1], "rb").read().splitlines(keepends=True)[-1]
    wanted = {
        "mlsd_up": 0, "mlsd_journal_entries": entries, "mlsd_journal_files": len(files),
        "mlsd_journal_bytes": sum(map(os.path.getsize, files)), "mlsd_sessions_total": driver.opened,
        "mlsd_sessions_files": len(of_sessions), "mlsd_clients": 0, "mlsd_oldest_unanswered_seconds": 0,
        "mlsd_sessions_bytes": sum(map(os.path.getsize, of_sessions)) - len(last),
        "mlsd_answer_duration_seconds_count": of("core"),
    }  # fmt: skip
    same({name: found[name] for name in wanted}, wanted)
    denied = ('from="core",kind="bad form"',)
    faults = sum(found.get(f"mlsd_answers_total{{{it}}}", 0) for it in denied)
    # (each other answer of the core has an entry, but those to questions)
    assert entries <= of("core") - faults and of("core") + of("mlsd") >= driver.answers.count, (entries, found)


def a_night_of_lines():
    """As many lines as a night has, at once: of each answer the journal has the entry, it replays, nothing is held at
    the end, the metrics are right, files were closed, and memory stays within 64 MiB."""
    fresh()
    start()
    lines = FULL_LINES if FULL else SHORT_LINES if SHORT else LINES
    size = SEGMENT if FULL else 65_536
    words = core("--segment", str(size), "--numbers", start=START)
    with Front("--release-on-close", "--metrics", METRICS, users=RULES, words=words) as front:
        driver = Driver(front, random.Random(55))
        driver.run(lines, LATEST)
        used, descriptors = driver.used() - driver.first, len(os.listdir(f"/proc/{front.run.pid}/fd"))
        stats = driver.clients[0].stats()
        for client in driver.clients:
            client.close()
        same(front.end(), (0, b""))
    rate, seconds = driver.answers.count / driver.seconds, driver.seconds
    print(f"mlsd: {driver.answers.count} answers in {seconds:.0f} s, {rate:.0f} a second, with {used / seconds:.2f} "
          f"processors; {driver.opened} sessions, {driver.killed} killed, {len(files_of(JOURNAL))} files, "
          f"{driver.memory} KiB; latencies {stats['latency_us']}", flush=True)  # fmt: skip
    assert descriptors < CLIENTS + 20, descriptors
    assert driver.memory < MEMORY or not IS_PROVED, driver.memory
    began = time.monotonic()
    entries = driver.answers.are_in(files_of(JOURNAL))
    are_counted(samples(), driver, entries)
    assert len(files_of(JOURNAL)) > 1, "no file was closed"
    same((held(start=START), set(of_pool(levels(start=START)).values())), ([], {"U"}))
    done = subprocess.run([outside.PROGRAM, "replay", START, JOURNAL], capture_output=True, timeout=3_600)
    same((done.returncode, done.stderr), (0, b""))
    print(f"mlsd: {driver.answers.numbered} answers have their entry among {entries}, which replay as one journal; "
          f"both took {time.monotonic() - began:.0f} s", flush=True)  # fmt: skip


CHECKS = [a_night_of_lines]
