"""mlsd, its core or both are killed under clients that ask: nothing that was answered is lost."""
import os
import random
import signal
import threading
import time

import front_pools
import fronts
import outside
from fronts import JOURNAL, Front, comes, content, core, fresh, held, told
from mls import Ended
from outside import SECONDS, same
from segments import joined
from serving import STANDARD

SHORT = FULL = False
KILLS, SHORT_KILLS, CLIENTS = 150, 6, 16
# After so many of them the journal begins anew.
KILLS_OF_A_JOURNAL = 15



class Asker(threading.Thread):
    """One client, which asks until the front is gone, and counts what it asked and what was answered."""

    def __init__(self, client, rnd):
        super().__init__()
        self.client, self.rnd, self.asked, self.answered = client, rnd, 0, 0

    def run(self):
        try:
            while True:
                count = self.rnd.choice((1, 1, 1, 7, 64))
                self.asked += count
                self.client._send(b"".join(b"ann get-read #%d\n" % (1_000 + self.client.session) for _ in range(count)))
                for _ in range(count):
                    same(self.client._line(), "undefined")
                    self.answered += 1
        except (Ended, OSError):
            pass


def killed(front, rnd, what):
    """Kills at some moment while clients ask; returns them."""
    return killed_among(front, rnd, what, [Asker(front.client(), random.Random(rnd.random())) for _ in range(CLIENTS)])


def killed_among(front, rnd, what, askers):
    for asker in askers:
        asker.start()
    if rnd.random() < 0.9:
        comes(lambda: any(asker.answered for asker in askers), True)
    time.sleep(rnd.uniform(0, 0.05 if rnd.random() < 0.7 else 0.3))
    pids = {"core": front.core_pid(), "front": front.run.pid}
    for name in what:
        # (a core has a group of its own)
        (os.killpg if name == "core" else os.kill)(pids[name], signal.SIGKILL)
    for asker in askers:
        asker.join(SECONDS)
        assert not asker.is_alive(), "a client hangs"
    status, _ = front.ended()
    same((what, status), (what, -signal.SIGKILL if "front" in what else 4))
    return askers


def count_of(before):
    """How many entries each session has behind so many bytes of the journal. (The next core takes it as it is, or is
    not ready; a part of a line is none.)"""
    counts = {}
    for line in joined(JOURNAL)[before:].split(b"\n")[:-1]:
        words = line.split()
        if words[3] != b"get-read" or int(words[4]) < 1_000:
            continue
        session = int(words[4]) - 1_000
        counts[session] = counts.get(session, 0) + 1
        same(int(words[1]), session)
    return counts


def kills_lose_nothing():
    """Of each client the journal has at least what was answered, and at most what was asked; sessions are never used
    twice."""
    rnd, seen, unanswered = random.Random(52), set(), 0
    answered, last, many = 0, 0, 0
    for turn in range(SHORT_KILLS if SHORT else KILLS):
        if turn % KILLS_OF_A_JOURNAL == 0:
            fresh()
            seen, last = set(), 0
        what = [("core",), ("front",), ("core", "front"), ("front", "core")][turn % 4]
        before = content(JOURNAL).rfind(b"\n") + 1 if os.path.exists(JOURNAL) else 0
        with Front() as front:
            askers = killed(front, rnd, what)
        fronts.wait_for_the_lock()
        counts = count_of(before)
        for asker in askers:
            session = asker.client.session
            assert session not in seen and session > last, (session, seen)
            seen.add(session)
            found = counts.pop(session, 0)
            assert asker.answered <= found <= asker.asked, (turn, what, asker.answered, found, asker.asked)
            answered += asker.answered
            unanswered += found - asker.answered
        last = max(seen)
        many += any(asker.answered for asker in askers)
        same(counts, {})
        is_told = {session for session, what_, _ in told() if what_ == "opened"}
        assert seen <= is_told, seen - is_told
    status, _, error = outside.ran_program(["serve", "--recover", "--journal", JOURNAL, STANDARD])
    same((status, error), (0, b""))
    print(f"mlsd: {answered} lines were answered before kills, {unanswered} have an entry and no answer", flush=True)
    assert many > turn // 2, f"only {many} of {turn + 1} were killed after an answer"


# Kills with segments and pools, and the clients of each. They may also end by their seconds.
CUT_KILLS, SHORT_CUT_KILLS, FULL_CUT_KILLS, CUT_CLIENTS, LATEST = 12, 3, 100, 8, None


def leased(front, rnd):
    """Clients that ask until the front is gone, of which some hold what a pool's subject got."""
    askers = [Asker(front.client(), random.Random(rnd.random())) for _ in range(CUT_CLIENTS)]
    for asker in askers[: len(front_pools.POOL)]:
        same(asker.client.ask_all(["app level S:A", "app get-read plans"]), ["yes", "yes"])
    same(askers[-1].client.ask("sec get-write root"), "yes")
    return askers


def kills_in_segments():
    """The same with segments and clients of pools: over all files each client has what was answered, and what clients
    held who are gone is released at the next start, with the levels of their subjects."""
    rnd, many, asked, answered, began = random.Random(54), 0, 0, 0, time.monotonic()
    front_pools.start()
    words = core("--segment", "4096", start=front_pools.START)
    turns = FULL_CUT_KILLS if FULL else SHORT_CUT_KILLS if SHORT else CUT_KILLS
    for turn in range(turns):
        if LATEST and time.monotonic() > began + LATEST:
            turns = turn
            break
        if turn % KILLS_OF_A_JOURNAL == 0:
            fresh()
            seen = set()
        what = [("front",), ("core",), ("core", "front"), ("front", "core")][turn % 4]
        with Front("--release-on-close", users=front_pools.RULES, words=words) as front:
            found = outside.ran_program(["state", front_pools.START, JOURNAL])[1].decode().splitlines()
            rows = [line.split() for line in found]
            same((turn, [it for it in rows if it[0] == "access"]), (turn, []))
            same({it[5] for it in rows if it[:1] == ["subject"] and it[1] in front_pools.POOL}, {"U"})
            askers = killed_among(front, rnd, what, leased(front, rnd))
        fronts.wait_for_the_lock()
        counts = count_of(0)
        for asker in askers:
            session = asker.client.session
            assert session not in seen, (turn, session)
            seen.add(session)
            found = counts.get(session, 0)
            assert asker.answered <= found <= asker.asked, (turn, what, asker.answered, found, asker.asked)
            asked, answered = asked + asker.asked, answered + asker.answered
        many += any(asker.answered for asker in askers)
    print(f"mlsd: {turns} kills with segments and pools; of {asked} lines {answered} were answered before", flush=True)
    assert many > turns // 2, f"only {many} of {turns} were killed after an answer"
    with Front("--release-on-close", users=front_pools.RULES, words=words) as front:
        same(held(start=front_pools.START), [])
        same(front.end(), (0, b""))
    status, _, error = outside.ran_program(["replay", front_pools.START, JOURNAL])
    same((status, error), (0, b""))


CHECKS = [kills_lose_nothing, kills_in_segments]
