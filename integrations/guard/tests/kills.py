"""The guard is killed, or its service, or both, at random moments; and at each of its calls."""
import concurrent.futures
import contextlib
import os
import random
import re
import signal
import time

from judging import judge
from world import SECONDS, SECRET, World, content, crashing, goes_on, same, service_of, waits

# How many messages are sent between two kills, so that all are sent by the last.
MESSAGES_OF_A_KILL = 5


class Sender:
    """Sends messages, a third of which the filter refuses, some of which are alike, and some long."""

    def __init__(self, world, rnd):
        self.world, self.rnd, self.count = world, rnd, 0

    def send(self, many):
        for _ in range(many):
            length = self.rnd.choice((0, 10, 1_000, 70_000))
            message = b"again" if self.rnd.random() < 0.1 else self.rnd.randbytes(length)
            if self.count % 3 == 0:
                at = self.rnd.randrange(len(message) + 1)
                message = message[:at] + SECRET + message[at:]
            else:
                message = message.replace(SECRET, b"")
            self.world.send(f"m{self.count:05}-{self.rnd.randrange(1000)}", message)
            self.count += 1


def is_killed(world, rnd, latest):
    """A guard runs, and at some moment something is killed: mostly once it has begun to move messages. Returns what."""
    before, guard = begun(world), world.begin()
    what = rnd.choice(("guard", "service", "both"))
    if rnd.random() < 0.7:
        waits(lambda: begun(world) > before or guard.poll() is not None, "to start")
        latest /= 2
    time.sleep(rnd.uniform(0, latest))
    service = service_of(guard)
    for pid in {"guard": [guard.pid], "service": [service], "both": rnd.sample([guard.pid, service], 2)}[what]:
        # (a service whose guard is gone may have ended)
        with contextlib.suppress(ProcessLookupError):
            pid is not None and os.kill(pid, signal.SIGKILL)
    # (a guard whose service is gone ends once it asks again; one that the kill has missed goes on)
    if what == "service":
        rnd.random() < 0.5 and time.sleep(rnd.uniform(0, latest / 4))
        guard.poll() is None and guard.kill()
    guard.wait(SECONDS)
    return what if service is not None or what == "guard" else "guard"


def begun(world):
    """How many guards have begun."""
    return content(f"{world.state}/journal.sessions").count(b" started ")


def time_of_a_start(world):
    first = time.monotonic()
    same(world.run()[0], 0)
    return time.monotonic() - first


def kills(count, seed):
    """Over so many kills each message goes down once, or not at all, as the journal says."""
    rnd = random.Random(seed)
    with World() as world:
        sender = Sender(world, rnd)
        latest = 2 * time_of_a_start(world)
        struck = {}
        for _ in range(count):
            goes_on()
            sender.send(MESSAGES_OF_A_KILL)
            what = is_killed(world, rnd, latest)
            struck[what] = struck.get(what, 0) + 1
            if rnd.random() < 0.5:
                world.receive()
        same(world.run()[0], 0)
        passed, cut = judge(world), interrupted(world)
        assert cut >= count // 5, f"only {cut} lives were interrupted"
        told = ", ".join(f"{number} {what}" for what, number in sorted(struck.items()))
        return f"{sender.count} messages, {len(passed)} went down; {told} killed; {cut} lives were interrupted"


def interrupted(world):
    """How often a guard began with a message under way."""
    lines = [what for _, what, _ in world.log() if what != "skipped"]
    return sum(what == "started" and before not in ("started", "closed", "ended")
               for before, what in zip(lines, lines[1:]))


MESSAGES = {"passes": b"lunch", "refused": b"a SECRET", "unfit": 300 * b"long", "blocked": b"lunch",
            "blocked late": b"lunch"}  # fmt: skip


def send(world, name):
    """Sends a message, with what lies in its way."""
    world.send(name, MESSAGES[name])
    if name == "blocked":
        world.obstruct("0000000001", name)
    if name == "blocked late":
        world.late = True
        world.obstacles.add("0000000001")
        world.blocked.add(name)


def calls_of(name):
    """How many calls a run has that moves one message."""
    with World() as world:
        send(world, name)
        status, said = world.run("--limit", "1000", before=crashing(0, "kill", world.late))
        same((status, world.log()[-1][1]), (0, "ended"))
        return int(re.search(r"calls (\d+)", said)[1])


def dies_at(number, mode, name):
    """The guard dies at a call, and goes on; and dies again as it goes on, at some other call."""
    goes_on()
    with World() as world:
        send(world, name)
        for at in (number, random.Random(number).randrange(1, number + 1)):
            status, said = world.run("--limit", "1000", before=crashing(at, mode, world.late))
            assert status in (0, -signal.SIGKILL), f"{mode} at {at}: {status}: {said}"
            if at % 2:
                world.receive()
        status, said = world.run("--limit", "1000", before=crashing(0, mode, world.late))
        assert status == 0, f"{mode} at {number}: {status}: {said}"
        try:
            judge(world, lambda message: message == MESSAGES["passes"])
        except AssertionError as fault:
            raise AssertionError(f"{mode} at {number}, {name}: {fault}") from fault


def deaths(modes, step):
    """At each call, or at each of so many."""
    cases = [(number, mode, name) for mode in modes for name in MESSAGES
             for number in range(1, calls_of(name) + 1)]
    with concurrent.futures.ThreadPoolExecutor(len(os.sched_getaffinity(0))) as pool:
        for done in [pool.submit(dies_at, *case) for case in cases[::step]]:
            done.result()
    return f"{len(cases[::step])} of {len(cases)}"
