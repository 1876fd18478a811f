"""Many clients at once: random lines are answered as without mlsd, and the monitor holds what live clients got, and
no more."""
import os
import random
import select
import subprocess
import time

import fronts
import outside
from fronts import ALL, JOURNAL, Front, comes, core, entries, fresh, held
from outside import SECONDS, same, shown
from serving import STANDARD, content

SHORT = False
# Rounds of random lines, and the lines of each; rounds of gets and releases.
ROUNDS, LINES, TURNS = 20, 5_000, 2_850
SHORT_ROUNDS, SHORT_LINES, SHORT_TURNS = 2, 2_000, 150
SUBJECTS = "ann bob sec aud #0 #1 #2 #3 #4 #300 #00 zoe root $x # ? ;".split() + [""]
OBJECTS = "root plans memo tool #0 #1 #2 #3 #4 #5 #6 #4095 #65535 #65536 none $x ann".split()
# What stands behind a subject and is none of an action's forms; what is no request.
NO_ACTS = ["", "frob", "get-read", "get-read plans memo", "level", "\x00", "get-read plans\r", "check read plans;"]
NO_LINES = ["", "   ", "; note", " ;", "\t", "x" * 20_001, "ann level " + "Q" * 19_999]
NO_LINES.append("ann get-read plans" + " " * 19_990)
LABELS = ["U", "C", "S", "T", "S:A", "T:A,B", "U:B", "lo", "hi", "Q", "S:A,A", "S:", "~"]
MODES = ["execute", "read", "append", "write", "all"]
OWN = ("not yours", "no variables")


def random_line(rnd):
    """A line that may be anything, mostly something."""
    pick = rnd.choice
    act = pick([
        lambda: f"get-{pick(MODES)} {pick(OBJECTS)}",
        lambda: f"get-{pick(MODES[:4])} {pick(OBJECTS[:8])}",
        lambda: f"release {pick(MODES)} {pick(OBJECTS)}",
        lambda: f"check {pick(MODES)} {pick(OBJECTS)}",
        lambda: f"{pick(['give', 'rescind'])} {pick(MODES)} {pick(SUBJECTS)} {pick(OBJECTS)}",
        lambda: f"create {pick(OBJECTS)} {pick(LABELS)} {pick(LABELS)}",
        lambda: f"delete {pick(OBJECTS[4:])}",
        lambda: f"level {pick(LABELS)}",
        lambda: f"relabel {pick(OBJECTS)} {pick(LABELS)}",
        lambda: pick(NO_ACTS),
    ])()
    subject = pick(SUBJECTS) if rnd.random() < 0.3 else pick(SUBJECTS[:8])
    line = f"{subject} {act}".replace(" ", " " * (1 if rnd.random() < 0.9 else 3))
    if rnd.random() < 0.02:
        line = pick(NO_LINES)
    return line


def is_question(line):
    return line.split(" ") == ["?"] or line.lstrip(" ").startswith("? ")


def direct(lines):
    """The answer to each line, and the journal, of a plain service."""
    text = "".join(line + "\n" for line in lines).encode("latin1")
    words = [outside.PROGRAM, "serve", "--journal", "direct", STANDARD]
    done = subprocess.run(words, input=text, capture_output=True, timeout=SECONDS)
    same((done.returncode, done.stderr), (0, b""))
    return done.stdout.decode().splitlines()[1:], entries("direct")


def has_answer(line):
    """Whether a line has an answer: that with 20,000 bytes and no token but spaces, and a note, have none."""
    return len(line) > 20_000 or bool(line.strip(" ")) and not line.lstrip(" ").startswith(";")


def random_lines_are_answered_as_without_it():
    """Random lines through mlsd and to the service itself: the same answers, but where mlsd answers itself, and the
    same journal, but for sessions."""
    rounds, count = (SHORT_ROUNDS, SHORT_LINES) if SHORT else (ROUNDS, LINES)
    own = 0
    for seed in range(rounds):
        rnd = random.Random(seed)
        lines = [line for line in (random_line(rnd) for _ in range(count)) if not is_question(line)]
        fresh()
        with Front() as front:
            sock = front.raw()
            answers = exchanged(sock, lines, rnd)
            same(front.end()[0], 0)
        asked = [line for line in lines if has_answer(line)]
        same(len(answers), len(asked))
        kept = [(line, answer) for line, answer in zip(asked, answers) if answer not in OWN]
        own += len(asked) - len(kept)
        if os.path.exists("direct"):
            os.remove("direct")
        wanted, journal = direct([line for line, _ in kept])
        for (line, answer), right in zip(kept, wanted):
            same((line[:99], answer), (line[:99], right))
        same(entries(), journal)
        is_refused_rightly(asked, answers)
    assert own > rounds * count // 20, own


def is_refused_rightly(asked, answers):
    """mlsd answers itself just where a subject isn't there, or a variable."""
    there = {"ann", "bob", "sec", "aud", "#0", "#1", "#2", "#3"}
    for line, answer in zip(asked, answers):
        tokens = [token for token in line.split(" ") if token]
        is_plain = len(line) <= 20_000 and all(32 <= ord(it) <= 126 for it in line)
        wanted = None
        if is_plain and any(token.startswith("$") for token in tokens):
            wanted = "no variables"
        elif is_plain and tokens[0] not in there:
            wanted = "not yours"
        same((line[:99], answer if answer in OWN else None), (line[:99], wanted))


def exchanged(sock, lines, rnd):
    """Sends lines in pieces of any size while their answers are read."""
    text = "".join(line + "\n" for line in lines).encode("latin1")
    wanted, found, at = sum(map(has_answer, lines)), b"", 0
    sock.setblocking(False)
    ends = time.monotonic() + 4 * SECONDS
    while found.count(b"\n") < wanted:
        assert time.monotonic() < ends, f"{found.count(10)} of {wanted} answers came"
        readable, writable, _ = select.select([sock], [sock] if at < len(text) else [], [], SECONDS)
        if readable:
            found += sock.recv(65_536)
        if writable:
            at += sock.send(text[at : at + rnd.choice((1, 50, 3_000, 60_000))])
    sock.settimeout(SECONDS)
    return found.decode().splitlines()


# What the standard start lets them get; levels may stand in the way.
GETS = [("ann", "read", "plans"), ("ann", "write", "plans"), ("bob", "read", "memo"), ("bob", "append", "plans")]
GETS += [("bob", "execute", "tool"), ("sec", "write", "root"), ("aud", "read", "plans")]


class Model:
    """Of each access the live clients that got it, by what they were answered."""

    def __init__(self):
        self.got = {triple: set() for triple in GETS}

    def answered(self, client, line, answer):
        subject, act, *rest = line.split()
        if act.startswith("get-"):
            clients = self.got[subject, act[4:], rest[0]]
            (clients.add if answer == "yes" else clients.discard)(client)
        elif act == "release":
            self.got[subject, rest[0], rest[1]].discard(client)

    def closed(self, client):
        for clients in self.got.values():
            clients.discard(client)

    def held(self):
        return sorted(" ".join(triple) for triple, clients in self.got.items() if clients)


def random_wish(rnd):
    subject, mode, name = rnd.choice(GETS)
    return rnd.choice([
        f"{subject} get-{mode} {name}",
        f"{subject} release {mode} {name}",
        f"{subject} release {mode} {name}",
        f"{rnd.choice(['ann', 'bob'])} level {rnd.choice(['U', 'C', 'S:A', 'S'])}",
        f"{subject} check {mode} {name}",
    ])


def turn_of(rnd, clients, model):
    """Some clients ask, and don't wait for each other; now and then one goes away with its answers unread."""
    asking = rnd.sample(clients, rnd.randint(1, 5))
    bursts = [(client, [random_wish(rnd) for _ in range(rnd.randint(1, 9))]) for client in asking]
    for client, lines in bursts:
        client._send("".join(line + "\n" for line in lines).encode())
    leaver = rnd.choice(clients) if rnd.random() < 0.2 else None
    for client, lines in bursts:
        for line in lines[: rnd.randint(0, len(lines))] if client is leaver else lines:
            model.answered(client, line, client._line())
    if leaver:
        leaver.close()
        clients.remove(leaver)
        model.closed(leaver)
    return leaver is not None


def found_held(client):
    asked = [" ".join((subject, "check", mode, name)) for subject, mode, name in GETS]
    answers = zip(GETS, client.ask_all(asked))
    return sorted(" ".join(triple) for triple, answer in answers if answer == "held")


def what_is_held_is_what_live_clients_got():
    """Random gets, releases, levels and closes by five clients that don't wait for each other: at each quiet moment the
    monitor holds an access exactly if a live client got it and didn't let go."""
    fresh()
    rnd, model, clients, gone = random.Random(51), Model(), [], 0
    with Front("--release-on-close") as front:
        watcher, seen = front.client(), set()
        for turn in range(SHORT_TURNS if SHORT else TURNS):
            clients += [front.client() for _ in range(5 - len(clients))]
            gone += turn_of(rnd, clients, model)
            if turn % 5 == 4:
                comes(lambda: watcher.stats()["sessions"]["open"], 1 + len(clients))
                same((turn, found_held(watcher)), (turn, model.held()))
                seen.add(tuple(model.held()))
        same(front.end()[0], 0)
    same(held(), [])
    assert gone > turn // 10 and len(seen) > 10, (gone, len(seen))


CHECKS = [random_lines_are_answered_as_without_it, what_is_held_is_what_live_clients_got]
