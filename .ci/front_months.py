"""mlsd for months: an end that is told before, clocks that go back, what the sessions file takes, and a journal in
segments, with the sessions files beside it."""
import json
import os
import re
import signal
import sys
import time
from errno import EIO, ENOSPC

import front_pools
import fronts
from fronts import ANN, BOB, JOURNAL, Front, comes, connected_as, content, core, entries, fresh, refused, rest_of
from mls import Ended
from outside import TOP, needs_proof, put, same
from segments import joined
from serving import STANDARD, mode_of, shim

LIMIT, ROOM = 268_435_456, 2_265
CORE = f"{TOP}/.ci/pretended_core.py"


def pretended(*steps):
    """The words of a core that pretends, with these steps."""
    put("steps", json.dumps(steps).encode())
    return [sys.executable, CORE, "serve", "--sessions", "--names", "--journal", JOURNAL, "steps"]


def percent(count):
    return LIMIT // 100 * count


def told_of(count, size):
    left = f"{LIMIT - size} of {LIMIT} bytes are left"
    return f"mlsd: {JOURNAL}: {count} percent full: {left}; then mlsd ends with status 6"


def an_end_that_is_told():
    """At 80 and at 95 percent of the journal's limit standard error says once how much is left, also at a start; at the
    end the status is 6, and a start over a full journal has it too, before anybody may connect."""
    fresh()
    sizes = [percent(79), percent(80), percent(81), percent(95), percent(96), LIMIT - ROOM + 1]
    words = pretended(*({"size": size} for size in sizes), {"end": 1})
    full = f"mlsd: {JOURNAL}: full, {sizes[-1]} of {LIMIT} bytes: a new journal is to be begun"
    with Front(words=words) as front:
        client = front.client()
        same([client.ask("ann level U") for _ in sizes], ["yes"] * len(sizes))
        found = client.stats()
        same((found["journal_bytes"], found["journal_limit"]), (sizes[-1], LIMIT))
        try:
            assert False, client.ask("ann level U")
        except Ended:
            pass
        status, line = front.ended()
    wanted = [told_of(80, sizes[1]), told_of(95, sizes[3]), full]
    same((status, line.decode().splitlines()), (6, wanted))
    same(refused(words=words), (6, [full]))
    assert not os.path.exists(fronts.SOCKET), "somebody could connect"
    for size, wanted in ((percent(85), told_of(80, percent(85))), (percent(97), told_of(95, percent(97))), (0, "")):
        os.truncate(JOURNAL, size)
        with Front(words=pretended()) as front:
            same((size, front.end()), (size, (0, f"{wanted}\n".lstrip("\n").encode())))


def a_core_that_ends_for_another_reason():
    """A core that ends with 1 over a journal that isn't full has died, and what it tells itself is passed on."""
    rows = [(1, percent(10), 4), (1, LIMIT - ROOM, 4), (1, LIMIT - ROOM + 1, 6), (5, LIMIT, 5), (3, LIMIT, 4)]
    for end, size, wanted in rows:
        fresh()
        with Front(words=pretended({"size": size, "end": end})) as front:
            front.client()._send(b"ann level U\n")
            same((end, size, front.ended()[0]), (end, size, wanted))


def units_and_their_statuses():
    """The unit isn't started again, and its socket goes, after the statuses of which OPERATIONS says so."""
    with open(f"{TOP}/share/systemd/mlsd.service", encoding="utf-8") as file:
        unit = file.read()
    with open(f"{TOP}/docs/OPERATIONS.md", encoding="utf-8") as file:
        rows = re.findall(r"^\| (\d+) \|.*\| ends, with its socket\b", file.read(), re.M)
    assert len(rows) >= 4 and "6" in rows, rows
    same(re.search(r"^RestartPreventExitStatus=(.*)$", unit, re.M)[1].split(), rows)
    same(re.search(r'"\$EXIT_STATUS" in ([\d|]+)\)', unit)[1].split("|"), rows)
    # (what is started again is so each second, and without an end)
    for name in ("share/systemd/mlsd", "integrations/guard/mls-guard", "integrations/etcd/mls-replica"):
        text = content(f"{TOP}/{name}.service").decode().splitlines()
        section = text[text.index("[Unit]") : text.index("[Service]")]
        same((name, "StartLimitIntervalSec=0" in section, "RestartSec=1" in text), (name, True, True))


@needs_proof
def a_journal_that_is_full():
    """The core itself, over a journal to which little can be added: mlsd tells at its start, serves what fits, and ends
    with 6; all that was answered is there."""
    fresh()
    start = json.loads(content(STANDARD))
    start["security"]["categories"] = [f"c{number}" for number in range(256)]
    for kind in ("subjects", "objects"):
        for it in start[kind]:
            for member in ("maximum", "current", "security"):
                if member in it:
                    it[member] = it[member].partition(":")[0]
    put("wide.json", json.dumps(start).encode())
    wide = b"T:" + b",".join(b"c%d" % number for number in range(256))
    label = b"3:" + b",".join(b"%d" % number for number in range(256))
    # (how the core writes the entry of a label of all categories)
    with Front(words=core(start="wide.json")) as front:
        same(front.client().ask("bob level " + wide.decode()), "no ceiling")
        front.end()
    line = content(JOURNAL).partition(b" ")[2]
    assert len(line) > 900 and label[2:] in line.replace(b" ", b","), line[:99]
    with open(JOURNAL, "wb") as file:
        number = size = 0
        while size + len(line) + 12 < LIMIT - ROOM - 3_000:
            entry = b"%d " % number + line
            file.write(entry)
            number, size = number + 1, size + len(entry)
    with Front(words=core(start="wide.json")) as front:
        client, answered = front.client(), 0
        try:
            while client.ask("bob level " + wide.decode()) == "no ceiling":
                answered += 1
        except Ended:
            pass
        status, line = front.ended()
    lines = line.decode().splitlines()
    same((status, lines[0], lines[-1].startswith(f"mlsd: {JOURNAL}: full, ")), (6, told_of(95, size), True))
    assert answered >= 2, answered
    same(content(JOURNAL).count(b"\n"), number + answered)
    # (what OPERATIONS says to do then)
    with Front(words=core("--segment", "67108864", start="wide.json")) as front:
        same(front.client().ask("bob level " + wide.decode()), "no ceiling")
        same((numbers(JOURNAL), front.end()), ([0], (0, b"")))
    fresh()


def a_failed_sync_of_the_sessions_file_is_5():
    """Session numbers rest on that file: where it can't be synced mlsd ends with 5, and nothing of the session is said;
    where it can't be written, with 1."""
    last = f"{JOURNAL}.sessions"
    for call, failed, errno, wanted in (("sync", 2, EIO, 5), ("sync", 2, ENOSPC, 5), ("write", 2, ENOSPC, 1)):
        fresh()
        env = fronts.environment(**shim(of=last, call=call, fail=failed, errno=errno))
        with Front(env=env) as front:
            sock = fronts.connected()
            same((call, rest_of(sock)), (call, b""))
            sock.close()
            status, line = front.ended()
        same((call, status), (call, wanted))
        assert line.startswith(f"mlsd: {last}: ".encode()), line
    fresh()
    same(refused(env=fronts.environment(**shim(of=last, call="sync", fail=1, errno=EIO)))[0], 5)


def clocks_that_are_set_back():
    """A day begins where the clock says one that is later than any before, and not where it is set back."""
    fresh()
    today = 20_000
    set_to = lambda day: (put("clock.new", b"%d 0\n" % (day * 86_400)), os.rename("clock.new", "clock"))
    set_to(today)
    env = fronts.environment(**shim(clock=os.path.abspath("clock")))
    with Front(users=b"%d = ann rate=0 day=2\n%d = bob rate=0 day=3\n" % (ANN, BOB), env=env) as front:
        ann = front.client(ANN)
        for day, wanted in ((0, 1), (1, 2), (0, 0), (-2, 0), (1, 0), (2, 2), (1, 0)):
            set_to(today + day)
            answers = ann.ask_all(["ann level S:A"] * 4)
            same((day, answers), (day, ["yes"] * wanted + ["busy"] * (4 - wanted)))
        bob = front.client(BOB)
        same(bob.ask_all(["bob level U"] * 3), ["yes", "yes", "busy"])
        set_to(today - 3)
        same(bob.ask_all(["bob level U"] * 3), ["busy"] * 3)


def the_sessions_file_is_counted_and_bound():
    """Its bytes are in `stats`; a connection counts as a line of `rate` and as an entry of `day`, whatever it asks."""
    fresh()
    with Front(users=b"%d = ann rate=0 day=5\n%d = bob rate=1\n" % (ANN, BOB)) as front:
        greetings, begun = {}, time.monotonic()
        for uid in (ANN, BOB):
            for _ in range(40):
                sock = connected_as(uid, uid)
                greetings.setdefault(uid, []).append(fronts.received(sock, 1).split()[0])
                sock.close()
        same(greetings[ANN], [b"session"] * 5 + [b"busy"] * 35)
        # (five seconds' worth at once, and one a second)
        assert 5 <= greetings[BOB].count(b"session") <= 6 + time.monotonic() - begun, greetings[BOB]
        opened = sum(greetings[uid].count(b"session") for uid in greetings)
        root = front.client()
        comes(lambda: root.stats()["sessions"]["open"], 1)
        found = root.stats()
        same((found["sessions_files"], found["sessions_bytes"]), (1, os.path.getsize(f"{JOURNAL}.sessions")))
        lines = content(f"{JOURNAL}.sessions").count(b"\n")
        same(lines, 2 * opened + 2)
    same(entries(), [])


# A file of the journal has some 170 lines.
CUT = ("--segment", "4096")


def numbers(name):
    """The numbers of the files that were closed."""
    found = [re.fullmatch(rf"{re.escape(name)}\.(\d{{20}})", it) for it in os.listdir(".")]
    return sorted(int(it[1]) for it in found if it)


def closed(name, number):
    return f"{name}.{number:020}"


def fill(client, count):
    """Asks line by line until so many files more of the journal are closed."""
    wanted = len(numbers(JOURNAL)) + count
    while len(numbers(JOURNAL)) < wanted:
        same(client.ask("bob get-execute tool"), "yes")


def sessions_of(name=f"{JOURNAL}.sessions"):
    """The lines of all sessions files, in their order."""
    files = [*(closed(name, number) for number in numbers(name)), name]
    return [content(file).decode().splitlines() for file in files]


def are_closed_well():
    """Nobody writes what was closed, each sessions file has the name of a file of the journal and goes on where the one
    before ended, and nothing is left that was being made."""
    last = f"{JOURNAL}.sessions"
    assert set(numbers(last)) <= set(numbers(JOURNAL)), (numbers(last), numbers(JOURNAL))
    for name in (JOURNAL, last):
        for number in numbers(name):
            comes(lambda: mode_of(closed(name, number)), 0o400)
    same([it for it in os.listdir(".") if it.endswith(".new") and it.startswith(JOURNAL)], [])
    files = sessions_of()
    for lines in files[1:]:
        assert re.fullmatch(r"0 begun \S+ entry \d+ next \d+", lines[0]), lines[0]
    opened = [int(line.split()[0]) for lines in files for line in lines if line.split()[1] == "opened"]
    same(opened, [*range(1, len(opened) + 1)])
    return len(opened)


def sessions_files_go_with_the_journal():
    """With --segment the sessions file is closed with the journal's file, under its number; sessions are numbered
    on."""
    fresh()
    for turn in range(3):
        with Front("--release-on-close", words=core(*CUT)) as front:
            client = front.client()
            fill(client, 2)
            same(numbers(f"{JOURNAL}.sessions"), numbers(JOURNAL))
            same(front.client().session, 2 * turn + 2)
            found = client.stats()
            names = [f"{JOURNAL}.sessions", *(closed(f"{JOURNAL}.sessions", it) for it in numbers(JOURNAL))]
            same((found["segments"], found["journal_limit"], found["sessions_files"]), (len(names), None, len(names)))
            same(found["sessions_bytes"], sum(map(os.path.getsize, names)))
            front.end(signal.SIGKILL if turn == 1 else signal.SIGTERM)
        fronts.wait_for_the_lock()
        same(are_closed_well(), 2 * turn + 2)
    for name in (f"{JOURNAL}.start", f"{JOURNAL}.sessions"):
        assert os.path.exists(name), name


def moments_between_two_sessions_files():
    """Whatever a kill left of the steps between two sessions files, the next start has done the rest."""
    last = f"{JOURNAL}.sessions"

    def behind():
        """The journal's file was closed, and the sessions file not."""
        asked = b"".join(b"7 bob get-execute tool\n" for _ in range(400))
        words = [fronts.outside.PROGRAM, "serve", "--sessions", *CUT, "--journal", JOURNAL, STANDARD]
        done = fronts.subprocess_run(words, asked)
        same(done.returncode, 0)

    def linked():
        behind()
        os.link(last, closed(last, numbers(JOURNAL)[-1]))

    def made():
        linked()
        put(f"{last}.new", b"0 beg")

    def named():
        """The new one has its name, and the old one could be written."""
        os.chmod(closed(last, numbers(last)[-1]), 0o600)

    for turn, leave in enumerate((behind, linked, made, named)):
        fresh()
        with Front(words=core(*CUT)) as front:
            fill(front.client(), 1)
            front.end()
        leave()
        with Front(words=core(*CUT)) as front:
            same((turn, front.client().session), (turn, 2))
            comes(lambda: mode_of(closed(last, numbers(last)[-1])), 0o400)
            same((turn, numbers(last)[-1]), (turn, numbers(JOURNAL)[-1]))
            front.end()
        same((turn, are_closed_well()), (turn, 2))


def what_dead_clients_held_in_segments():
    """As without segments: what START opens with stays, and what clients held who are gone is released, though the last
    state has both; subjects of pools are set back."""
    fresh()
    reads = [{"subject": "aud", "object": "notes", "modes": ["read"]}]
    front_pools.start(matrix=reads, accesses=reads)
    words, of_start = core(*CUT, start=front_pools.START), ["aud read notes"]
    for flags, more in ((("--release-on-close",), []), ((), ["ann read plans", "bob execute tool", "sec write root"])):
        fresh()
        with Front(*flags, users=front_pools.RULES, words=words) as front:
            one, two = front.client(), front.client()
            asked = ["ann get-read plans", "aud get-read notes", "sec get-write root", "app level S:A"]
            asked.append("app get-read plans")
            same(one.ask_all(asked), ["yes"] * 5)
            fill(two, 2)
            assert numbers(f"{JOURNAL}.state"), "no state was kept"
            same(front.end(signal.SIGKILL)[0], -signal.SIGKILL)
        fronts.wait_for_the_lock()
        with Front(*flags, users=front_pools.RULES, words=words) as front:
            same(fronts.held(start=front_pools.START), sorted(of_start + more))
            same({fronts.levels(start=front_pools.START)[it] for it in front_pools.POOL}, {"U"})
            with front.client() as client:
                same(client.ask_all(["aud get-read notes", "app get-write notes"]), ["yes", "yes"])
            comes(lambda: fronts.held(start=front_pools.START), sorted(of_start + more))
            same(front.end(), (0, b""))


def recipe():
    """The archive's recipe, as DEPLOYING has it, for this journal and a folder here."""
    with open(f"{TOP}/docs/DEPLOYING.md", encoding="utf-8") as file:
        text = file.read().partition("**An archive.**")[2].partition("\nwith `archive`")[0]
    lines = [line[4:] for line in text.splitlines() if line.startswith("    ")]
    assert len(lines) > 3 and any("mv " in line for line in lines), lines
    return re.sub(r"\bjournal\b", JOURNAL, "\n".join(lines)).replace("/archive/", "archive/")


def an_archive():
    """Closed files are moved away while mlsd runs, as DEPLOYING says; it goes on without them, over a start too; what
    is there and in the archive is all, and is one legal journal."""
    fresh()
    os.makedirs("archive", exist_ok=True)
    with Front("--release-on-close", words=core(*CUT)) as front:
        # (nothing is there to move)
        done = fronts.subprocess_run(["bash", "-c", recipe()], b"")
        same((done.returncode, done.stderr, os.listdir("archive")), (0, b"", []))
        fill(front.client(), 3)
        whole, files = joined(JOURNAL), len(numbers(JOURNAL))
        done = fronts.subprocess_run(["bash", "-c", recipe()], b"")
        same((done.returncode, done.stderr, numbers(JOURNAL), numbers(f"{JOURNAL}.sessions")), (0, b"", [], []))
        same(len(os.listdir("archive")), 2 * files)
        fill(front.clients[0], 1)
        front.end()
    with Front("--release-on-close", words=core(*CUT)) as front:
        same((front.client().session, front.clients[0].ask("bob check execute tool")), (2, "not held"))
        front.end()
    for name in os.listdir("archive"):
        os.rename(f"archive/{name}", name)
    assert joined(JOURNAL).startswith(whole)
    same(are_closed_well(), 2)
    same(fronts.outside.ran_program(["replay", STANDARD, JOURNAL])[0], 0)


def what_share_has():
    """The dashboard and the five alert rules name metrics that mlsd writes, and each rule says what to do."""
    fresh()
    front_pools.start()
    with Front("--metrics", "m", users=front_pools.RULES, words=core(start=front_pools.START)) as front:
        front.client().ask_all(["zoe level U", "ann check read plans"])
        front.end()
    families = set(re.findall(r"^# TYPE (\w+)", content("m").decode(), re.M))
    families |= {f"{it}_bucket" for it in families}
    with open(f"{TOP}/share/grafana/mlsd.json", encoding="utf-8") as file:
        dashboard = json.load(file)
    with open(f"{TOP}/share/prometheus/mlsd.rules.yml", encoding="utf-8") as file:
        rules = file.read()
    with open(f"{TOP}/docs/OPERATIONS.md", encoding="utf-8") as file:
        page = file.read()
    asked = [target["expr"] for panel in dashboard["panels"] for target in panel["targets"]] + [rules]
    named = set(re.findall(r"\bmlsd_\w+", " ".join(asked)))
    assert len(named) > 15 and named <= families, named - families
    alerts = re.findall(r"- alert: (\w+)", rules)
    same((len(alerts), rules.count("expr:"), rules.count("action: >-")), (5, 5, 5))
    same([it for it in alerts if f"`{it}`" not in page], [])
    same([it for it in families if not it.endswith("_bucket") and f"`{it}" not in page], [])


CHECKS = [an_end_that_is_told, a_core_that_ends_for_another_reason, units_and_their_statuses, a_journal_that_is_full]
CHECKS += [an_archive, what_share_has]
CHECKS += [sessions_files_go_with_the_journal, moments_between_two_sessions_files, what_dead_clients_held_in_segments]
AS_ROOT = [the_sessions_file_is_counted_and_bound]
OVER_THE_SHIM = [a_failed_sync_of_the_sessions_file_is_5]
AS_ROOT_OVER_THE_SHIM = [clocks_that_are_set_back]
