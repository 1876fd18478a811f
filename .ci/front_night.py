"""A night on call: what mlsd tells by its metrics, its probe and its watchdog, where its core answers and where it
stands still; and a night itself, by a factor."""
import json
import os
import random
import re
import select
import signal
import socket
import subprocess
import time

import fronts
from front_pools import RULES, START, start
from fronts import ANN, BOB, JOURNAL, SOCKET, Front, comes, core, entries, fresh, mlsd, told
from outside import IS_PROVED, SECONDS, TOP, put, same

SHORT = FULL = False
METRICS = "m.prom"
# Seconds of a night, lines in each of them, and the memory that mlsd and its core may have together, in KiB.
NIGHT, SHORT_NIGHT, FULL_NIGHT, LINES, MEMORY = 60, 5, 8 * 3_600, 200, 65_536
SAMPLE = re.compile(r'([a-z][a-z0-9_]*)(?:\{((?:[a-z]+="[^"\\]*",?)*)\})? (-?[0-9.e+-]+|\+Inf)')
STILL, AGAIN = b"has answered nothing for", b"answers again"


def samples(name=METRICS):
    """The samples of a file of metrics, by name and labels. The form is checked: each family has its help and its type
    before its samples, no sample stands twice, and the last line is whole."""
    with open(name, encoding="ascii") as file:
        text = file.read()
    assert text.endswith("\n")
    found, family, kinds = {}, None, {}
    for line in text[:-1].split("\n"):
        words = line.split(" ")
        if line.startswith("# HELP "):
            family = words[2]
            assert family not in kinds and len(words) > 3, line
        elif line.startswith("# TYPE "):
            same((words[2], len(words)), (family, 4))
            kinds[family] = words[3]
        else:
            match = SAMPLE.fullmatch(line)
            assert match, line
            base = re.sub(r"_(bucket|sum|count)$", "", match[1]) if kinds[family] == "histogram" else match[1]
            same((line, base), (line, family))
            key = match[1] + (f"{{{match[2]}}}" if match[2] else "")
            assert key not in found, line
            found[key] = float(match[3])
    for family, kind in kinds.items():
        assert kind in ("counter", "gauge", "histogram") and family.endswith("_total") == (kind == "counter"), family
    return found


def next_samples(seconds):
    """The samples of a file that is written later than that."""
    comes(lambda: os.path.exists(METRICS) and samples()["mlsd_written_time_seconds"] >= seconds, True)
    return samples()


def metrics_are_what_was_asked():
    """The file is whole at each moment; its numbers are those of what was asked, and the last says that mlsd has ended.
    A restart is counted."""
    fresh()
    start()
    for turn in range(2):
        with Front("--metrics", METRICS, users=RULES, words=core(start=START)) as front:
            comes(lambda: os.path.exists(METRICS) and samples()["mlsd_up"], 1)
            same(os.stat(METRICS).st_mode & 0o777, 0o644)
            client = front.client()
            client.ask_all(["app get-read notes", "bob get-read memo", "ann check read plans", "zoe level U"])
            client.note("x")
            same(client.ask("ann frob"), "bad form")
            same(front.end()[0], 0)
        found = samples()
        wanted = {
            "mlsd_up": 0, "mlsd_restarts_total": turn, "mlsd_notes_total": 1, "mlsd_sessions_total": 1,
            'mlsd_answers_total{from="core",kind="no star"}': 1, 'mlsd_answers_total{from="core",kind="bad form"}': 1,
            'mlsd_answers_total{from="mlsd",kind="not yours"}': 1, "mlsd_journal_limit_bytes": 268_435_456,
            "mlsd_journal_bytes": os.path.getsize(JOURNAL), "mlsd_journal_files": 1,
            "mlsd_journal_entries": len(entries()), "mlsd_oldest_unanswered_seconds": 0,
            'mlsd_answer_duration_seconds_bucket{le="+Inf"}': found["mlsd_answer_duration_seconds_count"],
        }  # fmt: skip
        same({name: found.get(name) for name in wanted}, wanted)
        of_pool = lambda state: found[f'mlsd_pool_subjects{{pool="app",state="{state}"}}']
        same(sum(map(of_pool, ("free", "leased", "returning", "kept"))), 3)
        bounds = [key for key in found if key.startswith("mlsd_answer_duration_seconds_bucket")]
        counts = [found[key] for key in bounds]
        same((len(bounds), counts), (16, sorted(counts)))
        # (the last line of the sessions file is written once the core has ended)
        lines = open(f"{JOURNAL}.sessions", "rb").read().splitlines(keepends=True)
        same(found["mlsd_sessions_bytes"], sum(map(len, lines[:-1])))
    assert not os.path.exists(f"{METRICS}.new")


def metrics_are_written_anew():
    """Each 15 seconds, also where nobody asks, and where they can't be written mlsd serves, and tells it once. As often
    the service manager is told how many entries there are."""
    fresh()
    os.mkdir("folder")
    with Front("--metrics", f"folder/{METRICS}") as front:
        comes(lambda: os.path.exists(f"folder/{METRICS}"), True)
        before = os.stat(f"folder/{METRICS}").st_mtime_ns
        same(front.client().ask("ann get-read plans"), "yes")
        comes(lambda: os.stat(f"folder/{METRICS}").st_mtime_ns != before, True, 2 * SECONDS)
        status = f"STATUS=1 entries, {os.path.getsize(JOURNAL)} of 268435456 bytes in the journal's file"
        assert front.notices.has(status, lambda: front.run.poll() is None)
        os.rename("folder", "elsewhere")
        is_told(front, b"folder/m.prom")
        same(front.client().ask("ann check read plans"), "held")
        same(front.end(), (0, b""))


def promtool_reads_the_metrics():
    fresh()
    start()
    with Front("--metrics", METRICS, users=RULES, words=core(start=START)) as front:
        front.client().ask_all(["app get-read notes", "bob get-read memo", "zoe level U"])
        front.end()
    with open(METRICS, "rb") as file:
        done = subprocess.run(["promtool", "check", "metrics"], stdin=file, capture_output=True, timeout=SECONDS)
    same((done.returncode, done.stdout, done.stderr), (0, b"", b""))


# What metrics say each 15 seconds, and which alerts fire then, by the seconds.
WRITTEN = "mlsd_written_time_seconds"
ALERTS = [
    ("mlsd has ended", {"mlsd_up": "1 1 1 0x20", WRITTEN: "0+15x23"}, {45: [], 75: [], 120: ["MlsdDown"]}),
    ("it was killed", {"mlsd_up": "1x20", WRITTEN: "0 15 30 30x17"}, {90: [], 150: [], 165: ["MlsdDown"]}),
    ("the watchdog ended it", {"mlsd_oldest_unanswered_seconds": "0 0 0 7.5 22.5 0x20"},
     {30: [], 45: ["MlsdCoreStandsStill"], 60: ["MlsdCoreStandsStill"], 75: []}),
    ("two starts behind the first", {"mlsd_start_time_seconds": "1x9 150x9 290x50"},
     {135: [], 150: [], 300: ["MlsdRestarts"], 1_200: []}),
    ("a journal fills", {"mlsd_journal_bytes": "80 81", "mlsd_journal_limit_bytes": "100 100"},
     {0: [], 15: ["MlsdJournalFills"]}),
    ("a journal in segments", {"mlsd_journal_bytes": "1e12x9"}, {120: []}),
    ("somebody is refused", {'mlsd_refused_total{reason="busy"}': "0 1 2+1x30"},
     {120: [], 450: ["MlsdClientsAreRefused"]}),
    ("nobody is known", {'mlsd_refused_total{reason="not known"}': "0+1x40"}, {450: []}),
    ("a pool has none", {'mlsd_answers_total{from="mlsd",kind="busy"}': "0+1x40"}, {450: ["MlsdClientsAreRefused"]}),
    ("the core denies", {'mlsd_answers_total{from="core",kind="no star"}': "0+1x40"}, {450: []}),
]  # fmt: skip


def promtool_tries_the_alerts():
    """Each alert fires where it should, by a table of metrics, and no other."""
    rules = f"{TOP}/share/prometheus/mlsd.rules.yml"
    same(subprocess.run(["promtool", "check", "rules", rules], capture_output=True, timeout=SECONDS).returncode, 0)
    expr = 'count by (alertname) (ALERTS{alertstate="firing"})'
    sample = lambda alert: {"labels": f'{{alertname="{alert}"}}', "value": 1}
    tests = []
    for _, series, firing in ALERTS:
        asked = [{"expr": expr, "eval_time": f"{at}s", "exp_samples": [sample(it) for it in alerts]}
                 for at, alerts in firing.items()]  # fmt: skip
        values = [{"series": name, "values": values} for name, values in series.items()]
        tests.append({"interval": "15s", "input_series": values, "promql_expr_test": asked})
    # (JSON is YAML too)
    put("alerts.yml", json.dumps({"rule_files": [rules], "evaluation_interval": "15s", "tests": tests}).encode())
    done = subprocess.run(["promtool", "test", "rules", "alerts.yml"], capture_output=True, text=True, timeout=SECONDS)
    same((done.returncode, done.stderr), (0, ""))


def line_of(front, seconds=SECONDS):
    """The next line that mlsd tells on standard error."""
    found = b""
    while not found.endswith(b"\n"):
        assert select.select([front.run.stderr], [], [], seconds)[0], f"nothing is told after {found}"
        part = os.read(front.run.stderr.fileno(), 1)
        assert part, f"the end after {found}"
        found += part
    return found


def is_told(front, wanted):
    """Waits until it is told on standard error. (On a machine that has much to do it may be told before that the core
    answers late.)"""
    while wanted not in (line := line_of(front)):
        assert STILL in line or AGAIN in line, line


def probed(path=SOCKET, **how):
    how = {"stdin": subprocess.DEVNULL, "capture_output": True, "timeout": SECONDS, **how}
    done = subprocess.run([mlsd(), "--probe", path], **how)
    return done.returncode, done.stderr.decode()


STANDS_STILL = (1, f"mlsd: {SOCKET}: no answer within 2 s\n")


def probes():
    """0 where a line is answered; 1, with why, where nobody listens, where mlsd refuses, and where its core stands
    still for 2 s. There is no entry."""
    fresh()
    comes(probed, (1, f"mlsd: {SOCKET}: No such file or directory (os error 2)\n"))
    with Front() as front:
        comes(probed, (0, ""))
        client = front.client()
        same([client.ask("probe"), client.ask("  probe  "), client.ask("? probe")], ["yes", "yes", "? not yours"])
        os.kill(front.core_pid(), signal.SIGSTOP)
        same(probed(), STANDS_STILL)
        os.kill(front.core_pid(), signal.SIGCONT)
        comes(probed, (0, ""))
        same(front.client().stats()["entries"], 0)
        front.end(signal.SIGKILL)
    comes(probed, (1, f"mlsd: {SOCKET}: Connection refused (os error 111)\n"))
    same(entries(), [])


def who_may_probe():
    """Any client may, and who has no rule is refused."""
    fresh()
    with Front(users=b"%d = ann\n" % ANN):
        comes(lambda: probed(user=ANN), (0, ""))
        comes(lambda: probed(user=BOB), (1, f"mlsd: {SOCKET}: refused: not known\n"))


def stats_for_a_group():
    """A rule may name `stats`, which is no subject, unless START has one of that name."""
    fresh()
    with Front(users=b"@%d = stats\n%d = ann\n" % (fronts.OF_AUD, BOB)) as front:
        ops = front.client(ANN, ANN, (fronts.OF_AUD,))
        same(ops.stats()["sessions"]["open"], 1)
        same(ops.ask_all(["ann level U", "stats level U"]), ["not yours", "not yours"])
        same(front.client(BOB).ask("stats"), "not yours")
        both = front.client(BOB, BOB, (fronts.OF_AUD,))
        same((both.ask("ann check read plans"), both.stats()["sessions"]["open"]), ("not held", 3))


def a_core_that_stands_still():
    """The watchdog is fed only while the core answers. That it stands still is told, also where nobody asks, and so is
    that it answers again; SIGTERM ends mlsd with the status of a core that died."""
    fresh()
    with Front(env=fronts.environment(WATCHDOG_USEC="4000000")) as front:
        is_alive = lambda: front.run.poll() is None
        assert front.notices.has("WATCHDOG=1", is_alive) and front.notices.has("WATCHDOG=1", is_alive)
        client = front.client()
        pid = front.core_pid()
        os.kill(pid, signal.SIGSTOP)
        client._send(b"ann get-read plans\n")
        is_told(front, STILL)
        # (what the core answered before is read by then)
        same(probed(), STANDS_STILL)
        while front.notices.is_there():
            pass
        time.sleep(3)
        assert not front.notices.is_there(), "it is fed while the core stands still"
        os.kill(pid, signal.SIGCONT)
        is_told(front, AGAIN)
        same(client._line(), "yes")
        assert front.notices.has("WATCHDOG=1", is_alive)
        client.close()
        # (now nobody asks but mlsd)
        os.kill(pid, signal.SIGSTOP)
        is_told(front, STILL)
        begun = time.monotonic()
        status, line = front.end()
        took = time.monotonic() - begun
    same(status, 4)
    assert b"it is killed" in line and b"signal: 9" in line, line
    assert took < SECONDS, took


def a_service_manager_that_reads_nothing():
    """What it is told more than once holds up nobody, though its socket takes nothing more."""
    fresh()
    with Front(env=fronts.environment(WATCHDOG_USEC="400000")) as front:
        client, ends = front.client(), time.monotonic() + 3
        asked = 0
        while time.monotonic() < ends:
            same(client.ask("ann get-read plans"), "yes")
            asked += 1
        sock = socket.socket(socket.AF_UNIX, socket.SOCK_DGRAM)
        sock.setblocking(False)
        try:
            for _ in range(2_000):
                sock.sendto(b"X=1", front.notices.name)
        except BlockingIOError:
            pass
        sock.close()
        same(client.ask("ann get-read plans"), "yes")
        same((front.end(), len(entries())), ((0, b""), asked + 1))


def a_core_that_does_not_end():
    """A core that doesn't end, though nothing more is asked, is killed too."""
    fresh()
    with Front() as front:
        same(front.client().ask("ann get-read plans"), "yes")
        front.clients[0].close()
        comes(lambda: told()[-1][1], "closed")
        os.kill(front.core_pid(), signal.SIGSTOP)
        status, line = front.end()
    same((status, b"it is killed" in line), (4, True))


def wishes(rnd, count):
    """What somebody asks in a second: mostly what is granted, some denied, and of a pool's subject too."""
    names = ["ann get-read plans", "ann release read plans", "app get-write notes", "app release write notes"]
    names += ["ann get-read plans", "bob get-read memo", "app level S:A", "app level U", "? ann get-read plans"]
    names += ["bob frob"]
    return [rnd.choice(names) for _ in range(count)]


def a_night():
    """So many lines a second, of clients that come and go, with segments, pools and metrics: mlsd and its core stay
    within 64 MiB, each line is answered, and the journal has an entry for each answer that has one."""
    fresh()
    start()
    seconds = FULL_NIGHT if FULL else SHORT_NIGHT if SHORT else NIGHT
    rnd, most, asked = random.Random(53), 0, 0
    words = core("--segment", "1048576", start=START)
    with Front("--release-on-close", "--metrics", METRICS, users=RULES, words=words) as front:
        clients, begun = [], time.monotonic()
        for second in range(seconds):
            while len(clients) < 3:
                clients.append(front.client())
            for client in clients:
                answers = client.ask_all(wishes(rnd, LINES // len(clients)))
                asked += len(answers)
                assert not set(answers) & {"busy"}, answers
            if second % 5 == 4:
                clients.pop(rnd.randrange(3)).close()
                most = max(most, front.status("VmHWM") + memory_of(front.core_pid()))
                # (its subject of the pool is the next client's)
                comes(lambda: clients[0].stats()["pools"]["app"]["returning"], 0)
            time.sleep(max(0, begun + second + 1 - time.monotonic()) if FULL else 0)
        found = clients[0].stats()
        same(found["lines"]["core"].get("busy"), None)
        descriptors = len(os.listdir(f"/proc/{front.run.pid}/fd"))
        assert descriptors < 20, descriptors
        front.clients = clients
        same(front.end()[0], 0)
    print(f"mlsd: {asked} lines in {seconds} s of a night, {most} KiB", flush=True)
    assert most < MEMORY or not IS_PROVED, most
    same(samples()["mlsd_journal_entries"], found_entries())


def memory_of(pid):
    with open(f"/proc/{pid}/status", encoding="ascii") as file:
        return next(int(line.split()[1]) for line in file if line.startswith("VmHWM:"))


def found_entries():
    """How many entries all files of the journal have."""
    names = [name for name in os.listdir(".") if re.fullmatch(rf"{JOURNAL}(\.\d{{20}})?", name)]
    return sum(fronts.content(name).count(b"\n") for name in names)


CHECKS = [
    metrics_are_what_was_asked,
    metrics_are_written_anew,
    probes,
    a_core_that_stands_still,
    a_service_manager_that_reads_nothing,
    a_core_that_does_not_end,
    a_night,
]
AS_ROOT = [who_may_probe, stats_for_a_group]
WITH_PROMTOOL = [promtool_reads_the_metrics, promtool_tries_the_alerts]
