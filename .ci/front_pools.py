"""Pools of subjects, users that are read anew, quotas, and what root is told."""
import json
import os
import signal
import time

import fronts
from fronts import ALL, ANN, BOB, JOURNAL, OTHER, USERS, Front, comes, core, entries, fresh, held, levels, refused, told
from mls import Ended
from outside import example, put, same, shown

POOL = ["app-1", "app-2", "app-3"]
START = "pools.json"
RULES = b"pool app = app-1 app-2 app-3\n0 = * rate=0 clients=0\n%d = app rate=0\n" % ANN


def start(**changed):
    """A start with three subjects that are alike, numbers 4 to 6, and what is changed of it; returns its name."""
    made = json.loads(example("standard.json"))
    alike = {"maximum": "S:A", "current": "U", "integrity": "hi", "trusted": False}
    made["subjects"] += [{"name": name, **alike, **changed.get(name, {})} for name in POOL]
    made["objects"].append({"name": "notes", "parent": "root", "security": "U", "integrity": "hi"})
    for name in POOL:
        made["matrix"].append({"subject": name, "object": "plans", "modes": ["read"]})
        made["matrix"].append({"subject": name, "object": "notes", "modes": ["read", "write"]})
    for part in ("matrix", "accesses"):
        made.setdefault(part, []).extend(changed.get(part, []))
    put(START, json.dumps(made).encode())
    return START


def pooled(*flags, users=RULES, **how):
    return Front(*flags, users=users, words=core(start=START), **how)


def of_pool(what):
    return {name: what[name] for name in POOL}


def each_connection_has_a_subject_of_its_own():
    """The first line that asks as a pool leases a subject: its level and accesses are its own, and no line names it."""
    fresh()
    start()
    with pooled() as front:
        one, two = front.client(), front.client()
        same([one.ask("app level S:A"), one.ask("app get-read plans")], ["yes", "yes"])
        same([two.ask("? app get-read plans"), two.ask("app get-write notes")], ["? no star", "yes"])
        same([one.ask("app check read plans"), two.ask("app check read plans")], ["held", "not held"])
        same([one.ask("app get-write notes"), two.ask("app level S:A")], ["no star", "no star"])
        for line in ("app-1 level U", "#4 level U", "#5 level U", "apP level U"):
            same((line, one.ask(line), two.ask(line)), (line, "not yours", "not yours"))
        same([one.ask("? sec give read app notes"), one.ask("sec get-read app")], ["? no authority", "bad name"])
        same(front.client().ask("app check read plans"), "not held")
        four = front.client()
        same([four.ask("app check read plans"), four.ask("? app check read plans")], ["busy", "? busy"])
        one.close()
        comes(lambda: four.ask("app check read plans"), "not held")
        same(four.ask("? app get-read plans"), "? no star")
        comes(lambda: [it for it in told() if it[1] == "returned"][3:], [(1, "returned", "app-1")])
        same(front.end(), (0, b""))
    asked = ["4 level 2:0 yes", "4 get-read 1 yes", "5 get-write 4 yes", "4 get-write 4 no star", "5 level 2:0 no star"]
    back = ["4 release read 1 yes", "4 level 0 yes"]
    found = entries()
    same(found[3:10], asked + back)
    leased = [(1, "app app-1"), (2, "app app-2"), (3, "app app-3"), (4, "app app-1")]
    same([it[::2] for it in told() if it[1] == "leased"], leased)
    same((held(start=START), set(of_pool(levels(start=START)).values())), ([], {"U"}))


def subjects_of_dead_connections():
    """At a start each subject of a pool is set back, whoever held it, also where the front and its core were killed."""
    fresh()
    start()
    with pooled() as front:
        for mode in ("read", "write"):
            client = front.client()
            same([client.ask(f"app get-{mode} notes"), client.ask("app level U")], ["yes", "yes"])
        same(front.client().ask("app level S:A"), "yes")
        front.end(signal.SIGKILL)
    same(held(start=START), ["app-1 read notes", "app-2 write notes"])
    count = len(entries())
    comes(lambda: fronts.outside.ran_program(["serve", "--journal", JOURNAL, START])[0], 0)
    with pooled() as front:
        same((held(start=START), set(of_pool(levels(start=START)).values())), ([], {"U"}))
        same(front.client().ask("app get-write notes"), "yes")
        same(fronts.sessions_of_entries()[count:-1], [0] * 5)
    wanted = ["4 level 0 yes", "4 release read 4 yes", "5 level 0 yes", "5 release write 4 yes", "6 level 0 yes"]
    same(sorted(entries()[count : count + 5]), wanted)


def what_is_gone_is_held_by_nobody():
    """A subject goes back though what it held was deleted; rights given later reach one subject and outlive its
    lease."""
    fresh()
    start()
    with pooled() as front:
        sec, one = front.client(), front.client()
        same([sec.ask("sec get-write root"), sec.ask("sec create root U hi")], ["yes", "created 5"])
        same([one.ask("app check read notes"), sec.ask("sec give write app-1 #5")], ["not held", "yes"])
        same(one.ask("app get-write #5"), "yes")
        same(sec.ask("sec delete #5"), "yes")
        one.close()
        comes(lambda: [it for it in told() if it[1] == "returned"][3:], [(2, "returned", "app-1")])
        same(sec.ask("sec create root U hi"), "created 6")
        same(sec.ask("sec give read app-1 #6"), "yes")
        found = [front.client().ask("app get-read #6") for _ in POOL]
        same(found, ["yes", "no discretionary", "no discretionary"])
        same(sec.ask("sec rescind read app-1 #6"), "yes")
    same(held(start=START), ["sec write root"])


def pools_that_are_refused():
    """A client isn't to know which subject it has: they are alike in START, and nobody else's."""
    fresh()
    rows = [
        ({"app-2": {"maximum": "S"}}, "different labels"),
        ({"app-3": {"current": "S:A"}}, "different labels"),
        ({"app-1": {"integrity": "lo"}}, "different labels"),
        ({"app-2": {"trusted": True}}, "trusted subjects and others"),
        ({"matrix": [{"subject": "app-3", "object": "tool", "modes": ["execute"]}]}, "different permissions"),
        ({"accesses": [{"subject": "app-2", "object": "notes", "modes": ["read"]}]}, "accesses in the start"),
    ]
    for changed, wanted in rows:
        start(**changed)
        status, line = refused(users=RULES, words=core(start=START))
        is_told = line[0].startswith("mlsd: users: pool app has ") and wanted in line[0]
        assert status == 1 and is_told, (changed, status, line)
    start()
    rows = [
        (b"0 = app-1\n", "line 2: app-1 is one of a pool's"),
        (b"pool ann = bob\n", "line 2: ann is a subject's name, or another pool's"),
        (b"pool app = bob\n", "line 2: app is a subject's name, or another pool's"),
        (b"pool web = app-1\n", "line 2: app-1 is in a pool already"),
        (b"pool web =\n", "line 2: bad form"),
        (b"pool web = eve\n", "line 2: no subject is called eve"),
    ]
    for more, wanted in rows:
        found = refused(users=b"pool app = app-1 app-2 app-3\n" + more, words=core(start=START))
        same((more, found), (more, (1, [f"mlsd: users: users: {wanted}"])))


def what_dead_clients_held():
    """With --release-on-close nothing is held that no live client got: at its start the front releases the rest, but
    for what START opens with; without it a connection's end changes nothing."""
    fresh()
    reads = [{"subject": "aud", "object": "notes", "modes": ["read"]}]
    start(matrix=reads, accesses=reads)
    words, of_start = core(start=START), ["aud read notes"]
    with Front("--release-on-close", words=words) as front:
        one, two = front.client(), front.client()
        same([it.ask("ann get-read plans") for it in (one, two)], ["yes", "yes"])
        asked = ["aud get-read notes", "ann release read plans", "ann check read plans"]
        same(one.ask_all(asked), ["yes", "yes", "held"])
        one.close()
        same(two.ask("sec get-write root"), "yes")
        same(front.end(signal.SIGKILL)[0], -signal.SIGKILL)
    same(entries().count("0 release read 1 yes"), 0)
    same(held(start=START), ["ann read plans", *of_start, "sec write root"])
    comes(lambda: fronts.outside.ran_program(["serve", "--journal", JOURNAL, START])[0], 0)
    with Front("--release-on-close", words=words) as front:
        same(held(start=START), of_start)
        with front.client() as client:
            same(client.ask("ann get-read plans"), "yes")
        comes(lambda: held(start=START), of_start)
        same(front.end(), (0, b""))
    with Front(words=words) as front:
        with front.client() as client:
            same(client.ask("ann get-read plans"), "yes")
        comes(lambda: told()[-1][1], "closed")
        same(front.end(), (0, b""))
    same(held(start=START), ["ann read plans", *of_start])


def releases_wait_for_company():
    """With --linger what is only released goes with the next line, or after its time."""
    fresh()
    with Front("--release-on-close", "--linger", "10000") as front:
        client, begun = front.client(), time.monotonic()
        client._send(b"ann get-read plans\nann release read plans\nann get-read plans\n")
        same([client._line() for _ in range(3)], ["yes"] * 3)
        assert time.monotonic() - begun < 9.5, "a line waited"
        client._send(b"ann release read plans\n")
        same(client._line(), "yes")
        assert time.monotonic() - begun > 9.9, "the release did not wait"


def read_users_anew(front, users):
    """Writes the users file, has it read anew, and waits until it was."""
    put(USERS, users)
    front.run.send_signal(signal.SIGHUP)
    assert front.notices.has("RELOADING=1", lambda: True) and front.notices.has("READY=1", lambda: True)


def users_are_read_anew():
    """SIGHUP: who may ask is let in, who may not is closed and what it held released; a file that is refused changes
    nothing."""
    fresh()
    with Front("--release-on-close", users=b"%d = ann\n%d = bob\n" % (ANN, BOB)) as front:
        ann, bob = front.client(ANN), front.client(BOB)
        same([ann.ask("ann get-read plans"), bob.ask("bob get-execute tool")], ["yes", "yes"])
        for users in (b"%d = nobody\n" % BOB, b"pool app = ann\n"):
            read_users_anew(front, users)
            same([ann.ask("ann check read plans"), bob.ask("bob check execute tool")], ["held", "held"])
        read_users_anew(front, b"%d = bob aud\n%d = ann\n" % (BOB, OTHER))
        try:
            ann.ask("ann check read plans")
            assert False, "it was answered"
        except Ended:
            pass
        same([bob.ask("aud check read plans"), front.client(OTHER).ask("ann check read plans")], ["not held"] * 2)
        same(fronts.rest_of(fronts.connected_as(ANN, ANN)), b"not known\n")
        read_users_anew(front, b"%d = aud\n" % BOB)
        try:
            bob.ask("aud check read plans")
            assert False, "it may ask as fewer, and was answered"
        except Ended:
            pass
        comes(lambda: held(), [])
        status, line = front.end()
    same((status, line.count(b"the users are as they were")), (0, 2))
    same([it[1] for it in told() if it[1] in ("refused", "reloaded")], ["refused", "refused", "reloaded", "reloaded"])


def quotas_of_a_day():
    """`busy` beyond the entries, notes and connections of a day of a user; what has no entry is not counted, and nobody
    else is."""
    fresh()
    with Front("--release-on-close", users=b"%d = ann rate=0 day=8\n%d = bob rate=0\n" % (ANN, BOB)) as front:
        one, two, bob = front.client(ANN), front.client(ANN), front.client(BOB)
        free = ["ann check read plans", "ann frob", "ann get-read none", "? ann get-read plans", "ann level Q"]
        free.append("bob level U")
        wanted = ["not held", "bad form", "bad name", "? yes", "bad label", "not yours"]
        same(one.ask_all(free * 5), wanted * 5)
        same([it.ask("ann get-read plans") for it in (one, two)], ["yes", "yes"])
        # (mlsd answers itself, since the other holds it too)
        same([one.ask("ann release read plans"), one.ask("ann get-append plans")], ["yes", "no discretionary"])
        one.note("is on the disk too")
        same(one.ask_all(["ann get-read memo"] * 64), ["no integrity"] * 2 + ["busy"] * 62)
        one.note("isn't")
        found = [two.ask(line) for line in ("ann release read plans", *free)]
        same(found, ["busy", "held", "busy", "busy", "? yes", "busy", "not yours"])
        same(bob.ask_all(["bob get-execute tool"] * 9), ["yes"] * 9)
        two.close()
        one.close()
        comes(lambda: held(), ["bob execute tool"])
    same([more for _, what, more in told() if what == "note"], ["is on the disk too"])
    same(len([it for it in entries() if it.startswith("0 ")]), 6)


def what_root_is_told():
    """`stats` is one line of JSON, whose numbers are those of what was asked."""
    fresh()
    start()
    with pooled() as front:
        client = front.client()
        asked = ["app get-read notes", "ann get-read plans", "bob get-read memo", "ann check read plans"]
        asked += ["zoe level U", "ann frob", "$"]
        client.ask_all(asked)
        client.note("x")
        same(len(asked), 7)
        found = client.stats()
        journal = found["journal_bytes"]
        same(journal, os.path.getsize(JOURNAL))
        same(found["sessions"], {"open": 1, "opened": 1, "refused": {}})
        own = {"not yours": 1, "no variables": 1}
        of_core = {"yes": 5, "no star": 1, "held": 1, "bad form": 1}
        same(found["lines"], {"core": of_core, "own": own, "notes": 1})
        same((found["entries"], found["segments"], found["core"]["pid"]), (6, 1, front.core_pid()))
        same(found["pools"], {"app": {"free": 2, "leased": 1, "returning": 0, "kept": 0}})
        same(found["latency_us"]["count"], 8)
        same(sorted(found["latency_us"]), ["50", "90", "99", "99.9", "count", "most"])
        assert 1 <= found["syncs"]["core"] <= 6 and found["syncs"]["sessions"] >= 2, found
        assert found["core"]["memory_kib"] > 100, found
    names = "core entries journal_bytes journal_limit latency_us lines pools segments"
    names += " sessions sessions_bytes sessions_files syncs"
    same(sorted(found), names.split())


CHECKS = [
    each_connection_has_a_subject_of_its_own,
    subjects_of_dead_connections,
    what_is_gone_is_held_by_nobody,
    pools_that_are_refused,
    what_dead_clients_held,
    releases_wait_for_company,
    what_root_is_told,
]
AS_ROOT = [users_are_read_anew, quotas_of_a_day]
