"""What must be so afterwards, by other code than the replicas': equal journals, marks of all of them, the log fed to a
fresh service, each answer, and the order in real time."""
import json
import base64
import os
import subprocess

from machine import MLS


def log_of(cluster, head):
    """The batches of the log, read by etcdctl."""
    found, watch = [], cluster.watched("--rev=1", "-w", "json", "mls/log")
    try:
        while len(found) < head:
            for event in json.loads(watch.stdout.readline()).get("Events", []):
                pair = event["kv"]
                assert pair["version"] == len(found) + 1, f"batch {pair['version']} after {len(found)}"
                found.append(base64.b64decode(pair["value"]).decode())
    finally:
        watch.kill()
        watch.communicate()
    return found


def asked_once(batches):
    """The requests of the log, each the first time that it stands there and is due: `(session, seq, line)`."""
    sessions, last, found = {}, {}, []
    for record in "".join(batches).splitlines():
        if record.startswith("+ "):
            last.setdefault(sessions.setdefault(record, len(sessions) + 1), 0)
            continue
        session, seq, line = record.split(" ", 2)
        if last.get(int(session)) == int(seq) - 1:
            last[int(session)] += 1
            found.append((int(session), int(seq), line))
    return found


def served(journal, start, lines):
    """The answers of a fresh service, without the sessions. (A request that stands in the log without a line is one
    that a replica answers by itself.)"""
    asked = [(session, line) for session, line in lines if line]
    answers = iter(served_lines(journal, start, asked))
    return [next(answers) if line else "bad form" for _, line in lines]


def served_lines(journal, start, lines):
    words = [MLS, "serve", "--sessions", "--numbers", "--journal", journal, start]
    text = "".join(f"{session} {line}\n" for session, line in lines)
    done = subprocess.run(words, input=text, capture_output=True, text=True, check=True)
    first, *answers = done.stdout.splitlines()
    assert first == "ready 0" and len(answers) == len(lines), done.stdout[-300:]
    return [answer.partition(" ")[2] for answer in answers]


def has_entry(answer):
    return answer[-1:].isdigit()


def same_journals(cluster):
    """The journal of all machines."""
    journals = [it.entries() for it in cluster.machines]
    for it, journal in zip(cluster.machines[1:], journals[1:]):
        assert journal == journals[0], f"the journals of m1 and {it.name} differ"
    return journals[0]


def replays(machine, journal):
    done = subprocess.run([MLS, "replay", machine.start, machine.journal], capture_output=True, text=True, check=False)
    count = journal.count(b"\n")
    assert done.stdout.startswith(f"entries {count}\nsecure yes"), done.stdout + done.stderr


def verified(machine, *words):
    """What `mls verify` says of a machine's journal and marks: its lines, by their first word."""
    words = [MLS, "verify", *words, machine.start, machine.journal, f"{machine.journal}.marks"]
    done = subprocess.run(words, capture_output=True, text=True, check=False)
    assert done.returncode == 0, f"{machine.name}: {done.stdout}{done.stderr}"
    return dict(line.split(" ", 1) for line in done.stdout.splitlines())


def verify(machine, journal):
    """Each of its entries has a mark."""
    found = verified(machine)
    assert found["entries"] == str(journal.count(b"\n")) and "unmarked" not in found, f"{machine.name}: {found}"


def check_questions(start, folder, requests, answers, questions):
    """Each question was answered as the state is after the entries before its number."""
    after = {}
    for deed in questions:
        after.setdefault(int(deed.answer.rpartition(" ")[2]), []).append(deed)
    lines, wanted, count = [], [], 0

    def ask_those(count):
        for deed in after.pop(count, ()):
            lines.append((deed.session, f"? {deed.line}"))
            wanted.append((deed, f"? {deed.answer.rpartition(' ')[0]}"))

    ask_those(0)
    for (session, _, line), answer in zip(requests, answers):
        lines.append((session, line))
        wanted.append((None, answer))
        if has_entry(answer):
            count += 1
            ask_those(count)
    assert not after, f"a question was answered by more entries than there are: {after}"
    name = f"{folder}/questioned"
    for found, (deed, answer) in zip(served(name, start, lines), wanted):
        assert found == answer, f"{deed}: it is {found} by the log"
    os.remove(name)


def check_order(deeds):
    """No deed is ordered before one that had ended when it began. (Of a question answered by one machine's state none
    that had ended two seconds before, and a half for what the clocks and the processors do.)"""
    ends = sorted((deed.ended, place_of(deed)) for deed in deeds if not deed.about)
    begins = sorted((deed.began - (2.5 if deed.about else 0), place_of(deed), deed) for deed in deeds)
    latest, at = -1, 0
    for began, place, deed in begins:
        while at < len(ends) and ends[at][0] < began:
            latest, at = max(latest, ends[at][1]), at + 1
        assert place >= latest, f"{deed} is at place {place}, after one at place {latest} had ended"


def place_of(deed):
    """Where it stands: an entry behind the questions that had as many entries before them."""
    number = int(deed.answer.rpartition(" ")[2])
    return 2 * number if deed.seq is None else 2 * number + 1


def check(cluster, deeds):
    """All of it, once the machines are at one place. Returns how many requests and entries there were."""
    head = cluster.rests()["batch"]
    batches = log_of(cluster, head)
    journal = same_journals(cluster)
    for it in cluster.machines:
        replays(it, journal)
        verify(it, journal)
    requests = asked_once(batches)
    name = f"{cluster.folder}/fresh"
    answers = served(name, cluster.start, [(session, line) for session, _, line in requests])
    with open(name, "rb") as file:
        assert file.read() == journal, "the log makes another journal than the machines have"
    os.remove(name)
    known = {(session, seq): (line, answer) for (session, seq, line), answer in zip(requests, answers)}
    for deed in deeds:
        if deed.seq is not None:
            wanted = known.get((deed.session, deed.seq))
            assert wanted == (deed.line, deed.answer), f"{deed}: by the log it is {wanted}"
    questions = [deed for deed in deeds if deed.seq is None]
    check_questions(cluster.start, cluster.folder, requests, answers, questions)
    check_order([deed for deed in deeds if has_entry(deed.answer)])
    return len(requests), journal.count(b"\n")
