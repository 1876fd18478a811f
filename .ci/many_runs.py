#!/usr/bin/env python3
"""Runs 64 drawn scripts in threads again and again, and tells whether each run is one of a single monitor, by the policy written in Python:

- the journal has every session's requests, each once and in order, and each entry has the reply that the policy gives there;
- each request was answered by the reply of its entry;
- each check was answered by a state between its session's last entry and its next one, and no earlier than the check before it;
- replay accepts the journal.

    many_runs.py COUNT [SEED]

Prints how many runs came out so, and the first that doesn't, with its seed; the status is then 1. The full check doesn't run it: ten thousand
runs take the better part of an hour.
"""
import json
import os
import random
import subprocess
import sys
import tempfile

sys.dont_write_bytecode = True
import policy
from outside import PROGRAM, SECONDS, put, shown

SCRIPTS, LINES = 64, 120
MODES = policy.MODES


def start_file():
    """A start of nine subjects, so that they need two words an object, and of six objects: everybody may do everything, and half of the
    subjects are trusted."""
    names = [f"s{n}" for n in range(9)]
    objects = [{"name": "root", "parent": None, "security": "U", "integrity": "lo"}]
    objects += [{"name": f"o{n}", "parent": "root", "security": "U", "integrity": "lo"} for n in range(1, 6)]
    return json.dumps({"security": {"levels": ["U", "S"], "categories": ["a"]},
                       "integrity": {"levels": ["lo"], "categories": []},
                       "subjects": [{"name": it, "maximum": "S:a", "current": "U", "integrity": "lo",
                        "trusted": n % 2 == 0} for n, it in enumerate(names)], "objects": objects,
                       "matrix": [{"subject": s, "object": o["name"], "modes": list(MODES)} for s in names
                        for o in objects]})


def drawn_line(draw):
    """A line of a script: most are checks, gets and releases of few triples."""
    who, what, mode = f"#{draw.randrange(10)}", f"#{draw.choice((0, 1, 1, 2, 2, 3, 3, 4, 5, 6))}", draw.choice(MODES)
    other = f"#{draw.randrange(9)}"
    kind = draw.randrange(100)
    if kind < 40:
        return f"{who} check {mode} {what}"
    if kind < 66:
        return f"{who} get-{mode} {what}"
    if kind < 75:
        return f"{who} release {mode} {what}"
    if kind < 80:
        return f"{who} get-write #0"
    if kind < 85:
        return f"{who} {draw.choice(('give', 'rescind'))} {mode} {other} {what}"
    if kind < 90:
        return f"{who} create #0 U lo"
    if kind < 95:
        return f"{who} delete {what}"
    return f"{who} level {draw.choice(('U', 'S', 'S:a'))}" if kind < 98 else f"{who} relabel {what} {draw.choice(('U', 'S'))}"


def asked(state, line):
    """A line's subject and action, by number, as the policy has them."""
    who, word, *operands = line.split()
    kinds = ("mode", "object") if word == "check" else policy.KINDS[word]
    if word.startswith("get-"):
        operands = [word[len("get-"):], *operands]
    read = {"mode": MODES.index, "subject": lambda it: int(it[1:]), "object": lambda it: int(it[1:]), "security": state.security.read,
            "integrity": state.integrity.read}
    return int(who[1:]), (word, *(read[kind](it) for kind, it in zip(kinds, operands)))


def entry(line):
    """An entry of a journal: number, session, subject, action and reply."""
    number, session, subject, word, *rest = line.split()
    kinds = policy.KINDS[word]
    if word.startswith("get-"):
        rest = [word[len("get-"):], *rest]
    read = {"mode": MODES.index, "subject": int, "object": int, "security": policy.number_label, "integrity": policy.number_label}
    action = (word, *(read[kind](it) for kind, it in zip(kinds, rest)))
    return int(number), int(session), int(subject), action, " ".join(rest[len(kinds):])


def states(state, journal):
    """The accesses before the first entry and after each, as sets that share what doesn't change; entries that differ from the policy end it."""
    found = [frozenset(state.accesses)]
    for place, (number, _, subject, action, reply) in enumerate(journal):
        wanted = state.apply(subject, action)
        assert (number, reply) == (place, wanted), f"entry {place} has the reply {reply!r}, and the policy gives {wanted!r}"
        now = frozenset(state.accesses)
        found.append(found[-1] if now == found[-1] else now)
    return found


def answers_fit(session, lines, answers, own, accesses, read):
    """Whether a session's answers are those of the journal: own has its entries by place."""
    assert len(answers) == len(lines), f"session {session} has {len(answers)} answers to {len(lines)} lines"
    seen, next_own = 0, 0
    for line, answer in zip(lines, answers):
        subject, action = read(line)
        if action[0] != "check":
            assert next_own < len(own), f"session {session}: no entry for {line!r}"
            place, made = own[next_own]
            assert made[2:4] == (subject, action), f"session {session}: {line!r} has the entry {made}"
            short = "created" if made[4].startswith("created") else made[4]
            assert answer.startswith(short) and (short == "created" or answer == made[4]), f"session {session}: {line!r} was answered {answer!r}, not {made[4]!r}"
            seen, next_own = place + 1, next_own + 1
            continue
        _, mode, thing = action
        last = own[next_own][0] if next_own < len(own) else len(accesses) - 1
        is_held = {"held": True, "not held": False}[answer]
        place = next((it for it in range(seen, last + 1) if ((subject, thing, mode) in accesses[it]) == is_held), None)
        assert place is not None, f"session {session}: no state from {seen} to {last} answers {line!r} by {answer!r}"
        seen = place
    assert next_own == len(own), f"session {session} has {len(own)} entries and asked {next_own} times"


def one_run(seed, start):
    """Runs drawn scripts, and ends with a fault where it isn't a run of a single monitor."""
    draw = random.Random(seed)
    state = policy.State(start)
    scripts = [[drawn_line(draw) for _ in range(LINES)] for _ in range(SCRIPTS)]
    for number, lines in enumerate(scripts):
        put(f"{number}", "".join(f"{it}\n" for it in lines).encode())
    words = [PROGRAM, "run", "--journal", "j.txt", "start.json", *map(str, range(SCRIPTS))]
    done = subprocess.run(words, capture_output=True, timeout=SECONDS, text=True)
    assert (done.returncode, done.stderr) == (0, ""), f"ended {done.returncode} with {done.stderr!r}"
    with open("j.txt") as file:
        journal = [entry(it) for it in file]
    assert done.stdout.endswith(f"entries {len(journal)}\nsecure yes\n"), shown(done.stdout[-80:])
    parts = done.stdout[: -len(f"entries {len(journal)}\nsecure yes\n")].split("session ")[1:]
    accesses = states(state, journal)
    fresh = policy.State(start)
    for session, (lines, part) in enumerate(zip(scripts, parts, strict=True)):
        number, *answers = part.splitlines()
        assert number == str(session), f"session {number} stands at {session}"
        own = [(place, it) for place, it in enumerate(journal) if it[1] == session]
        answers_fit(session, lines, answers, own, accesses, lambda it: asked(fresh, it))
    replayed = subprocess.run([PROGRAM, "replay", "start.json", "j.txt"], capture_output=True, timeout=SECONDS, text=True)
    assert (replayed.returncode, replayed.stdout) == (0, f"entries {len(journal)}\nsecure yes\n"), f"replay: {replayed}"
    return sum(it.split()[1] == "check" for lines in scripts for it in lines), len(journal), journal


def is_interleaved(journal):
    """Whether sessions stand between one another's entries."""
    changes = sum(one[1] != other[1] for one, other in zip(journal, journal[1:]))
    return changes >= len({it[1] for it in journal})


def main():
    count, seed = int(sys.argv[1]), int(sys.argv[2]) if len(sys.argv) > 2 else 1
    start = start_file()
    checks = entries = mixed = 0
    with tempfile.TemporaryDirectory() as folder:
        os.chdir(folder)
        put("start.json", start.encode())
        for run in range(count):
            try:
                some_checks, some_entries, journal = one_run(seed + run, start)
            except AssertionError as fault:
                print(f"seed {seed + run}: {fault}")
                print(f"{run} runs passed, 1 failed")
                return 1
            checks, entries, mixed = checks + some_checks, entries + some_entries, mixed + is_interleaved(journal)
            if (run + 1) % 100 == 0:
                print(f"{run + 1} runs: {checks} checks, {entries} entries; in {mixed} sessions stand between one another", flush=True)
    print(f"{count} runs passed, 0 failed: {checks} checks, {entries} entries; in {mixed} sessions stand between one another")
    return 0


if __name__ == "__main__":
    sys.exit(main())
