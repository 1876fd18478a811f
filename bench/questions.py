"""What bench/questions.sh prints: the program, a start file, a folder with the start files `large`, `largest`, `faulty` and `otherwise`,
and the entries of a journal are its words."""
import json
import os
import random
import subprocess
import sys

PROGRAM, STANDARD, FOLDER, ENTRIES = sys.argv[1:4] + [int(sys.argv[4])]
RUNS = int(os.environ.get("QUESTIONS_RUNS", "3"))
SCRIPT_BYTES = 1_048_576
# Gets, releases, denials, and labels that go up and down: each has an entry.
STANDARD_LINES = ["ann get-read plans", "ann release read plans", "bob get-read memo", "bob get-execute tool", "sec get-write root",
                  "ann get-write plans", "ann release write plans", "bob level C", "bob level U"]


def path(name):
    return os.path.join(FOLDER, name)


def large_lines():
    """Requests over the large start: gets and releases by chance, half of them of what its cells permit."""
    rnd = random.Random(3)
    with open(path("large"), encoding="ascii") as start:
        cells = [(cell["subject"], cell["object"], cell["modes"][0]) for cell in json.load(start)["matrix"]]
    modes = ("read", "append", "write", "execute")
    for _ in range(1_000):
        other = f"s{rnd.randrange(256)}", f"o{rnd.randrange(4_096)}", rnd.choice(modes)
        for subject, thing, mode in (rnd.choice(cells), other):
            yield from (f"{subject} get-{mode} {thing}", f"{subject} release {mode} {thing}")


def journal_of(start, lines, name, seed):
    """Has the program make a journal of so many entries, from scripts that fit."""
    rnd, left, names = random.Random(seed), ENTRIES, []
    widest = max(map(len, lines)) + 1
    while left:
        drawn = rnd.choices(lines, k=min(left, SCRIPT_BYTES // widest))
        left -= len(drawn)
        names.append(path(f"script{len(names)}"))
        with open(names[-1], "w", encoding="ascii") as script:
            script.write("".join(f"{it}\n" for it in drawn))
    assert len(names) <= 64, f"{len(names)} scripts"
    words = [PROGRAM, "run", "--serial", "--journal", path(name), start, *names]
    subprocess.run(words, stdout=subprocess.DEVNULL, check=True)
    return path(name)


def taken(words):
    """The processor seconds and the most kilobytes of a run of the program, and the lines that it prints."""
    with open(path("output"), "wb") as output:
        run = subprocess.Popen([PROGRAM, *words], stdin=subprocess.DEVNULL, stdout=output, stderr=subprocess.PIPE)
        said = run.stderr.read()
        _, status, used = os.wait4(run.pid, 0)
    status = os.waitstatus_to_exitcode(status)
    assert status in (0, 1, 4), f"{words}: status {status}: {said}"
    with open(path("output"), "rb") as output:
        lines = sum(part.count(b"\n") for part in iter(lambda: output.read(1 << 20), b""))
    return used.ru_utime + used.ru_stime, used.ru_maxrss, lines


def measure(title, ways):
    """Prints what each way takes, and how many times the first."""
    found = {name: [] for name in ways}
    for _ in range(RUNS):
        for name, words in ways.items():
            found[name].append(taken(words))
    seconds = {name: min(it[0] for it in runs) for name, runs in found.items()}
    memory = {name: min(it[1] for it in runs) for name, runs in found.items()}
    lines = {name: runs[0][2] for name, runs in found.items()}
    first = next(iter(ways))
    print(f"{title}, the least of {RUNS}:")
    for name in ways:
        print(f"  {name + ':':30} {seconds[name]:.2f} s, {seconds[name] / seconds[first]:.2f} times; "
              f"{memory[name]} KiB, {memory[name] / memory[first]:.2f} times; {lines[name]} lines", flush=True)


def measure_start():
    largest = path("largest")
    measure("a start of 8,388,608 bytes", {
        "check": ["check", largest],
        "lint": ["lint", largest],
        "lint of two faults": ["lint", path("faulty")],
        "who": ["who", largest, "o7"],
        "explain": ["explain", largest, "s20 get-read o7"],
        "lattice": ["lattice", largest],
        "compare with itself": ["compare", largest, largest],
        "state --start": ["state", "--start", largest, os.devnull],
        "who --could": ["who", "--could", "--all", largest, "o7"],
        "could": ["could", "--all", largest, "s20 get-read o7"],
        "flow": ["flow", "--all", largest, "o0"],
        "flow to one place": ["flow", "--all", largest, "o0", "o77"],
    })


def main():
    measure_start()
    journal, middle = journal_of(STANDARD, STANDARD_LINES, "journal", 1), str(ENTRIES // 2)
    over = ["--journal", journal]
    measure(f"the standard start, {ENTRIES} entries", {
        "replay": ["replay", STANDARD, journal],
        "journal": ["journal", STANDARD, journal],
        "journal --summary": ["journal", "--summary", STANDARD, journal],
        "journal --explain": ["journal", "--explain", STANDARD, journal],
        "held": ["held", STANDARD, journal],
        "held --at": ["held", "--at", middle, STANDARD, journal],
        "usage": ["usage", STANDARD, journal],
        "powers": ["powers", *over, STANDARD],
        "who": ["who", *over, STANDARD, "plans"],
        "who --ever": ["who", "--ever", *over, STANDARD, "plans"],
        "about a subject": ["about", *over, STANDARD, "ann"],
        "about an object": ["about", *over, STANDARD, "plans"],
        "state": ["state", STANDARD, journal],
        "state --start": ["state", "--start", STANDARD, journal],
        "compare": ["compare", STANDARD, STANDARD, journal],
        "compare, with other replies": ["compare", STANDARD, path("otherwise"), journal],
        "held --json": ["held", "--json", STANDARD, journal],
        "report": ["report", STANDARD, journal],
    })
    large = path("large")
    journal = journal_of(large, [*large_lines()], "large.journal", 2)
    measure(f"256 subjects, {ENTRIES} entries", {
        "replay": ["replay", large, journal],
        "held": ["held", large, journal],
        "usage": ["usage", large, journal],
        "who --ever": ["who", "--ever", "--journal", journal, large, "o7"],
    })


if __name__ == "__main__":
    main()
