"""What bench/marks.sh prints: the program, a start file, a folder, and perhaps another program are its words."""
import os
import random
import resource
import subprocess
import sys

PROGRAM, START, FOLDER, BEFORE = sys.argv[1:]
RUNS = int(os.environ.get("MARKS_RUNS", "7"))
# Requests of a service, and entries of a run.
REQUESTS, ENTRIES = 800_000, 3_000_000
SCRIPT_BYTES = 1_048_576
# Gets, releases and denials: each has an entry, and no answer depends on what was asked before.
LINES = [b"ann get-read plans\n", b"ann release read plans\n", b"bob get-read memo\n", b"bob get-execute tool\n", b"sec get-write root\n"]


def path(name):
    return os.path.join(FOLDER, name)


def processor_time(program, words, source):
    """The processor seconds of a run of a program; its files are made anew."""
    for name in ("journal", "marks"):
        if os.path.exists(path(name)):
            os.remove(path(name))
    before = resource.getrusage(resource.RUSAGE_CHILDREN)
    with open(source, "rb") as asked:
        subprocess.run([program, *words], stdin=asked, stdout=subprocess.DEVNULL, check=True)
    after = resource.getrusage(resource.RUSAGE_CHILDREN)
    return after.ru_utime + after.ru_stime - before.ru_utime - before.ru_stime


def least(ways):
    """The least processor seconds of each way, of some rounds in which each comes once."""
    found = {name: [] for name in ways}
    for _ in range(RUNS):
        for name, way in ways.items():
            found[name].append(processor_time(*way))
    return {name: min(times) for name, times in found.items()}


def measure_services():
    drawn = random.Random(1).choices(LINES, k=REQUESTS)
    for name, lines in (("plain", drawn), ("sessions", [b"7 " + line for line in drawn])):
        with open(path(name), "wb") as file:
            file.write(b"".join(lines))
    words = ["serve", "--journal", path("journal")]
    marks = ["--marks", path("marks")]
    ways = {
        "serve": (PROGRAM, [*words, START], path("plain")),
        "serve --marks": (PROGRAM, [*words, *marks, START], path("plain")),
        "serve --sessions": (PROGRAM, [*words, "--sessions", START], path("sessions")),
        "serve --sessions --marks": (PROGRAM, [*words, *marks, "--sessions", START], path("sessions")),
    }
    if BEFORE:
        ways["serve, before"] = (BEFORE, [*words, START], path("plain"))
    times = least(ways)
    processor_time(*ways["serve --marks"])
    size, batches = os.path.getsize(path("journal")), sum(1 for _ in open(path("marks"), "rb"))
    print(f"processor time a line, of {REQUESTS} requests, {batches} marks and a journal of {size} bytes, the least of {RUNS}:")
    for name, seconds in times.items():
        print(f"  {name + ':':25} {seconds / REQUESTS * 1e9:4.0f} ns, {seconds / times['serve']:.3f} of serve")
    print(f"  marks, a byte of the journal: {(times['serve --marks'] - times['serve']) / size * 1e9:.1f} ns")


def measure_runs():
    names, left, rnd = [], ENTRIES, random.Random(2)
    while left:
        text = b"".join(rnd.choices(LINES, k=min(left, SCRIPT_BYTES // 22)))
        left -= text.count(b"\n")
        names.append(path(f"script{len(names)}"))
        with open(names[-1], "wb") as script:
            script.write(text)
    assert len(names) <= 64
    with_journal = ["run", "--serial", "--journal", path("journal"), START, *names]
    ways = {"run": (PROGRAM, ["run", "--serial", START, *names], os.devnull), "run --journal": (PROGRAM, with_journal, os.devnull)}
    if BEFORE:
        ways["run --journal, before"] = (BEFORE, with_journal, os.devnull)
    times = least(ways)
    print(f"processor time of mls run --serial, {ENTRIES} entries, the least of {RUNS}:")
    for name, seconds in times.items():
        print(f"  {name + ':':25} {seconds:.3f} s, {seconds / times['run']:.3f} of run, {seconds / times['run --journal']:.3f} of run --journal")


def main():
    measure_services()
    measure_runs()


if __name__ == "__main__":
    main()
