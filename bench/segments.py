"""What bench/segments.sh prints: the program, a start file and a folder are its words."""
import glob
import os
import random
import resource
import subprocess
import sys
import time

PROGRAM, START, FOLDER = sys.argv[1:]
REQUESTS = int(os.environ.get("SEGMENTS_REQUESTS", "1000000"))
RUNS = int(os.environ.get("SEGMENTS_RUNS", "3"))
BYTES = "1048576"
# More entries than this need more bytes than one file of a journal may have.
MOST_IN_ONE_FILE = 3_000_000
# How many lines are made at once.
PIECE = 10_000
# Gets, releases and denials: each has an entry, and no answer depends on what was asked before.
LINES = [b"ann get-read plans\n", b"ann release read plans\n", b"bob get-read memo\n", b"bob get-execute tool\n", b"sec get-write root\n"]


def path(name):
    return os.path.join(FOLDER, name)


def remove(name):
    for found in [path(name), *glob.glob(path(f"{name}.*"))]:
        if os.path.exists(found):
            os.remove(found)


def run(words, source=os.devnull):
    """The processor seconds of a run of the program, its seconds by the clock, and the most memory that it had, in KiB."""
    begun = time.monotonic()
    with open(source, "rb") as asked:
        process = subprocess.Popen([PROGRAM, *words], stdin=asked, stdout=subprocess.DEVNULL)
        _, status, used = os.wait4(process.pid, 0)
    assert status == 0, status
    return used.ru_utime + used.ru_stime, time.monotonic() - begun, used.ru_maxrss


def first_answer(words):
    """The seconds until a service that starts has answered a line."""
    begun = time.monotonic()
    pipes = dict.fromkeys(("stdin", "stdout"), subprocess.PIPE)
    with subprocess.Popen([PROGRAM, *words], **pipes) as process:
        process.stdin.write(b"ann check read plans\n")
        process.stdin.flush()
        process.stdout.readline()
        process.stdout.readline()
        seconds = time.monotonic() - begun
        process.stdin.close()
    return seconds


def slowest(question, count=5):
    """The most seconds by the clock, and the most memory, of a question about entries by chance of the journal in segments."""
    found = []
    for number in random.Random(2).choices(range(REQUESTS), k=count):
        found.append(run([question, "--at", str(number), *question_words(question)])[1:])
    return max(seconds for seconds, _ in found), max(memory for _, memory in found)


def question_words(question):
    """The words of a question behind the number of an entry."""
    return [START, path("cut")] if question == "state" else ["--journal", path("cut"), START]


def put_lines(name, count):
    """Writes so many lines by chance, the same each time. (They are few at once: a program that is started counts this one's memory as its
    own at first.)"""
    chance = random.Random(1)
    with open(path(name), "wb") as file:
        for _ in range(count // PIECE):
            file.write(b"".join(chance.choices(LINES, k=PIECE)))


def main():
    few = min(REQUESTS, MOST_IN_ONE_FILE)
    put_lines("lines", REQUESTS)
    put_lines("few", few)
    plain = ["serve", "--journal", path("plain"), START]
    cut = ["serve", "--segment", BYTES, "--journal", path("cut"), START]
    times = {"without": [], "with": []}
    most = 0
    for _ in range(RUNS):
        remove("plain")
        times["without"].append(run(plain, path("few"))[0])
        remove("cut")
        seconds, _, memory = run(cut, path("lines"))
        times["with"].append(seconds)
        most = max(most, memory)
    without, within = min(times["without"]) / few, min(times["with"]) / REQUESTS
    print(f"{REQUESTS} requests, {len(glob.glob(path('cut.0*')))} closed segments; the least of {RUNS} runs:")
    print(f"  a line: {without * 1e9:.0f} ns over {few} without --segment, with it {within * 1e9:.0f} ns, {within / without:.3f}")
    print(f"  the most memory: {most} KiB")
    print(f"  the first answer of a start: {min(first_answer(cut) for _ in range(RUNS)) * 1000:.0f} ms")
    replay = min(run(["replay", START, path("plain")])[0] for _ in range(RUNS)) / few
    whole = min(run([*cut[:3], "--from-start", *cut[3:]])[0] for _ in range(RUNS)) / REQUESTS
    print(f"  an entry: mls replay of one file {replay * 1e9:.0f} ns, --from-start {whole * 1e9:.0f} ns, {whole / replay:.2f}")
    for question in ("state", "explain") if REQUESTS <= MOST_IN_ONE_FILE else ():
        seconds, memory = slowest(question)
        print(f"  {question} --at, the slowest of some: {seconds * 1000:.0f} ms, {memory} KiB")


main()
