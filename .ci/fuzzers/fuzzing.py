"""What the fuzzers share: a reader gets many inputs in a process of its own, which has limits of time and memory."""
import collections
import json
import mmap
import os
import random
import resource
import signal
import struct
import time

from outside import IS_PROVED, SECONDS

# The least share of the inputs that must be accepted.
SHARE = 0.1
# How many failures end a reader's inputs.
MOST_FAILURES = 3
# What the parent process knows of the input that is being judged: its number, its length and its bytes.
RECORD = 1 << 25
HEAD = struct.Struct("<QQ")
# The memory of a program that is run. A trial reserves far more than it uses, for its checks.
ROOM = 1 << 30 if IS_PROVED else resource.RLIM_INFINITY


class Fuzzer:
    """A reader that is fuzzed: its name, how many inputs it gets, the outcomes each of which some input must have, and
    how many bytes of memory its process may take beside what it has before its first input, which is also the limit of
    each program that it runs."""

    name, count, wanted, room = "", 0, frozenset(), ROOM

    def prepare(self):
        """Makes what all inputs need, in the process and in the folder in which they are judged."""

    def made(self, rng):
        """An input."""
        raise NotImplementedError

    def kept(self, made):
        """The bytes of an input, as a file has them."""
        return made

    def judged(self, made):
        """Gives an input to the reader. Returns whether it is accepted, and its outcomes. An AssertionError says what
        is wrong."""
        raise NotImplementedError


def taken():
    """The bytes of address space that this process has."""
    with open("/proc/self/statm", encoding="ascii") as file:
        return int(file.read().split()[0]) * mmap.PAGESIZE


def judge(fuzzer, number, seed, record, report):
    """Makes and judges the input of a number, which is the same whatever comes before it. The record has it meanwhile.
    """
    made = fuzzer.made(random.Random(f"{fuzzer.name} {seed} {number}"))
    kept = fuzzer.kept(made)[:RECORD - HEAD.size]
    record[:HEAD.size + len(kept)] = HEAD.pack(number, len(kept)) + kept
    try:
        is_accepted, outcomes = fuzzer.judged(made)
        report["accepted"] += is_accepted
        report["outcomes"].update(outcomes)
    except Exception as error:
        # (where a judge doesn't expect an answer at all, that is no AssertionError, and it is wrong all the same)
        report["failures"].append(f"input {number}, {keep(fuzzer, record)}: {error!r}")


def keep(fuzzer, record):
    """Puts the record's input into a file, and returns the file's name."""
    number, length = HEAD.unpack(record[:HEAD.size])
    name = os.path.abspath(f"input-{number}")
    with open(name, "wb") as file:
        file.write(record[HEAD.size:HEAD.size + length])
    return name


def judge_all(fuzzer, seed, count, record, report):
    """Makes and judges so many inputs, each within its time."""
    fuzzer.prepare()
    if fuzzer.room != resource.RLIM_INFINITY:
        resource.setrlimit(resource.RLIMIT_AS, 2 * [taken() + fuzzer.room])
    resource.setrlimit(resource.RLIMIT_CORE, (0, 0))
    for number in range(count):
        signal.alarm(SECONDS)
        judge(fuzzer, number, seed, record, report)
        report["count"] += 1
        if len(report["failures"]) >= MOST_FAILURES:
            break


def work(fuzzer, seed, count, record, writer):
    """Judges a reader's inputs in this process, and writes the report."""
    report = {"count": 0, "accepted": 0, "failures": [], "outcomes": collections.Counter()}
    try:
        judge_all(fuzzer, seed, count, record, report)
    except Exception as error:
        report["failures"].append(f"the fuzzer itself failed after {report['count']} inputs: {error!r}")
    with open(writer, "w", encoding="utf-8") as file:
        json.dump(report, file)


def report_of(fuzzer, seed, count):
    """Judges a reader's inputs in a process of its own, and returns its report. Where that process is ended by a
    signal, for its time or for what it did, the input of the record is the one that failed."""
    record = mmap.mmap(-1, RECORD)
    reader, writer = os.pipe()
    child = os.fork()
    if child == 0:
        try:
            work(fuzzer, seed, count, record, writer)
        finally:
            os._exit(0)
    os.close(writer)
    with open(reader, encoding="utf-8") as file:
        said = file.read()
    ended = os.waitstatus_to_exitcode(os.waitpid(child, 0)[1])
    if said and ended == 0:
        return json.loads(said)
    number = HEAD.unpack(record[:HEAD.size])[0]
    failure = f"input {number}, {keep(fuzzer, record)}: the process ended with {ended}"
    return {"count": number, "accepted": 0, "outcomes": {}, "failures": [failure]}


def faults_of(fuzzer, report):
    """What is wrong with a report: inputs that failed, else too few that were accepted, and outcomes that are missing.
    """
    if report["failures"]:
        return report["failures"]
    few = f"only {report['accepted']} of {report['count']} inputs were accepted"
    return ([few] if report["accepted"] < SHARE * report["count"] else []) + [
        f"no input came to: {outcome}" for outcome in sorted(fuzzer.wanted - report["outcomes"].keys())]


def fuzz(fuzzer, seed, count, folder):
    """Fuzzes a reader in a folder of its own, prints what its inputs came to, and returns whether all is well."""
    begun = time.monotonic()
    os.mkdir(f"{folder}/{fuzzer.name}")
    os.chdir(f"{folder}/{fuzzer.name}")
    report = report_of(fuzzer, seed, count)
    os.chdir("/")
    faults = faults_of(fuzzer, report)
    counts = ", ".join(f"{outcome} {number}" for outcome, number in sorted(report["outcomes"].items()))
    print(f"fuzz: {fuzzer.name}: {report['count']} inputs, {report['accepted']} accepted, "
          f"{time.monotonic() - begun:.0f} s: {'FAILED' if faults else 'ok'}; {counts}", flush=True)
    for fault in faults:
        print(f"fuzz: {fuzzer.name}: FAILED: seed {seed}: {fault}", flush=True)
    return not faults
