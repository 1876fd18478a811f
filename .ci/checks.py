"""The checks of this repository, in one list. bin/test and .ci/run run them: each is a command that ends with a line
'N passed, M failed', or 'N passed, M failed, K skipped' where a line says of each that was skipped why.

    python3 .ci/checks.py --list [NAME ..]     prints what there is, and runs nothing: of each check its command, what
                                               it does, and its rows; of each crate its tests, by their files
"""
import ast
import collections
import concurrent.futures
import glob
import os
import re
import signal
import subprocess
import sys
import time

sys.dont_write_bytecode = True
sys.path.insert(1, f"{os.path.dirname(os.path.dirname(os.path.realpath(__file__)))}/bin")
from rooms import TOP, draw, listed, minutes, processors

# What a check needs: the files of the repository; a program of the sources; the proved one; or many minutes.
FILES, PROGRAM, PROOF, MINUTES = range(4)
# About how many seconds of a processor it takes, over a trial where that is enough: those that take longest begin.
Check = collections.namedtuple("Check", "name words needs seconds")
CHECKS = [Check("library", (".ci/check-c", ), PROOF, 900), Check("refusals", (".ci/check-refusals", ), MINUTES, 400),
          Check("fuzzers", (".ci/fuzz", "--short"), PROGRAM, 200),
          Check("service", (".ci/check-durable", "lines", "marks"), PROGRAM, 190),
          Check("segments", (".ci/check-durable", "segments"), PROGRAM, 180),
          Check("crashes", (".ci/check-durable", "crashes"), PROGRAM, 170),
          Check("questions", (".ci/check-questions", "rows"), PROGRAM, 160),
          Check("worlds", (".ci/check-questions", "worlds"), PROGRAM, 150),
          Check("rows", (".ci/check-rows", ), PROGRAM, 90), Check("runs", (".ci/check-runs", ), PROGRAM, 80),
          Check("starts", (".ci/check-starts", ), PROGRAM, 60), Check("program", (".ci/check-program", ), PROGRAM, 50),
          Check("scripts", (".ci/check-scripts", ), PROGRAM, 40),
          Check("versions", (".ci/check-versions", ), PROGRAM, 20),
          Check("installation", (".ci/check-install", ), PROGRAM, 30),
          Check("front", (".ci/check-mlsd", "--short"), PROOF, 60),
          Check("database", ("integrations/postgresql/check", ), PROGRAM, 60),
          Check("replicas", ("integrations/etcd/check", "--short"), PROOF, 60),
          Check("guard", ("integrations/guard/check", "--short"), PROGRAM, 40),
          Check("files", ("integrations/files/check", "--short"), PROGRAM, 50),
          Check("tutorial", (".ci/check-tutorial", ), PROGRAM, 20),
          Check("mutants", ("bin/mutants", "--read"), FILES, 1), Check("links", (".ci/check-links", ), FILES, 1),
          Check("quotations", (".ci/check-quotes", ), FILES, 1)]
COUNTS = re.compile(r"(\d+) passed, (\d+) failed(?:, (\d+) skipped)?")
SKIPPED = re.compile(r"^.*: skipped: .*\n", re.M)
FAILED = re.compile(r"^.*(?:: (?:FAILED|failed|NOT BUILT)\b|\bNOT PROVED\b).*$", re.M)
# The lines that say what failed, which are printed once more at the end.
FAULTS = []


class Counts:
    """What checks came to."""

    def __init__(self, passed=0, failed=0, skipped=0):
        self.passed, self.failed, self.skipped = passed, failed, skipped

    def add(self, other):
        self.passed, self.failed = self.passed + other.passed, self.failed + other.failed
        self.skipped += other.skipped

    def __str__(self):
        return f"{self.passed} passed, {self.failed} failed" + (f", {self.skipped} skipped" if self.skipped else "")


def counts_of(said, status):
    """What a command came to. One that ends without its counts, or badly with no failure counted, has one failure."""
    last = said.rstrip("\n").rpartition("\n")[2]
    found = COUNTS.fullmatch(last)
    counts = Counts(*(int(it or 0) for it in found.groups())) if found else Counts(failed=1)
    if status and not counts.failed:
        counts.failed = 1
    return counts


# The commands that run.
RUNNING = set()


def said_by(words, folder):
    """Runs a command in a folder, and returns what it said and its status."""
    streams = {"stdin": subprocess.DEVNULL, "stdout": subprocess.PIPE, "stderr": subprocess.STDOUT}
    run = subprocess.Popen(words, cwd=folder, text=True, errors="replace", **streams)
    RUNNING.add(run)
    said = run.communicate()[0]
    RUNNING.discard(run)
    return said, run.returncode


def ran(check):
    """Runs a check, and returns what it said and came to."""
    said, status = said_by(check.words, TOP)
    return said, counts_of(said, status)


def tell(name, said, counts, is_whole):
    """Prints what a check came to, and before that what it said where that is wanted or something failed, or else what
    it skipped."""
    if counts.failed:
        FAULTS.extend(FAILED.findall(said) or [f"{name}: {said.rstrip()[-300:]}"])
    front, newline, last = said.rstrip("\n").rpartition("\n")
    front = front + newline if COUNTS.fullmatch(last) else said
    print(front if is_whole or counts.failed else "".join(SKIPPED.findall(front)), end="")
    print(f"{name}: {counts}", flush=True)


def tell_faults():
    """Prints once more what failed, so that it stands at the end of a long output."""
    for it in FAULTS:
        print(f"what failed: {it[:600]}")


class Bar:
    """On a terminal, how far the checks are."""

    def __init__(self, checks):
        self.checks, self.begun, self.is_shown = checks, time.monotonic(), sys.stderr.isatty()

    def show(self, waiting):
        """Shows it, with the checks that haven't ended."""
        if self.is_shown:
            seconds = sum(it.seconds for it in self.checks)
            part = 1 - sum(it.seconds for it in waiting) / seconds
            ended, took = len(self.checks) - len(waiting), minutes(time.monotonic() - self.begun)
            draw(part, f"{ended} of {len(self.checks)} checks, {took}: {' '.join(it.name for it in waiting)}")

    def hide(self):
        if self.is_shown:
            sys.stderr.write("\r\033[K")
            sys.stderr.flush()


def run_all(checks, is_whole=False, run=ran):
    """Runs checks side by side, tells of each once it has ended, and returns what all came to."""
    counts, bar = Counts(), Bar(checks)
    with concurrent.futures.ThreadPoolExecutor(processors()) as pool:
        waiting = {pool.submit(run, it): it for it in sorted(checks, key=lambda it: -it.seconds)}
        try:
            while waiting:
                bar.show(waiting.values())
                for it in concurrent.futures.wait(waiting, 1, concurrent.futures.FIRST_COMPLETED).done:
                    bar.hide()
                    said, found = it.result()
                    tell(waiting.pop(it).name, said, found, is_whole)
                    counts.add(found)
        except KeyboardInterrupt:
            pool.shutdown(wait=False, cancel_futures=True)
            for it in [*RUNNING]:
                it.send_signal(signal.SIGINT)
            raise
        finally:
            bar.hide()
    return counts


def ended(main):
    """Runs a main function, which an interrupt or a signal to end ends, and returns the status."""
    for it in (signal.SIGTERM, signal.SIGHUP):
        signal.signal(it, signal.default_int_handler)
    try:
        return main()
    except KeyboardInterrupt:
        return 130


def sentence(text):
    """The first sentence of what is written of something."""
    return re.split(r"(?<=[.]) ", " ".join((text or "").split()))[0]


def tests_in(file):
    """The tests of a file in Python, each with the first sentence that is written of it."""
    with open(file, encoding="utf-8") as source:
        tree = ast.parse(source.read())
    for it in tree.body:
        if isinstance(it, ast.FunctionDef) and it.name.startswith("test_"):
            said = sentence(ast.get_docstring(it))
            yield it.name[5:].replace("_", " ") + (f": {said}" if said else "")


def rows_of(check):
    """The rows of a check, a line each: it prints them itself, or they are the tests of its folder."""
    script = f"{TOP}/{check.words[0]}"
    with open(script, encoding="utf-8") as source:
        text = source.read()
    if "IS_LISTED" in text or "run_checks(" in text:
        words = [script, *check.words[1:]]
        return subprocess.run(words, env={**os.environ, "MLS_LISTED": "1"}, stdout=subprocess.PIPE, text=True).stdout
    files = sorted(glob.glob(f"{os.path.dirname(script)}/tests/rows_*.py"))
    return "".join(f"    {it}\n" for file in files for it in tests_in(file))


def list_check(check):
    """Prints what a check does, and its rows."""
    with open(f"{TOP}/{check.words[0]}", encoding="utf-8") as source:
        said = sentence(ast.get_docstring(ast.parse(source.read())))
    print(f"{check.name} ({' '.join(check.words)}): {said}\n{rows_of(check)}")


RATTLE_TEST = re.compile(r"((?:^ *///.*\n)*)^ *#\[test\]\n *fn (\w+)", re.M)


def list_tests(crate):
    """Prints the tests of a crate, by their files."""
    found = []
    for file in sorted(glob.glob(f"{TOP}/crates/{crate}/src/**/*.rt", recursive=True)):
        with open(file, encoding="utf-8") as source:
            for said, name in RATTLE_TEST.findall(source.read()):
                words = sentence(said.replace("///", ""))
                place = os.path.relpath(file, f"{TOP}/crates/{crate}/src")
                found.append(f"    {place}: {name.replace('_', ' ')}" + (f": {words}" if words else ""))
    if found:
        print(f"{crate} (bin/test {crate}):", *found, "", sep="\n")


def main(words):
    """Lists the checks of these names, and the tests of the crates of these names; without names all."""
    if words[:1] != ["--list"]:
        print("usage: .ci/checks.py --list [NAME ..]", file=sys.stderr)
        return 2
    for it in CHECKS:
        if it.name in words[1:] or not words[1:]:
            list_check(it)
    for it in listed():
        if it in words[1:] or not words[1:]:
            list_tests(it)
    return 0


if __name__ == "__main__":
    sys.exit(main(sys.argv[1:]))
