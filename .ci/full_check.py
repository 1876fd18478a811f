"""The full check of the repository: rt ci, with every proof that this machine hasn't kept, from nothing, the must-fail
edits, the tests and the stored run; then all of checks.py, over the program that was built and the library for C. In a
clean clone that is compiled over what rt ci proved; else bin/build-c proves what of it isn't built.

The line before the last tells what it took, and the last counts all: 'N passed, M failed'. What was skipped, since this
machine hasn't what it needs, is named. A C compiler it must have. The status is 1 where anything failed.
"""
import concurrent.futures
import os
import resource
import shutil
import subprocess
import sys
import tempfile
import time

sys.dont_write_bytecode = True
from checks import CHECKS, FAILED, FAULTS, FILES, MINUTES, TOP, Counts, counts_of, ended, run_all, tell_faults
from rooms import below, built, compile_static, lanes, listed, minutes

PROGRAM = f"{TOP}/crates/mls/out/mls"
# The checks that link the library for C.
OVER_LIBRARY = ("library", "fuzzers", "installation")


def proofs(told):
    """Runs rt ci, shows what it says meanwhile, and tells of each line. Returns what it came to: its last line gets a name
    before it."""
    last = ""
    streams = {"stdin": subprocess.DEVNULL, "stdout": subprocess.PIPE, "stderr": subprocess.STDOUT}
    with subprocess.Popen(["rt", "ci"], text=True, errors="replace", **streams) as tool:
        for line in tool.stdout:
            print(last, end="", flush=True)
            last = line
            FAULTS.extend(FAILED.findall(line))
            told(line)
    counts = counts_of(last, tool.returncode)
    print(f"the proofs: {last}", end="", flush=True)
    return counts


def kept(sources):
    """Keeps the program that rt ci built of the sources with this sum, so that the checks ask it."""
    fault = built("keep", "proved", PROGRAM, sources)[2]
    print(fault, end="", flush=True)
    return Counts(failed=1 if fault else 0)


def has_libraries():
    """Whether a library below the one for C is built. rt ci puts that back when it ends, whatever it was built of."""
    return any(os.path.isdir(f"{TOP}/crates/{it}/out/rlib") for it in below("mls_c", listed()))


def compile_library(sources):
    """Compiles the static library behind the one for C over what rt ci proved of the sources with this sum. Where that
    fails, bin/build-c proves it with all libraries below it."""
    with tempfile.TemporaryDirectory() as room:
        library = f"{room}/libmls_c.a"
        fault = compile_static("mls_c", library) or built("keep", "library", library, sources)[2]
    print(fault, end="", flush=True)


def checked(library):
    """Runs all checks. Those that link the library for C come last, once its compilation has ended."""
    counts = run_all([it for it in CHECKS if it.name not in OVER_LIBRARY], is_whole=True)
    if library:
        library[0].result()
    counts.add(run_all([it for it in CHECKS if it.name in OVER_LIBRARY], is_whole=True))
    return counts


def took(begun):
    """What the run took: by the clock, and in processor time of all that it started."""
    used = resource.getrusage(resource.RUSAGE_CHILDREN)
    clock, processor = minutes(time.monotonic() - begun), minutes(used.ru_utime + used.ru_stime)
    return f"wall time {clock}, processor time {processor}, with RT_JOBS={os.environ['RT_JOBS']}"


def main():
    begun, counts = time.monotonic(), Counts()
    os.chdir(TOP)
    # One job a check: without this, rt lends idle processors to single checks, which then cost half as much again.
    os.environ.setdefault("RT_JOBS", str(lanes()))
    # (so that nothing is asked that isn't proved)
    os.environ["MLS_PROVED"] = "1"
    sources, is_compiled, library = built("sum")[1], not has_libraries(), []
    pool = concurrent.futures.ThreadPoolExecutor(1)

    def told(line):
        """Has the library for C compiled from when rt ci has proved it, beside what is still to be proved."""
        if is_compiled and line == "rt: mls_c proved\n":
            library.append(pool.submit(compile_library, sources))

    counts.add(proofs(told))
    if not counts.failed:
        counts.add(kept(sources))
    is_built = not counts.failed
    if not shutil.which("cc"):
        print("a C compiler: NOT INSTALLED")
        counts.add(Counts(failed=1))
    if is_built:
        counts.add(checked(library))
    else:
        print("the program and the library for C: NOT BUILT, and not checked")
        counts.add(run_all([it for it in CHECKS if it.needs in (FILES, MINUTES)], is_whole=True))
    if counts.skipped:
        print(f"{counts.skipped} skipped, as the lines above say")
    tell_faults()
    print(took(begun))
    print(f"{counts.passed} passed, {counts.failed} failed")
    return 1 if counts.failed else 0


if __name__ == "__main__":
    sys.exit(ended(main))
