#!/usr/bin/env bash
# The cost of a turn at the gate: has 1, 2 and 4 threads do nothing but submit a release, and work between two of them, through the gate
# and under the toolchain's mutex round the same monitor (crates/mls_probes), and prints nanoseconds by the clock and of processor time a
# turn, what a run of few turns takes taken off: the least of seven runs of each kind, gate and mutex by turns. (A run of few turns may
# have a nap in it that is longer than all of them, so many and few are not compared run by run.)
set -u
export LC_ALL=C
cd "$(dirname -- "$0")/.." || exit 1
program=$PWD/crates/mls_probes/out/mls_probes
[ -x "$program" ] || bin/prove mls_probes || exit 1

python3 - "$program" <<'TIMES'
import os, resource, subprocess, sys, time

program = sys.argv[1]
TURNS, FEW = 400_000, 4_000
print(f"{len(os.sched_getaffinity(0))} processors; nanoseconds a turn by the clock, and of processor time")
print("| threads | instructions between turns | gate | mutex | clock | processor time |\n|---|---|---|---|---|---|")


def spent(how, threads, turns, rounds):
    """Runs the program, and returns the seconds by the clock and of processor time."""
    before, begun = resource.getrusage(resource.RUSAGE_CHILDREN), time.monotonic()
    said = subprocess.run([program, how, *map(str, (threads, turns, rounds))], check=True, capture_output=True, text=True)
    seconds, after = time.monotonic() - begun, resource.getrusage(resource.RUSAGE_CHILDREN)
    assert said.stdout == f"{threads * turns} entries\n", said.stdout
    return seconds, after.ru_utime + after.ru_stime - before.ru_utime - before.ru_stime


for rounds, instructions in ((0, 0), (12, 100), (250, 2000)):
    for threads in (1, 2, 4):
        turns = TURNS // threads
        least = {}
        for _ in range(7):
            for how in ("gate", "mutex"):
                for each in (turns, FEW // threads):
                    took = spent(how, threads, each, rounds)
                    least[how, each] = [min(pair) for pair in zip(took, least.get((how, each), took))]
        taken = {how: [(a - b) * 1e9 / (TURNS - FEW) for a, b in zip(least[how, turns], least[how, FEW // threads])] for how in ("gate", "mutex")}
        (clock, work), (mutex_clock, mutex_work) = taken["gate"], taken["mutex"]
        print(f"| {threads} | {instructions} | {clock:.0f}, {work:.0f} | {mutex_clock:.0f}, {mutex_work:.0f} "
              f"| {clock / mutex_clock:.2f} | {work / mutex_work:.2f} |", flush=True)
TIMES
