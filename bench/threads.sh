#!/usr/bin/env bash
# The cost of threads: has mls run 1, 4, 16 and 64 scripts of just under a megabyte over a start of 256 subjects and 4,096 objects, the
# same each time, each in a thread of its own and then one after the other, and prints for both the seconds by the clock and of processor
# time (the middle of nine runs each, in turn), and how threads stand to serial; and of 4 scripts millions of instructions. Of ten lines
# some six are checks, the others releases and gets. It measures the proved program, or the one that MLS_PROGRAM names.
set -u
export LC_ALL=C
cd "$(dirname -- "$0")/.." || exit 1
[ -n "${MLS_PROGRAM-}" ] || bin/prove || exit 1
program=${MLS_PROGRAM:-$PWD/crates/mls/out/proved/mls}
folder=$(mktemp -d) || exit 1
trap 'rm -r "$folder"' EXIT
bench/large-start 2097152 >"$folder/start.json"

# A script, drawn by a small generator of numbers.
script() {
  awk -v limit=1048576 -v seed="$1" 'function drawn(below) { seed = seed * 16807 % 2147483647; return int(seed / 7) % below }
  BEGIN {
    split("execute,read,append,write", mode, ",")
    for (;;) {
      kind = drawn(10)
      asked = kind < 6 ? "check " : kind < 8 ? "release " : "get-"
      line = "s" drawn(256) " " asked mode[1 + drawn(4)] " o" drawn(4000)
      if ((size += length(line) + 1) > limit) break
      print line
    }
  }'
}
for n in {1..64}; do script "$n" >"$folder/$n"; done

python3 - "$program" "$folder" <<'TIMES'
import os, resource, statistics, subprocess, sys, time

program, folder = sys.argv[1:]
print(f"{len(os.sched_getaffinity(0))} processors; seconds by the clock, and of processor time")
print("| scripts | in threads | serial | clock | processor time |\n|---|---|---|---|---|")


def spent(words):
    """Runs the program, and returns the seconds by the clock and of processor time."""
    before, begun = resource.getrusage(resource.RUSAGE_CHILDREN), time.monotonic()
    subprocess.run([program, "run", *words], check=True, stdout=subprocess.DEVNULL)
    seconds, after = time.monotonic() - begun, resource.getrusage(resource.RUSAGE_CHILDREN)
    return seconds, after.ru_utime + after.ru_stime - before.ru_utime - before.ru_stime


for count in (1, 4, 16, 64):
    words = [f"{folder}/start.json", *(f"{folder}/{n}" for n in range(1, count + 1))]
    runs = [(spent(words), spent(["--serial", *words])) for _ in range(9)]
    middle = [[statistics.median(run[way][part] for run in runs) for part in (0, 1)] for way in (0, 1)]
    (clock, work), (serial_clock, serial_work) = middle
    print(f"| {count} | {clock:.2f}, {work:.2f} | {serial_clock:.2f}, {serial_work:.2f} "
          f"| {clock / serial_clock:.2f} | {work / serial_work:.2f} |", flush=True)
TIMES

# Millions of instructions of a run.
millions() {
  valgrind --tool=callgrind --callgrind-out-file=/dev/null "$program" run "$@" 2>&1 >/dev/null | awk '/ Collected : / { print int($4 / 1000000) }'
}
none=$(millions --serial "$folder/start.json" /dev/null)
echo "4 scripts, millions of instructions without the start's: in threads $(($(millions "$folder/start.json" "$folder"/{1..4}) - none))," \
  "serial $(($(millions --serial "$folder/start.json" "$folder"/{1..4}) - none))"
