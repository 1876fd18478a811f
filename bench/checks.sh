#!/usr/bin/env bash
# The cost of checks: has 1, 2, 4 and 8 threads check while none, one or two others submit releases, through sessions (crates/mls_probes),
# and in plain Rust with the same tables of bits behind a reader/writer lock and behind an atomic pointer (RCU that frees nothing, and copies the table at every 64th write). Prints
# millions of checks a second by the clock, what a run of few checks takes taken off: the best of five runs of each kind, by turns. Those
# who submit make as many entries as the checkers make checks, divided by 20, so that they are busy for most of a run. These checks are asked
# by feeds of a run; last comes what a check takes that a session is asked directly, and instructions a check of both, by callgrind.
set -u
export LC_ALL=C
cd "$(dirname -- "$0")/.." || exit 1
program=$PWD/crates/mls_probes/out/mls_probes
[ -x "$program" ] || bin/prove mls_probes || exit 1
folder=$(mktemp -d) || exit 1
trap 'rm -r "$folder"' EXIT
plain=
if command -v rustc >/dev/null; then
  rustc -O --edition 2021 -o "$folder/plain" bench/checks.rs || exit 1
  plain=$folder/plain
fi

python3 - "$program" "$plain" <<'TIMES'
import os, subprocess, sys, time

program, plain = sys.argv[1:]
CHECKS, FEW = 4_000_000, 40_000
ways = {"sessions": lambda n, w, each, made: [program, "gate", w, made, 0, n, each]}
if plain:
    for how in ("rwlock", "pointer"):
        ways[how] = lambda n, w, each, made, how=how: [plain, how, w, made, 0, n, each]
print(f"{len(os.sched_getaffinity(0))} processors; millions of checks a second")
print("| threads that check | that submit |", " | ".join(ways), "|\n|---|---|" + "---|" * len(ways))


def spent(words):
    """Runs a program, and returns the seconds by the clock."""
    begun = time.monotonic()
    subprocess.run([*map(str, words)], check=True, stdout=subprocess.DEVNULL)
    return time.monotonic() - begun


for threads in (1, 2, 4, 8):
    for writers in (0, 1, 2):
        rates = []
        for words in ways.values():
            many, few = (min(spent(words(threads, writers, all // threads, all // threads // 20)) for _ in range(5)) for all in (CHECKS, FEW))
            rates.append((CHECKS - FEW) / max(many - few, 1e-9) / 1e6)
        print(f"| {threads} | {writers} |", " | ".join(f"{rate:.1f}" for rate in rates), "|", flush=True)
many, few = (min(spent([program, "alone", 1, 0, 0, 0, each]) for _ in range(5)) for each in (5 * CHECKS, FEW))
print(f"a session that calls check itself, alone: {(many - few) * 1e9 / (5 * CHECKS - FEW):.1f} nanoseconds a check")


def instructions(words):
    """What callgrind counts of a program's run."""
    call = ["valgrind", "--tool=callgrind", "--callgrind-out-file=/dev/null", *map(str, words)]
    said = subprocess.run(call, check=True, stdout=subprocess.DEVNULL, stderr=subprocess.PIPE, text=True).stderr
    return int(said.rpartition(" Collected : ")[2].split()[0])


for name, words in (("a feed asks for", ["gate", 0, 0, 0, 1]), ("a session is asked directly", ["alone", 1, 0, 0, 0])):
    each = (instructions([program, *words, 60_000]) - instructions([program, *words, 20_000])) / 40_000
    print(f"a check that {name}: {each:.0f} instructions")
TIMES
