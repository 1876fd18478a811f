# What measures share, which source this at the top of the checkout: the program (the proved one, or what MLS_PROGRAM names), what
# does the same in plain Rust (bench/plain), a folder that is removed at the end, and counts. With MLS_FUNCTIONS=N they also print
# the N functions in which the measured lines spend the most instructions.
export LC_ALL=C
program=${MLS_PROGRAM:-$PWD/crates/mls/out/proved/mls}
[ -n "${MLS_PROGRAM-}" ] || bin/prove || exit 1
folder=$(mktemp -d) || exit 1
trap 'rm -r "$folder"' EXIT
plain=$folder/plain
rustc -O --edition 2024 -o "$plain" bench/plain/main.rs || exit 1
for tool in valgrind python3; do command -v "$tool" >/dev/null || { echo "bench: $tool isn't there" >&2; exit 1; }; done

# Instructions of a command, by callgrind, whose counts stay in the file `calls`; what it prints is in the file `answers`.
instructions() {
  valgrind --tool=callgrind --callgrind-out-file="$folder/calls" "$@" 2>&1 >"$folder/answers" | awk '/ Collected : / { print $4 }'
}

# The most KiB that a command held.
memory() {
  python3 -c 'import resource, subprocess, sys
subprocess.run(sys.argv[1:], check=True, stdout=subprocess.DEVNULL)
print(resource.getrusage(resource.RUSAGE_CHILDREN).ru_maxrss)' "$@"
}

# The least processor seconds of five runs of a command, in microseconds.
least() {
  python3 -c 'import os, subprocess, sys
def taken():
    with subprocess.Popen(sys.argv[1:], stdout=subprocess.DEVNULL) as run:
        used = os.wait4(run.pid, 0)[2]
        run.returncode = 0
    return used.ru_utime + used.ru_stime
print(round(min(taken() for _ in range(5)) * 1e6))' "$@"
}

# row WHAT PLAIN MLS: what the two take, and how many times what plain Rust takes mls does.
row() {
  awk -v what="$1" -v plain="$2" -v mls="$3" 'BEGIN { printf "%s: plain Rust %s, mls %s: %.2f times\n", what, plain, mls, mls / plain }'
}

# by NUMBER COUNT: a difference by a count, to a place where it is small.
by() { awk -v number="$1" -v count="$2" 'BEGIN { printf number < 1000 * count ? "%.1f\n" : "%.0f\n", number / count }'; }

# functions BEFORE COUNT: where the file `calls` has more than that of a run before, by a count.
functions() { [ -z "${MLS_FUNCTIONS-}" ] || python3 bench/functions.py "$1" "$folder/calls" "$2" "$MLS_FUNCTIONS"; }
