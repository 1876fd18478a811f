#!/usr/bin/env bash
# The cost of a line of a script: runs mls over a script of just under a megabyte, which is the same each time, from a
# file and through a pipe, and prints nanoseconds a line (the least and the middle of 21 runs, the start of the program
# included), instructions a line beside plain Rust, and the memory beside the journal.
set -u
cd "$(dirname -- "$0")/.." || exit 1
. bench/shared.sh
script=$folder/script

# Gets, releases and checks over the standard start. But for the first line, which makes the held access, no answer
# depends on the order: a line is drawn from twelve by a small generator of numbers, and eight of them say yes or held.
awk -v limit=1048576 'BEGIN {
  kinds = split("ann get-read plans,ann get-write plans,bob get-execute tool,sec get-write root,sec get-write plans," \
    "ann release read plans,bob release execute tool,aud check read plans,bob get-read memo,ann get-read memo," \
    "ann get-append plans,bob check append plans", kind, ",")
  line = "aud get-read plans"
  seed = 1
  while ((size += length(line) + 1) <= limit) {
    print line
    seed = seed * 16807 % 2147483647
    line = kind[1 + seed % kinds]
  }
}' >"$script"
lines=$(wc -l <"$script")
checks=$(grep -c ' check ' "$script")
"$program" <"$script" >"$folder/of-mls" || exit 1
"$plain" run examples/standard.json "$script" | sed '1d; /^entries/,$d' | cmp - "$folder/of-mls" || exit 1
granted=$(grep -cxE 'yes|held' "$folder/of-mls")
echo "script: $(wc -c <"$script") bytes, $lines lines, $((lines - checks)) requests; $granted lines answered yes or held"

# Nanoseconds a line, of 21 runs of a command that runs the program over the script.
times() {
  local run begun ended
  for run in {1..21}; do
    begun=${EPOCHREALTIME/./}
    "$@" >/dev/null || echo "run $run failed" >&2
    ended=${EPOCHREALTIME/./}
    echo $(((ended - begun) * 1000 / lines))
  done | sort -n | awk '{ at[NR] = $1 } END { print "least " at[1] ", middle " at[(NR + 1) / 2] }'
}
from_file() { "$program" <"$script"; }
through_pipe() { cat <"$script" | "$program"; }
echo "nanoseconds a line from a file: $(times from_file)"
echo "nanoseconds a line through a pipe: $(times through_pipe)"

# Instructions of one run over what is given.
answering() {
  valgrind --tool=callgrind --callgrind-out-file="$folder/calls" "$program" <"$1" 2>&1 >/dev/null | awk '/ Collected : / { print $4 }'
}
none=$(instructions "$plain" run examples/standard.json /dev/null)
of_plain=$(by $(($(instructions "$plain" run examples/standard.json "$script") - none)) "$lines")
none=$(answering /dev/null)
mv "$folder/calls" "$folder/before"
row "instructions a line" "$of_plain" "$(by $(($(answering "$script") - none)) "$lines")"
functions "$folder/before" "$lines"

# The most memory that a run held, in KiB, as the system tells it when all is answered and the input is still open.
most() {
  python3 -c 'import os, subprocess, sys, time
program, script, count = sys.argv[1:]
with open(sys.argv[2] + ".answers", "wb") as answers:
    with subprocess.Popen([program], stdin=subprocess.PIPE, stdout=answers) as run:
        run.stdin.write(open(script, "rb").read())
        run.stdin.flush()
        while run.poll() is None and os.path.getsize(answers.name) < int(count):
            time.sleep(0.01)
        time.sleep(0.1)
        print(next(it.split()[1] for it in open(f"/proc/{run.pid}/status") if it.startswith("VmHWM")))' "$program" "$1" "$2"
}
: >"$folder/empty"
held=$(most "$script" "$(wc -c <"$folder/of-mls")")
empty=$(most "$folder/empty" 0)
entries=$((lines - checks))
echo "memory: $held KiB at the most, $empty KiB for an empty script; $entries entries take the rest, $(((held - empty) * 1024 / entries)) bytes each"
