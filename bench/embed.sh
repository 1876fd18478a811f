#!/usr/bin/env bash
# What the calls of the library for C cost: nanoseconds a call, the least of five runs, and instructions a call (by callgrind, the
# difference of two counts), with those of the loop around it. With no monitor, `cells` looks up the same packed cells in plain C, and
# `plain` decides the get of `decide` by the same conditions. Submits are also timed with the large pages that glibc asks for where it
# is told to, with what of their time is the system's; and what mls_open takes of a file with all 4,194,304 triples permitted, and then
# also accessed.
set -u
export LC_ALL=C
cd "$(dirname -- "$0")/.." || exit 1
folder=$(mktemp -d) || exit 1
trap 'rm -r "$folder"' EXIT
bin/build-c "$folder" || exit 1
cc -O2 -I"$folder/include" bench/embed.c "$folder/lib/libmls.a" -o "$folder/embed" || exit 1

nanoseconds() { for _ in 1 2 3 4 5; do "$folder/embed" examples/standard.json "$1" "$2"; done | sort -n | head -n 1; }

instructions() {
  valgrind --tool=callgrind --callgrind-out-file=/dev/null "$folder/embed" examples/standard.json "$1" "$2" 2>&1 >/dev/null |
    awk '/ Collected : / { print $4 }'
}

echo "call: nanoseconds, instructions; load $(cut -d ' ' -f 1-3 /proc/loadavg)"
for row in "cells 100000000" "check 100000000" "plain 20000000" "decide 20000000" "dominates 100000000" "label 50000000" "executes 50000000" "appends 50000000" \
  "writes 50000000" "wide 50000000" "labels 50000000" "explain 2000000" "denied 5000000" "held 5000000" "granted 5000000"; do
  read -r what count <<<"$row"
  each="?"
  if command -v valgrind >/dev/null; then
    each=$((($(instructions "$what" 200000) - $(instructions "$what" 100000)) / 100000))
  fi
  echo "$what: $(nanoseconds "$what" "$count"), $each"
done
cc -O2 -I"$folder/include" examples/rows.c "$folder/lib/libmls.a" -o "$folder/rows" && "$folder/rows" examples/standard.json ann || exit 1
# Nanoseconds of the system for each of 5,000,000 submits, and how many pages they touch for the first time.
system() {
  python3 -c 'import resource, subprocess, sys
subprocess.run(sys.argv[1:], check=True, stdout=subprocess.DEVNULL)
used = resource.getrusage(resource.RUSAGE_CHILDREN)
print(f"{used.ru_stime * 1e9 / 5e6:.0f} ns of the system, {used.ru_minflt} page faults")' "$folder/embed" examples/standard.json granted 5000000
}
echo "granted: $(system)"
for name in permitted accessed; do
  awk -v accessed="$name" 'function cells(key) {
    print "\"" key "\": ["
    for (s = 0; s < 256; s++) for (o = 0; o < 4096; o++)
      print (s + o ? "," : "") "{\"subject\":\"s" s "\",\"object\":\"o" o "\",\"modes\":[\"execute\",\"read\",\"append\",\"write\"]}"
    print "]"
  }
  BEGIN {
    print "{\"security\": {\"levels\": [\"U\"], \"categories\": []}, \"integrity\": {\"levels\": [\"lo\"], \"categories\": []}, \"subjects\": ["
    for (s = 0; s < 256; s++)
      print (s ? "," : "") "{\"name\": \"s" s "\", \"maximum\": \"U\", \"current\": \"U\", \"integrity\": \"lo\", \"trusted\": false}"
    print "], \"objects\": [{\"name\": \"o0\", \"parent\": null, \"security\": \"U\", \"integrity\": \"lo\"}"
    for (o = 1; o < 4096; o++) print ",{\"name\": \"o" o "\", \"parent\": \"o0\", \"security\": \"U\", \"integrity\": \"lo\"}"
    print "],"
    cells("matrix")
    if (accessed == "accessed") { print ","; cells("accesses") }
    print "}"
  }' >"$folder/whole"
  TIMEFORMAT="mls_open of $(wc -c <"$folder/whole") bytes, all $name: %U s of a processor, %S s of the system"
  time "$folder/embed" "$folder/whole" open 1 >"$folder/answers"
done
(
  export GLIBC_TUNABLES=glibc.malloc.hugetlb=1
  for what in denied held granted; do echo "$what, large pages: $(nanoseconds "$what" 5000000)"; done
  echo "granted, large pages: $(system)"
)
# A million rows in Python.
MLS_LIBRARY="$folder/lib/libmls.so" python3 bench/rows.py examples/standard.json || exit 1
# Threads come last: beside other work they take many minutes.
cc -O2 -I"$folder/include" bench/office.c "$folder/lib/libmls.a" -pthread -o "$folder/office" || exit 1
clock() { for _ in 1 2 3 4 5; do "$folder/office" examples/standard.json "$1" "$2" "$3"; done | sort -n | head -n 1; }
echo "sessions of an office, a handle each: nanoseconds by the clock for each call of all threads, with 1 thread and with 4"
for row in "decide 2000000" "denied 1000000" "granted 1000000" "changes 20000000" "rows 16000000"; do
  read -r what count <<<"$row"
  echo "$what, a session each: $(clock "$what" 1 "$count"), $(clock "$what" 4 "$count")"
done
cc -O2 -I"$folder/include" bench/scaling.c "$folder/lib/libmls.a" -pthread -o "$folder/scaling" || exit 1
echo "checks by 4 threads at once and by each alone, in turn on the same processors; loop shares nothing"
"$folder/scaling" examples/standard.json 4 300
