#!/usr/bin/env bash
# The cost of a replay: has mls replay journals over the standard start, the same each time, and plain Rust do the same, and prints
# instructions an entry (the start's reading taken off), and of a million and of ten million entries processor seconds and the most
# memory an entry.
set -u
cd "$(dirname -- "$0")/.." || exit 1
. bench/shared.sh
start=examples/standard.json

# A script of so many lines, none of whose answers depends on the order but for the first.
script() {
  awk -v lines="$1" 'BEGIN {
    kinds = split("ann get-read plans,ann get-write plans,bob get-execute tool,sec get-write root,sec get-write plans," \
      "ann release read plans,bob release execute tool,bob get-read memo,ann get-read memo,ann get-append plans", kind, ",")
    seed = 1
    for (n = 0; n < lines; n++) {
      seed = seed * 16807 % 2147483647
      print kind[1 + seed % kinds]
    }
  }'
}
script 50000 >"$folder/script"
: >"$folder/none"
mapfile -t twenty < <(yes "$folder/script" | head -n 20)
"$program" run --serial --journal "$folder/short" "$start" "$folder/script" >"$folder/answers" || exit 1
"$program" run --serial --journal "$folder/long" "$start" "${twenty[@]}" >"$folder/answers" || exit 1
entries=$(wc -l <"$folder/short")
echo "journal: $(wc -c <"$folder/short") bytes, $entries entries"

none=$(instructions "$plain" replay "$start" "$folder/none")
of_plain=$(by $(($(instructions "$plain" replay "$start" "$folder/short") - none)) "$entries")
none=$(instructions "$program" replay "$start" "$folder/none")
mv "$folder/calls" "$folder/before"
row "instructions an entry" "$of_plain" "$(by $(($(instructions "$program" replay "$start" "$folder/short") - none)) "$entries")"
functions "$folder/before" "$entries"

# Ten million entries in a file that just fits: ann reads a plan and releases it, and bob stays where he is in between.
awk -v entries=10000000 'BEGIN {
  kinds = split("0 0 get-read 1 yes,0 1 level 0 yes,0 0 release read 1 yes,0 1 level 0 yes", kind, ",")
  for (n = 0; n < entries; n++) print n, kind[1 + n % kinds]
}' >"$folder/longest"

for journal in long longest; do
  entries=$(wc -l <"$folder/$journal")
  echo "$entries entries, $(wc -c <"$folder/$journal") bytes:"
  of_plain=("$plain" replay "$start" "$folder/$journal") of_mls=("$program" replay "$start" "$folder/$journal")
  row "processor microseconds, the least of 5" "$(least "${of_plain[@]}")" "$(least "${of_mls[@]}")"
  row "bytes an entry at the most" "$(by $(($(memory "${of_plain[@]}") * 1024)) "$entries")" "$(by $(($(memory "${of_mls[@]}") * 1024)) "$entries")"
done
