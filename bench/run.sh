#!/usr/bin/env bash
# The cost of a run: has mls run scripts over a start of 256 subjects and 4,096 objects, the same each time, and plain Rust do the same,
# and prints instructions a line of one script (the start's reading taken off), instructions an entry for the journal's text, and of 64
# scripts of requests alone, with their journal, processor seconds and the most memory an entry.
set -u
cd "$(dirname -- "$0")/.." || exit 1
. bench/shared.sh
start=$folder/start.json
bench/large-start 2097152 >"$start"

# A script of just under a megabyte: of ten lines so many are checks, and the others releases and gets, drawn by a small generator of
# numbers.
script() {
  awk -v limit=1048576 -v seed="$1" -v checks="$2" 'function drawn(below) { seed = seed * 16807 % 2147483647; return int(seed / 7) % below }
  BEGIN {
    split("execute,read,append,write", mode, ",")
    for (;;) {
      kind = drawn(10)
      asked = kind < checks ? "check " : kind < 8 ? "release " : "get-"
      line = "s" drawn(256) " " asked mode[1 + drawn(4)] " o" drawn(4000)
      if ((size += length(line) + 1) > limit) break
      print line
    }
  }'
}
for n in {1..64}; do script "$n" 0 >"$folder/$n"; done
script 1 6 >"$folder/mixed"
: >"$folder/empty"
lines=$(wc -l <"$folder/mixed")
"$program" run --serial --journal "$folder/journal" "$start" "$folder/mixed" >"$folder/of-mls" || exit 1
"$plain" run --journal "$folder/plain.journal" "$start" "$folder/mixed" | cmp - "$folder/of-mls" || exit 1
cmp "$folder/plain.journal" "$folder/journal" || exit 1
entries=$(wc -l <"$folder/journal")
echo "script: $(wc -c <"$folder/mixed") bytes, $lines lines, $entries entries; $(grep -cxE 'yes|held' "$folder/of-mls") lines answered yes or held"

# Sets `line` and `entry`: what a command's run takes for each.
costs() {
  local empty whole
  empty=$(instructions "$@" "$start" "$folder/empty")
  mv "$folder/calls" "$folder/before"
  whole=$(instructions "$@" "$start" "$folder/mixed")
  line=$(by $((whole - empty)) "$lines")
  mv "$folder/calls" "$folder/whole"
  entry=$(by $(($(instructions "$@" --journal "$folder/journal" "$start" "$folder/mixed") - whole)) "$entries")
}
costs "$plain" run
plain_line=$line plain_entry=$entry
costs "$program" run --serial
row "instructions a line" "$plain_line" "$line"
mv "$folder/whole" "$folder/calls" && functions "$folder/before" "$lines"
row "instructions an entry for the journal" "$plain_entry" "$entry"

mapfile -t scripts < <(printf "$folder/%s\n" {1..64})
entries=$("$program" run --serial --journal "$folder/journal" "$start" "${scripts[@]}" | awk '$1 == "entries" { print $2 }')
echo "64 scripts with their journal: $entries entries"
of_plain=("$plain" run --journal "$folder/journal" "$start" "${scripts[@]}")
of_mls=("$program" run --serial --journal "$folder/journal" "$start" "${scripts[@]}")
row "processor microseconds, the least of 5" "$(least "${of_plain[@]}")" "$(least "${of_mls[@]}")"
row "bytes an entry at the most, of which the scripts take $((64 * 1048576 / entries))" \
  "$(($(memory "${of_plain[@]}") * 1024 / entries))" "$(($(memory "${of_mls[@]}") * 1024 / entries))"
