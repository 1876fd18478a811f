#!/usr/bin/env bash
# The cost of a start file: has mls check, and the same in plain Rust, read one of just under 8,388,608 bytes, of 256 subjects, 4,096
# objects and cells for the rest, which is the same each time, and prints instructions a byte, processor seconds and the most memory;
# and instructions a byte of three files that are hard to read: of half a million members of unknown kinds, which is refused, of
# 100,000 members of one, and of a chain of 4,096 objects.
set -u
cd "$(dirname -- "$0")/.." || exit 1
. bench/shared.sh
start=$folder/start.json

bench/large-start 8388608 >"$start"
bytes=$(wc -c <"$start")
echo "start: $bytes bytes"
"$program" check "$start" >"$folder/of-mls" && "$plain" check "$start" | cmp - "$folder/of-mls" || exit 1
row "instructions a byte" "$(by "$(instructions "$plain" check "$start")" "$bytes")" \
  "$(by "$(instructions "$program" check "$start")" "$bytes")"
instructions "$program" check examples/standard.json >/dev/null && mv "$folder/calls" "$folder/before"
instructions "$program" check "$start" >/dev/null && functions "$folder/before" "$bytes"
row "processor microseconds, the least of 5" "$(least "$plain" check "$start")" "$(least "$program" check "$start")"
row "KiB at the most" "$(memory "$plain" check "$start")" "$(memory "$program" check "$start")"

# members COUNT KINDS: a file of so many members, of so many kinds that no start has, each with a number.
members() { awk -v count="$1" -v kinds="$2" 'BEGIN { for (n = 0; n < count; n++) print (n ? ",\"m" : "{\"m") n % kinds "\": " n; print "}" }'; }
members 500000 500000 >"$folder/unknown"
members 100000 1 >"$folder/one"
awk 'BEGIN {
  print "{\"security\": {\"levels\": [\"U\"], \"categories\": []}, \"integrity\": {\"levels\": [\"lo\"], \"categories\": []}, \"subjects\":"
  print "[{\"name\": \"s\", \"maximum\": \"U\", \"current\": \"U\", \"integrity\": \"lo\", \"trusted\": false}], \"objects\": ["
  print "{\"name\": \"o0\", \"parent\": null, \"security\": \"U\", \"integrity\": \"lo\"}"
  for (n = 1; n < 4096; n++) print ", {\"name\": \"o" n "\", \"parent\": \"o" n - 1 "\", \"security\": \"U\", \"integrity\": \"lo\"}"
  print "], \"matrix\": []}"
}' >"$folder/chain"
for name in unknown one chain; do
  count=$(instructions "$program" check "$folder/$name")
  echo "$name: $(wc -c <"$folder/$name") bytes, instructions a byte: $(by "$count" "$(wc -c <"$folder/$name")")"
done
