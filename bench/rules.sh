#!/usr/bin/env bash
# What single rules cost where much is held, in instructions, beside plain Rust: over starts that are the same each time, a
# script that gets everything ready is run, and then the same script with the lines to be measured at its end. The
# difference, taken by the number of those lines, is printed.
set -u
cd "$(dirname -- "$0")/.." || exit 1
. bench/shared.sh

# A start of s0 to s255, of which the last is trusted, and of so many objects, all at one label. Each has the parent that a row of
# standard input says, and the cells that follow there: `parent OBJECT PARENT`, and `cell SUBJECT OBJECT MODE`.
start() {
  awk -v objects="$1" '
    $1 == "parent" { parent[$2] = $3 }
    $1 == "cell" { cells[count++] = "{\"subject\": \"s" $2 "\", \"object\": \"o" $3 "\", \"modes\": [\"" $4 "\"]}" }
    END {
      print "{\"security\": {\"levels\": [\"U\", \"C\", \"S\"], \"categories\": []},"
      print "\"integrity\": {\"levels\": [\"lo\", \"hi\"], \"categories\": []}, \"subjects\": ["
      for (n = 0; n < 256; n++)
        print "{\"name\": \"s" n "\", \"maximum\": \"S\", \"current\": \"C\", \"integrity\": \"hi\", \"trusted\": " (n < 255 ? "false}," : "true}")
      print "], \"objects\": [{\"name\": \"o0\", \"parent\": null, \"security\": \"C\", \"integrity\": \"hi\"}"
      for (n = 1; n < objects; n++)
        print ", {\"name\": \"o" n "\", \"parent\": \"o" parent[n] + 0 "\", \"security\": \"C\", \"integrity\": \"hi\"}"
      print "], \"matrix\": ["
      for (n = 0; n < count; n++) print cells[n] (n < count - 1 ? "," : "")
      print "]}"
    }'
}

# Sets `more`: the instructions that the lines behind the first ones take in a command's run.
take_more() {
  local before
  before=$(instructions "$@" "$folder/ready")
  mv "$folder/calls" "$folder/before"
  more=$(($(instructions "$@" "$folder/both") - before))
}

# measured WHAT START [UNIT]: the lines of $folder/lines after those of $folder/ready, by their number or by a unit. Plain Rust must
# answer the same.
measured() {
  local lines of_plain
  lines=$(wc -l <"$folder/lines")
  cat "$folder/ready" "$folder/lines" >"$folder/both"
  take_more "$plain" run "$2"
  of_plain=$more
  mv "$folder/answers" "$folder/of-plain"
  take_more "$program" run --serial "$2"
  cmp "$folder/answers" "$folder/of-plain" || exit 1
  row "$1" "$(by "$of_plain" "${3:-$lines}")" "$(by "$more" "${3:-$lines}")"
  functions "$folder/before" "${3:-$lines}"
  [ -n "${3-}" ] || tail -n "$((lines + 2))" "$folder/answers" | head -n "$lines" | grep -vE '^(yes|created)' | sort | uniq -c
}

# An object that 255 subjects read is relabelled.
seq 0 254 | awk '{ print "cell", $1, 1, "read" }' | start 2 >"$folder/start"
seq 0 254 | awk '{ print "s" $1 " get-read o1" }' >"$folder/ready"
seq 100 | awk '{ print "s255 relabel o1 C" }' >"$folder/lines"
measured "relabel of an object with 255 holders" "$folder/start"

# A subject that reads 3,999 objects changes its level.
seq 1 3999 | awk '{ print "cell", 0, $1, "read" }' | start 4000 >"$folder/start"
seq 1 3999 | awk '{ print "s0 get-read o" $1 }' >"$folder/ready"
seq 20 | awk '{ print "s0 level C" }' >"$folder/lines"
measured "level of a subject that holds 3,999 objects" "$folder/start"

# 200 subjects hold 240 objects each, and get one more.
awk 'BEGIN { for (s = 0; s < 200; s++) for (o = 1; o <= 241; o++) print "cell", s, o, "read" }' | start 242 >"$folder/start"
awk 'BEGIN { for (s = 0; s < 200; s++) for (o = 1; o <= 240; o++) print "s" s " get-read o" o }' >"$folder/ready"
awk 'BEGIN { for (s = 0; s < 200; s++) print "s" s " get-read o241" }' >"$folder/lines"
measured "get that is new, with 240 held" "$folder/start"

# Objects are created up to the last number.
echo "cell 0 0 write" | start 96 >"$folder/start"
echo "s0 get-write o0" >"$folder/ready"
seq 4000 | awk '{ print "s0 create o0 C hi" }' >"$folder/lines"
measured "create up to number 4,095" "$folder/start"

# Over the standard start, objects are created, given, got and checked, and then deleted, as many as there are numbers.
echo "sec get-write root" >"$folder/ready"
awk 'BEGIN { for (n = 4; n < 4096; n++) print "$x" n % 200 " = sec create root U hi\nsec give read sec $x" n % 200 "\nsec get-read $x" n % 200 "\nsec check read $x" n % 200 }' >"$folder/lines"
measured "4,092 creates, gives, gets and checks, millions in all" examples/standard.json 1000000
awk 'BEGIN { for (n = 4; n < 4096; n++) print "$o" n " = sec create root U hi\nsec give read sec $o" n "\nsec get-read $o" n; for (n = 4; n < 4096; n++) print "sec delete $o" n }' >"$folder/lines"
measured "4,092 creates, gives, gets and deletes, millions in all" examples/standard.json 1000000

# Ten times, an object with 60 below it, each read by 16 subjects, is deleted: by calls from C, and in plain Rust as a service, since a
# run ends with an audit, which is shorter after deletions by more than they take.
awk 'BEGIN {
  print "cell 0 1 write"
  for (k = 0; k < 10; k++) {
    print "parent", 2 + k, 1
    for (n = 0; n < 60; n++) {
      o = 12 + 60 * k + n
      print "parent", o, 2 + k
      for (s = 1; s <= 16; s++) print "cell", s, o, "read"
    }
  }
}' | start 612 >"$folder/start"
calling() { instructions "$folder/embed" "$folder/start" "$1" "$2"; }
serving() { instructions "$plain" serve --journal "$folder/journal" "$folder/start" <"$1"; }
{
  echo "s0 get-write o1"
  awk 'BEGIN { for (o = 12; o < 612; o++) for (s = 1; s <= 16; s++) print "s" s " get-read o" o }'
} >"$folder/ready"
{ cat "$folder/ready"; seq 2 11 | sed 's/^/s0 delete o/'; } >"$folder/both"
none=$(serving /dev/null) plain_gets=$(serving "$folder/ready") plain_both=$(serving "$folder/both")
[ "$(grep -cx yes "$folder/answers")" = 9611 ] || exit 1
if [ -n "${MLS_PROGRAM-}" ] && ! bin/built file library >/dev/null; then
  echo "delete of 61 objects with 960 accesses: plain Rust $(((plain_both - plain_gets) / 10)); the library for C isn't built"
else
  bin/build-c "$folder" && cc -O2 -I"$folder/include" bench/embed.c "$folder/lib/libmls.a" -o "$folder/embed" || exit 1
  gets=$(calling delete 0)
  row "delete of 61 objects with 960 accesses" "$(((plain_both - plain_gets) / 10))" "$((($(calling delete 10) - gets) / 10))"
  row "get that is new, of 9,601; plain Rust with its line and its entry" "$(((plain_gets - none) / 9601))" \
    "$(((gets - $(calling check 0)) / 9601))"
fi

# Bytes that a run still holds when its last answer is written, as valgrind tells of each allocation.
held() {
  valgrind --tool=massif --massif-out-file=/dev/null --trace-malloc=yes "$program" run --serial "$1" "$2" 2>&1 >"$folder/answers" | python3 -c '
import re, sys
now, held, size = 0, 0, {}
for line in sys.stdin:
    call = re.search(r"(malloc|calloc|realloc|memalign|free)\((.*?)\)(?: = (0x[0-9A-F]+))?", line)
    if not call:
        continue
    name, words, place = call.groups()
    numbers = [int(it) for it in re.findall(r"(?<![x0-9A-Fa-f])[0-9]+(?![x0-9A-Fa-f])", words)]
    if name in ("free", "realloc"):
        now -= size.pop(words.split(",")[0].strip(), 0)
    if name != "free":
        size[place] = numbers[0] * numbers[1] if name == "calloc" else numbers[-1]
        now += size[place]
        held = now
print(held)'
}

# The standard shapes: 256 subjects, and all object numbers.
: >"$folder/ready"
echo "cell 0 0 write" | start 1 >"$folder/start"
one=$(held "$folder/start" "$folder/ready")
echo "cell 0 0 write" | start 4096 >"$folder/start"
echo "4,095 objects more, of which nothing is held: $((($(held "$folder/start" "$folder/ready") - one) / 4095)) bytes each"
# Each of 256 subjects holds 60 objects; and, for as long a journal, one of them holds one.
awk 'BEGIN { for (s = 0; s < 256; s++) for (o = 1; o <= 60; o++) print "cell", s, o, "read" }' | start 4096 >"$folder/start"
awk 'BEGIN { for (s = 0; s < 256; s++) for (o = 1; o <= 60; o++) print "s0 get-read o1" }' >"$folder/ready"
few=$(held "$folder/start" "$folder/ready")
awk 'BEGIN { for (s = 0; s < 256; s++) for (o = 1; o <= 60; o++) print "s" s " get-read o" o }' >"$folder/ready"
echo "a subject that holds an object, of 15,360: $((($(held "$folder/start" "$folder/ready") - few) / 15359)) bytes"
