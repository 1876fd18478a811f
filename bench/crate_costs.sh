#!/usr/bin/env bash
# What the full check spends on each crate, in processor seconds, as a table:
#
#     bench/crate_costs.sh [NAME ..]        all of crates.txt where none is named
#
# proof is the crate from nothing, tests the same once more with its tests, and edits all its must-fail edits, each over what
# those before it proved. All is done with one job over libraries that are built, one crate after the other, so figures are
# calm where nothing else works on the machine. (rt must-fail loads the proofs of the libraries below, and the full check loads
# their statements alone: there the edits of upper crates are somewhat cheaper.) What checks kept in out/ is put back.
set -u
export LC_ALL=C
TIMEFORMAT='%U %S'
cd "$(dirname -- "$0")/.." || exit 1
room=$(mktemp -d) || exit 1
trap 'rm -r "$room"' EXIT

# Runs a command in a folder, and prints the processor seconds that it took. What it says is kept, and shown where it fails.
seconds() (
  cd "$1" || exit 1
  shift
  if ! { time "$@" >"$room/said" 2>&1; } 2>"$room/time"; then
    cat "$room/said" >&2
    exit 1
  fi
  awk '{ printf "%.0f\n", $1 + $2 }' "$room/time"
)

# Proves a crate from nothing, with or without its tests.
prove() {
  local folder=$1
  shift
  rm -rf "$folder/out/incremental"
  seconds "$folder" rt check --jobs 1 "$@"
}

# A count of the last line that a check wrote, as 8 of functions=8.
counted() { sed -n "s/^logic=proved.* $1=\([0-9]*\).*/\1/p" "$room/said"; }

# Measures a crate, and prints its row.
row() (
  name=$1 folder=crates/$1 tests=0 of_tests=0 edits=0 of_edits=0
  # (this builds the libraries below, and proves nothing of the crate)
  seconds "$folder" rt check --jobs 1 --only= >/dev/null || exit 1
  [ ! -d "$folder/out/incremental" ] || mv "$folder/out/incremental" "$folder/out/kept"
  trap 'rm -rf "$folder/out/incremental"; [ ! -d "$folder/out/kept" ] || mv "$folder/out/kept" "$folder/out/incremental"' EXIT
  of_proof=$(prove "$folder") || exit 1
  functions=$(counted functions)
  public=$(find "$folder/src" -name '*.rt' ! -path '*/tests*' -exec cat {} + | grep -cE '^ *pub (const |unsafe |extern "C" )*fn ')
  if grep -rq '#\[test\]' "$folder/src"; then
    of_tests=$(prove "$folder" --test) || exit 1
    tests=$(counted tests)
  fi
  if [ -d "$folder/must-fail" ]; then
    edits=$(find "$folder/must-fail" -name '*.edit' | wc -l)
    of_edits=$(seconds . rt must-fail "$name") || exit 1
  fi
  echo "$name $functions $public $tests $edits $of_proof $of_tests $of_edits"
)

# Makes rows of a table from rows of numbers, and a last one of their sums.
table() {
  awk 'function line(name, at) {
      sum = at[6] + at[7] + at[8]
      each = at[3] ? sprintf("%.1f", sum / at[3]) : "-"
      printf "| %s | %d | %d | %d | %d | %d | %d | %d | %d | %s |\n", name, at[2], at[3], at[4], at[5], at[6], at[7], at[8], sum, each
    }
    BEGIN {
      print "| Crate | functions | public | tests | edits | s of proof | s of tests | s of edits | s in all | s a public function |"
      print "|---|---|---|---|---|---|---|---|---|---|"
    }
    { for (i = 2; i <= 8; i++) { row[i] = $i; all[i] += $i } line("`" $1 "`", row); fflush() }
    END { if (NR > 1) line("all", all) }'
}

if [ $# -gt 0 ]; then names=("$@"); else mapfile -t names < <(sed -nE 's/^([a-z0-9_]+)\b.*:.*/\1/p' crates.txt); fi
for name in "${names[@]}"; do
  row "$name" || exit 1
done | table
exit "${PIPESTATUS[0]}"
