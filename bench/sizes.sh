#!/usr/bin/env bash
# How much there is of each crate, and how much of it an auditor reads: the numbers that docs/PROOFS.md speaks of.
#
#     bench/sizes.sh [NAME ..]        these crates; without names all of crates.txt, and what PROOFS says of them
#
# Lines are counted with blank lines and imports; functions and clauses (lines that begin with ensures) in src/ without
# its tests. Laws are the public functions of mls_laws and of files theorems.rt: each states something and does nothing.
set -u
export LC_ALL=C
cd "$(dirname -- "$0")/../crates" || exit 1
# The crates whose definitions the promise for one thread needs, but for two files; of mls_facts it needs a part.
promise=(mls_facts mls_labels mls_tables mls_tree mls_state mls_start mls_requests mls_rules mls_monitor)

# The lines of all files of a folder, or of the code in it without its tests, that have a form.
count() { find "$1" -type f ! -path '*/tests*' -exec cat {} + 2>/dev/null | grep -cE "$2"; }

row() {
  local functions='^ *(pub(\([a-z]+\))? )?(const |unsafe |extern "C" )*fn '
  find "$1/src" -name '*.rt' -exec cat {} + | wc -l
  for folder in specs proofs; do count "$1/$folder" ''; done
  count "$1/src" "$functions"
  count "$1/src" '^ *ensures '
}

if [ $# -gt 0 ]; then names=("$@"); else mapfile -t names < <(sed -nE 's/^([a-z0-9_]+)\b.*:.*/\1/p' ../crates.txt); fi
for name in "${names[@]}"; do
  echo "$name" $(row "$name")
done | awk '
  function line(name) { printf "%-18s %7s %7s %7s %10s %8s\n", name, $2, $3, $4, $5, $6 }
  BEGIN { $0 = "- src specs proofs functions clauses"; line("crate") }
  { line($1); for (i = 2; i <= 6; i++) all[i] += $i }
  END { for (i = 2; i <= 6; i++) $i = all[i]; line("all") }'
[ $# = 0 ] || exit 0
needed=$(find "${promise[@]/%//specs}" -name '*.antt' ! -path '*mls_monitor/specs/Feeds.antt' \
  ! -path '*mls_monitor/specs/Entries.antt' -exec cat {} + | wc -l)
lines() { find ./*/"$1" -type f ! -path '*/tests*' -exec cat {} + | wc -l; }
echo "specs that the promise for one thread needs, with all of mls_facts: $needed lines of $(lines specs) in all"
echo "proofs, which need not be read: $(lines proofs) lines"
laws=$(find . -path '*/src/*' \( -path './mls_laws/*' -o -name theorems.rt \) -exec cat {} + | grep -cE '^ *pub (const )?fn ')
echo "laws: $laws"
echo "files with unsafe code: $(grep -rlE '\bunsafe *(\{|impl|fn)' --include='*.rt' */src | sort | tr '\n' ' ')"
