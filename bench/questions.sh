#!/usr/bin/env bash
# What questions cost: processor seconds and the most memory of each, the least of some runs, which alternate; over a long journal of
# the standard start and of one of 256 subjects, beside mls replay of it, and over a start file of just under 8,388,608 bytes of which
# sixteen subjects are trusted, beside mls check.
#
#     bench/questions.sh [ENTRIES]     1,000,000 where none is given
#
# It measures the proved program, or the one that MLS_PROGRAM names.
set -u
export LC_ALL=C
cd "$(dirname -- "$0")/.." || exit 1
[ -n "${MLS_PROGRAM-}" ] || bin/prove || exit 1
folder=$(mktemp -d) || exit 1
trap 'rm -r "$folder"' EXIT
bench/large-start 500000 >"$folder/large" || exit 1
bench/large-start 8388600 | sed -E '/"name": "s([0-9]|1[0-5])"/s/"trusted": false/"trusted": true/' >"$folder/largest" || exit 1
# Behind 100,000 cells two name an object that isn't there.
awk '/"modes"/ && ++cells > 100000 && cells <= 100002 { sub(/"o[0-9]+"/, "\"nobody\"") } { print }' "$folder/largest" >"$folder/faulty"
# bob may not read the memo.
grep -v '"subject": "bob", "object": "memo"' examples/standard.json >"$folder/otherwise"
python3 bench/questions.py "${MLS_PROGRAM:-crates/mls/out/proved/mls}" examples/standard.json "$folder" "${1:-1000000}"
echo "load: $(cut -d ' ' -f 1-3 /proc/loadavg)"
