#!/usr/bin/env bash
# What segments cost: processor time a line of mls serve --segment beside one without, its memory throughout, the first answer
# of a start over all of it, and --from-start beside mls replay. The least of some runs, which alternate.
#
#     bench/segments.sh [FOLDER]     a new folder below FOLDER, or below this checkout; SEGMENTS_REQUESTS says how many requests
#
# It measures the proved program, or the one that MLS_PROGRAM names.
set -u
export LC_ALL=C
below=$(realpath -- "${1:-$(dirname -- "$0")/..}") || exit 1
cd "$(dirname -- "$0")/.." || exit 1
[ -n "${MLS_PROGRAM-}" ] || bin/prove || exit 1
folder=$(mktemp -d -- "$below/segments.XXXXXX") || exit 1
trap 'rm -r "$folder"' EXIT
echo "disk: $(df --output=fstype,source -- "$folder" | tail -n 1); load: $(cut -d ' ' -f 1-3 /proc/loadavg)"
python3 bench/segments.py "${MLS_PROGRAM:-crates/mls/out/proved/mls}" examples/standard.json "$folder"
echo "load: $(cut -d ' ' -f 1-3 /proc/loadavg)"
