#!/usr/bin/env bash
# What marks and sessions cost: processor time a line of mls serve with --marks and with --sessions, beside one without; what a
# byte of the journal costs more with marks, which is SHA-256's share and more; and of mls run --serial with --journal beside
# one without, of three million entries. The least of some runs, which alternate. All files are on the disk of one folder.
#
#     bench/marks.sh [FOLDER]     a new folder below FOLDER, or below this checkout
#
# It measures the proved program, or the one that MLS_PROGRAM names; with MLS_BEFORE also another one of which the same is
# asked: what it is without marks beside what it was before.
set -u
export LC_ALL=C
below=$(realpath -- "${1:-$(dirname -- "$0")/..}") || exit 1
cd "$(dirname -- "$0")/.." || exit 1
[ -n "${MLS_PROGRAM-}" ] || bin/prove || exit 1
folder=$(mktemp -d -- "$below/marks.XXXXXX") || exit 1
trap 'rm -r "$folder"' EXIT
echo "disk: $(df --output=fstype,source -- "$folder" | tail -n 1); load: $(cut -d ' ' -f 1-3 /proc/loadavg)"
python3 bench/marks.py "${MLS_PROGRAM:-crates/mls/out/proved/mls}" examples/standard.json "$folder" "${MLS_BEFORE-}"
echo "load: $(cut -d ' ' -f 1-3 /proc/loadavg)"
