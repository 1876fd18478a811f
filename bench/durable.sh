#!/usr/bin/env bash
# The cost of a service: processor time a line of mls serve and of mls run --serial with its journal; and by the clock,
# requests a second of mls serve, one at a time and with 1,000 in flight, beside SQLite's one-row transactions (WAL,
# synchronous=FULL) and a bare loop of write and fdatasync of the same bytes. All of it is on the disk of one folder.
#
#     bench/durable.sh [FOLDER]     a new folder below FOLDER, or below this checkout
set -u
export LC_ALL=C
below=$(realpath -- "${1:-$(dirname -- "$0")/..}") || exit 1
cd "$(dirname -- "$0")/.." || exit 1
bin/prove || exit 1
folder=$(mktemp -d -- "$below/durable.XXXXXX") || exit 1
trap 'rm -r "$folder"' EXIT
echo "disk: $(df --output=fstype,source -- "$folder" | tail -n 1)"
python3 bench/durable.py crates/mls/out/proved/mls examples/standard.json "$folder"
