#!/usr/bin/env bash
# What mlsd costs: requests a second and microseconds a request with 1 to 256 clients, one request in flight each,
# beside a bare loop of write and fdatasync of an entry's bytes and one client of a plain `mls serve`; processor time a
# line of mlsd and of its core, and the memory of mlsd. Every line has an entry. All of it is on the disk of one folder.
# The program is the proved one, or what MLS_PROGRAM names. It needs a C compiler and rustc.
#
#     bench/mlsd.sh [SECONDS [FOLDER]]     so many seconds a row, 3 where none are named; a new folder below FOLDER
set -u
export LC_ALL=C
seconds=${1:-3}
top=$(cd "$(dirname -- "$0")/.." && pwd) || exit 1
below=$(realpath -- "${2:-$top}") || exit 1
program=${MLS_PROGRAM:-$("$top/bin/built" file proved)}
start=$top/examples/standard.json
line='ann get-read plans'
entry_bytes=22
[ -x "$program" ] || { echo "bench/mlsd.sh: $program isn't there: prove it, or name one in MLS_PROGRAM" >&2; exit 1; }
folder=$(mktemp -d -- "$below/mlsd.XXXXXX") || exit 1
front=
trap '[ -z "$front" ] || { kill "$front"; wait "$front"; } 2>/dev/null; rm -r "$folder"' EXIT
cc -std=gnu11 -Wall -Wextra -Werror -O2 "$top/bench/front_clients.c" -o "$folder/clients" || exit 1
"$top/bin/build-mlsd" "$folder/mlsd" || exit 1
cd "$folder" || exit 1

echo "disk: $(df --output=fstype,source -- "$folder" | tail -n 1)"
echo "load: $(cut -d' ' -f1 /proc/loadavg) on $(nproc) processors"
echo "$(id -u) = * rate=0 clients=0" >users

# Processor time of a process and of what it started that is there, in clock ticks.
ticks() {
  local pid total=0
  for pid in "$1" $(cat "/proc/$1/task/$1/children"); do
    [ "$2" = all ] || [ "$pid" = "$1" ] || continue
    total=$((total + $(awk '{ sub(/.*\) /, ""); print $12 + $13 }' "/proc/$pid/stat")))
  done
  echo "$total"
}
row() { printf '%-34s %10s %10s %10s\n' "$@"; }

row '' requests/s 'median us' '99 % us'
read -r rate half most _ < <(./clients loop bare "$seconds" "$entry_bytes") || exit 1
row 'write and fdatasync' "$rate" "$half" "$most"
read -r rate half most _ < <(./clients pipe "$seconds" "$line" "$program" serve --journal plain "$start") || exit 1
row 'mls serve, one client' "$rate" "$half" "$most"
plain=$half

ulimit -n 4096 2>/dev/null
NOTIFY_SOCKET='' ./mlsd --socket socket --users users -- "$program" serve --sessions --names --journal journal "$start" &
front=$!
until [ -S socket ]; do kill -0 "$front" || exit 1; sleep 0.05; done
core_pid=$(cat "/proc/$front/task/$front/children")
core_pid=${core_pid%% *}
for clients in 1 4 16 64 256; do
  front_before=$(ticks "$front" own) core_before=$(ticks "$core_pid" all)
  read -r rate half most count < <(./clients socket socket "$clients" "$seconds" "$line") || exit 1
  row "mlsd, $clients clients" "$rate" "$half" "$most"
  spent=$(awk -v count="$count" -v hz="$(getconf CLK_TCK)" -v front=$(($(ticks "$front" own) - front_before)) \
    -v core=$(($(ticks "$core_pid" all) - core_before)) \
    'BEGIN { printf "mlsd %.1f us, core %.1f us", front / hz * 1e6 / count, core / hz * 1e6 / count }')
  echo "    processor time a line: $spent"
  case $clients in
    1) one=$rate; echo "    mlsd adds $((half - plain)) us to a request (60 are allowed)" ;;
    64) awk -v many="$rate" -v one="$one" 'BEGIN { printf "    %.1f times one client (15 are due)\n", many / one }' ;;
  esac
done
awk '/^VmHWM/ { print "memory of mlsd, at the most: " $2 " KiB (3 MB are asked for)" }' "/proc/$front/status"
