#!/usr/bin/env bash
# What marks spend, in instructions by callgrind: mls serve over 40,000 requests with marks and without, a line and a byte of the
# journal; the same without a line; and what SHA-256 takes a byte in C and by OpenSSL's libcrypto, where that is there, with only the
# instructions that every x86-64 has and with those that it picks.
set -u
cd "$(dirname -- "$0")/.." || exit 1
. bench/shared.sh
start=examples/standard.json
awk 'BEGIN {
  kinds = split("ann get-read plans,ann release read plans,bob get-read memo,bob get-execute tool,sec get-write root", kind, ",")
  seed = 1
  for (n = 0; n < 40000; n++) { seed = seed * 16807 % 2147483647; print kind[1 + seed % kinds] }
}' >"$folder/lines"
lines=$(wc -l <"$folder/lines")

# serving LINES [WORD ..]: instructions of a service that these are asked.
serving() {
  rm -f "$folder/journal" "$folder/marks"
  instructions "$program" serve --journal "$folder/journal" "${@:2}" "$start" <"$1"
}
without=$(serving "$folder/lines")
mv "$folder/calls" "$folder/before"
with=$(serving "$folder/lines" --marks "$folder/marks")
bytes=$(wc -c <"$folder/journal")
echo "$lines requests, a journal of $bytes bytes, $(($(wc -l <"$folder/marks") - 1)) marks"
echo "a line, with what the start takes: $(by "$without" "$lines"), with marks $(by "$with" "$lines")"
echo "marks, a byte of the journal: $(by $((with - without)) "$bytes")"
MLS_FUNCTIONS=${MLS_FUNCTIONS:-6} functions "$folder/before" "$bytes"

# digests WHAT COMMAND ..: instructions a byte of a program that digests so many.
digests() { echo "$1: $(by $(($(instructions "${@:2:1}" 655360 "${@:3}") - $(instructions "${@:2:1}" 65536 "${@:3}"))) 589824) a byte"; }
cc -O2 bench/sha256.c -o "$folder/scalar" && digests "SHA-256 in C" "$folder/scalar"
cc -O2 -mbmi -mbmi2 bench/sha256.c -o "$folder/bmi" && digests "the same with BMI2" "$folder/bmi"
if cc -O2 -DLIBRARY -Wno-deprecated-declarations bench/sha256.c -o "$folder/library" -lcrypto 2>/dev/null; then
  OPENSSL_ia32cap=0:0 digests "libcrypto, only what every x86-64 has" "$folder/library" library
  digests "libcrypto, with what this processor has" "$folder/library" library
fi
