#!/usr/bin/env bash
# What a decision of SELinux's security server costs, as the library libsepol: nanoseconds, the least of nine runs, and
# instructions (by callgrind, the difference of two counts). The policy has four levels, two categories, and the
# conditions of simple security and star as constraints. It needs Debian's libsepol-dev and checkpolicy.
#
# sepol_compute_av also writes the texts of its reasons, which takes most of the time. The server in the kernel does not,
# and keeps answers in a cache; neither is measured here.
set -eu
cd "$(dirname -- "$0")"
folder=$(mktemp -d)
trap 'rm -r "$folder"' EXIT
cat >"$folder/policy.conf" <<'END'
class process
class file
sid kernel
class process { transition }
class file { read append write execute }
sensitivity s0;
sensitivity s1;
sensitivity s2;
sensitivity s3;
dominance { s0 s1 s2 s3 }
category c0;
category c1;
level s0:c0.c1;
level s1:c0.c1;
level s2:c0.c1;
level s3:c0.c1;
mlsconstrain file { read write execute } (( h1 dom l2 ) and ( l1 dom l2 ));
mlsconstrain file { write append } ( l1 domby l2 );
type subject_t;
type object_t;
role system_r;
role system_r types { subject_t object_t };
allow subject_t object_t : file { read append write execute };
user system_u roles { system_r } level s0 range s0 - s3:c0.c1;
sid kernel system_u:system_r:subject_t:s0 - s3:c0.c1
END
checkpolicy -M -o "$folder/policy" "$folder/policy.conf"
cc -O2 selinux.c "$(cc -print-file-name=libsepol.a)" -o "$folder/selinux"

instructions() {
  valgrind --tool=callgrind --callgrind-out-file=/dev/null "$folder/selinux" "$folder/policy" "$1" 2>&1 >/dev/null |
    awk '/ Collected : / { print $4 }'
}

each="?"
if command -v valgrind >/dev/null; then each=$((($(instructions 2000) - $(instructions 1000)) / 1000)); fi
least=$(for _ in 1 2 3 4 5 6 7 8 9; do "$folder/selinux" "$folder/policy" 100000; done | sort -n | head -n 1)
echo "sepol_compute_av: $least nanoseconds, $each instructions"
