/* Nanoseconds that SELinux's security server, as the library libsepol, takes for a decision: `selinux POLICY COUNT`. A
 * subject at s2:c0 asks to read an object of that label, which the policy allows. */
#include <sepol/policydb/policydb.h>
#include <sepol/policydb/services.h>
#include <sepol/sepol.h>
#include <stdio.h>
#include <stdlib.h>
#include <string.h>
#include <time.h>

/* The class of files is the policy's second, and read its first permission. */
enum { FILES = 2, READ = 1 };

static sepol_security_id_t sid(const char *text) {
    sepol_security_id_t found;
    if (sepol_context_to_sid(text, strlen(text) + 1, &found)) exit(2);
    return found;
}

int main(int argc, char **argv) {
    FILE *file = argc == 3 ? fopen(argv[1], "rb") : NULL;
    struct sepol_av_decision decision;
    struct timespec begun, ended;
    sepol_security_id_t subject, object;
    long n, count, wrong = 0;
    if (!file || sepol_set_policydb_from_file(file)) return 2;
    count = atol(argv[2]);
    subject = sid("system_u:system_r:subject_t:s2:c0-s2:c0");
    object = sid("system_u:system_r:object_t:s2:c0");
    clock_gettime(CLOCK_MONOTONIC, &begun);
    for (n = 0; n < count; n++)
        wrong += sepol_compute_av(subject, object, FILES, READ, &decision) || !(decision.allowed & READ);
    clock_gettime(CLOCK_MONOTONIC, &ended);
    printf("%.0f\n", ((double)(ended.tv_sec - begun.tv_sec) * 1e9 + (double)(ended.tv_nsec - begun.tv_nsec)) / (double)count);
    return wrong != 0;
}
