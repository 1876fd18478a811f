/* Four threads share one monitor as an office: each has the handle of a session of its own, and reads only what it holds.
 *
 *     threads START
 */
#include "mls_shared.h"

#include <stdio.h>

enum { THREADS = 4, READS = 1000 };

static uint16_t ann, plans;

/* Reads plans as ann: gets the access, asks before each read whether it is held still, and releases it. */
static void *reader(void *session) {
    mls_request get = mls_request_of(MLS_GET, ann, plans, MLS_READ), release = get;
    mls_answer answer;
    long n, reads = 0;
    int held;
    release.action = MLS_RELEASE;
    if (mls_wait_submit(session, &get, &answer) != MLS_OK || answer.reply != MLS_YES) return NULL;
    for (n = 0; n < READS; n++) {
        if (mls_wait_check(session, ann, plans, MLS_READ, &held) == MLS_OK && held) reads++;
    }
    if (mls_wait_submit(session, &release, &answer) != MLS_OK || reads > READS) return NULL;
    return session;
}

int main(int argc, char **argv) {
    static uint8_t start[1 << 16];
    FILE *file = argc > 1 ? fopen(argv[1], "rb") : NULL;
    size_t len = file ? fread(start, 1, sizeof start, file) : 0;
    mls_monitor monitor = MLS_INIT;
    mls_office office = MLS_OFFICE_INIT;
    mls_session sessions[THREADS] = { MLS_SESSION_INIT };
    pthread_t threads[THREADS];
    mls_fault fault;
    void *ended;
    int n, all = 0;
    if (mls_open(&monitor, start, len, &fault) != MLS_OK) return 2;
    /* names are asked for before the monitor goes into the office */
    if (mls_subject(&monitor, (const uint8_t *)"ann", 3, &ann) != MLS_OK) return 2;
    if (mls_object(&monitor, (const uint8_t *)"plans", 5, &plans) != MLS_OK) return 2;
    if (mls_office_open(&office, &monitor, sessions, THREADS) != MLS_OK) return 2;
    for (n = 0; n < THREADS; n++) {
        if (pthread_create(&threads[n], NULL, reader, &sessions[n])) return 2;
    }
    for (n = 0; n < THREADS; n++) {
        if (pthread_join(threads[n], &ended)) return 2;
        all += ended == &sessions[n];
    }
    /* the monitor comes back with the journal of all */
    if (mls_office_close(&office, sessions, &monitor) != MLS_OK) return 2;
    printf("threads %d entries %lu held %d\n", all, (unsigned long)mls_entries(&monitor),
           mls_check(&monitor, ann, plans, MLS_READ));
    mls_close(&monitor);
    return 0;
}
