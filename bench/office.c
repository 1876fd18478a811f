/* Calls sessions of an office many times: `office START WHAT THREADS COUNT`, where WHAT is check, decide, denied, held (a
 * get of what is held already), granted (a get of what isn't, and its release, in turn), changes (the count of changes)
 * or rows (a batch of 16 labels, of which each row counts as a call). Each thread has a session and makes COUNT calls,
 * all from the same moment on. Prints nanoseconds by the clock for each call of all threads. */
#define _POSIX_C_SOURCE 200112L
#include "mls_shared.h"

#include <stdio.h>
#include <stdlib.h>
#include <string.h>
#include <time.h>

enum { THREADS = 64, ROWS = 16 };

static mls_session sessions[THREADS];
static pthread_barrier_t begin;
static const char *what;
static long count;

static double now(void) {
    struct timespec t;
    clock_gettime(CLOCK_MONOTONIC, &t);
    return (double)t.tv_sec * 1e9 + (double)t.tv_nsec;
}

static void *work(void *session) {
    mls_session *s = session;
    mls_request get = mls_request_of(MLS_GET, 0, 1, MLS_READ), release = get, denied = get;
    mls_answer a;
    unsigned long sum = 0;
    uint64_t changes;
    mls_labels rows[ROWS];
    uint16_t replies[ROWS];
    int held;
    long n;
    memset(rows, 0, sizeof rows);
    for (n = 0; n < ROWS; n++) rows[n].security.level = (uint8_t)(n & 3);
    release.action = MLS_RELEASE;
    denied.subject = 1;
    pthread_barrier_wait(&begin);
    if (!strcmp(what, "check"))
        for (n = 0; n < count; n++)
            sum += mls_wait_check(s, n & 3, n >> 2 & 3, MLS_READ, &held) == MLS_OK && held;
    else if (!strcmp(what, "decide"))
        for (n = 0; n < count; n++) sum += (unsigned)mls_wait_decide(s, &get, &a);
    else if (!strcmp(what, "changes"))
        for (n = 0; n < count; n++) sum += mls_session_changes(s, &changes) == MLS_OK && changes;
    else if (!strcmp(what, "rows"))
        for (n = 0; n < count; n += ROWS) {
            unsigned round = 0;
            while (mls_session_decide_labels(s, 0, MLS_READ, rows, ROWS, replies) == MLS_EBUSY) mls_pause(round++);
            sum += replies[n & (ROWS - 1)];
        }
    else if (!strcmp(what, "denied"))
        for (n = 0; n < count; n++) sum += (unsigned)mls_wait_submit(s, &denied, &a);
    else if (!strcmp(what, "held"))
        for (n = 0; n < count; n++) sum += (unsigned)mls_wait_submit(s, &get, &a);
    else
        for (n = 0; n < count; n++) sum += (unsigned)mls_wait_submit(s, n & 1 ? &release : &get, &a);
    return sum == 12345678901u ? session : NULL;
}

int main(int argc, char **argv) {
    static uint8_t start[1 << 21];
    mls_monitor m = MLS_INIT;
    mls_office office = MLS_OFFICE_INIT;
    mls_fault fault;
    pthread_t threads[THREADS];
    FILE *file = argc == 5 ? fopen(argv[1], "rb") : NULL;
    int n, all = argc == 5 ? atoi(argv[3]) : 0;
    double begun;
    if (!file || all < 1 || all > THREADS) return 2;
    if (mls_open(&m, start, fread(start, 1, sizeof start, file), &fault)) return 2;
    fclose(file);
    what = argv[2];
    count = atol(argv[4]);
    if (mls_office_open(&office, &m, sessions, (uint16_t)all)) return 2;
    pthread_barrier_init(&begin, NULL, (unsigned)all + 1);
    for (n = 0; n < all; n++) {
        if (pthread_create(&threads[n], NULL, work, &sessions[n])) return 2;
    }
    pthread_barrier_wait(&begin);
    begun = now();
    for (n = 0; n < all; n++) pthread_join(threads[n], NULL);
    printf("%.2f\n", (now() - begun) / (double)count / all);
    if (mls_office_close(&office, sessions, &m)) return 2;
    mls_close(&m);
    return 0;
}
