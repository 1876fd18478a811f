/* Tests that a batch is decided in one state: a thread changes bob's current label to and fro, and three others decide
 * batches of rows that he may read at one label and not at the other. All replies of a batch must be of one label.
 *
 *     batches START [ROUNDS]
 *
 * START is the standard start's file. Prints what fails, and last 'ok' where nothing did. */
#include "mls_shared.h"

#include <stdio.h>
#include <stdlib.h>

enum { ANN, BOB, SEC };
enum { READERS = 3, ROWS = 1000 };

static int failed;

#define CHECK(x) \
    do { \
        if (!(x)) { \
            printf("line %d: %s\n", __LINE__, #x); \
            failed = 1; \
        } \
    } while (0)

static uint8_t start[1 << 16];
static long rounds = 2000;
static int finished;

static mls_session sessions[READERS + 1];
static mls_labels rows[ROWS];

/* A thread that reads: its session, how many batches had which reply, and what went wrong. */
typedef struct {
    mls_session *session;
    long granted, denied, wrong;
} reader;

static int decide(mls_session *s, uint16_t *replies) {
    unsigned round = 0;
    int status;
    while ((status = mls_session_decide_labels(s, BOB, MLS_READ, rows, ROWS, replies)) == MLS_EBUSY) mls_pause(round++);
    return status;
}

static void *work(void *at) {
    reader *r = at;
    uint16_t replies[ROWS];
    int k;
    while (!__atomic_load_n(&finished, __ATOMIC_ACQUIRE)) {
        r->wrong += decide(r->session, replies) != MLS_OK;
        for (k = 1; k < ROWS; k++) r->wrong += replies[k] != replies[0];
        r->granted += replies[0] == MLS_YES;
        r->denied += replies[0] == MLS_DENIED + MLS_STAR;
    }
    return NULL;
}

/* Changes bob's label, and decides a batch by the session that did: it sees the new label. */
static void change(const mls_label *label, uint16_t wanted) {
    mls_request q = mls_request_of(MLS_SUBJECT_LEVEL, BOB, 0, 0);
    mls_answer a = {0, 0, 0};
    uint16_t replies[ROWS];
    int k;
    q.security = *label;
    CHECK(mls_wait_submit(&sessions[0], &q, &a) == MLS_OK && a.reply == MLS_YES);
    CHECK(decide(&sessions[0], replies) == MLS_OK);
    for (k = 0; k < ROWS; k++) CHECK(replies[k] == wanted);
}

int main(int argc, char **argv) {
    FILE *file = argc > 1 ? fopen(argv[1], "rb") : NULL;
    mls_label confidential = {1, {0, 0, 0, 0}}, unclassified = {0, {0, 0, 0, 0}};
    mls_monitor m = MLS_INIT;
    mls_office office = MLS_OFFICE_INIT;
    mls_fault fault;
    pthread_t threads[READERS];
    static reader readers[READERS];
    long n, granted = 0, denied = 0;
    if (!file || mls_open(&m, start, fread(start, 1, sizeof start, file), &fault)) return 2;
    fclose(file);
    if (argc > 2) rounds = atol(argv[2]);
    for (n = 0; n < ROWS; n++) rows[n].security = confidential, rows[n].integrity = unclassified;
    CHECK(mls_office_open(&office, &m, sessions, READERS + 1) == MLS_OK);
    for (n = 0; n < READERS; n++) {
        readers[n].session = &sessions[n + 1];
        if (pthread_create(&threads[n], NULL, work, &readers[n])) return 2;
    }
    for (n = 0; n < rounds; n++) {
        change(&confidential, MLS_YES);
        change(&unclassified, MLS_DENIED + MLS_STAR);
    }
    __atomic_store_n(&finished, 1, __ATOMIC_RELEASE);
    for (n = 0; n < READERS; n++) {
        pthread_join(threads[n], NULL);
        CHECK(readers[n].wrong == 0);
        granted += readers[n].granted, denied += readers[n].denied;
    }
    CHECK(granted > 0 && denied > 0);
    CHECK(mls_office_close(&office, sessions, &m) == MLS_OK && mls_entries(&m) == 2 * (uint64_t)rounds);
    mls_close(&m);
    if (!failed) printf("ok\n");
    return failed;
}
