/* Tests that a session sees what others did: four threads, of which one takes an access away and tells the number of its
 * entry, and the others see that many entries and check.
 *
 *     seeing START [ROUNDS]
 *
 * START is the standard start's file. Prints what fails, and last 'ok' where nothing did. */
#include "mls_shared.h"

#include <stdio.h>
#include <stdlib.h>

enum { ANN, BOB, SEC };
enum { ROOT, PLANS, MEMO, TOOL, MADE };
enum { OTHERS = 3 };

static int failed;

#define CHECK(x) \
    do { \
        if (!(x)) { \
            printf("line %d: %s\n", __LINE__, #x); \
            failed = 1; \
        } \
    } while (0)

static uint8_t start[1 << 16];
static size_t start_len;
static long rounds = 2000;
static int by_seeing;

static mls_session sessions[OTHERS + 1];
static long wrong[OTHERS];

/* How many entries the journal has with that of the last rescind; and how many of the others have checked since. */
static uint64_t told;
static int checked;

static uint64_t heard(void) { return __atomic_load_n(&told, __ATOMIC_ACQUIRE); }

/* What another session has seen of a journal of n entries: all, after it saw them; without, only what its own entry came
 * after. */
static int has_seen(mls_session *s, uint64_t n) {
    mls_request unknown = mls_request_of(MLS_GET, ANN, 4000, MLS_READ);
    mls_answer a;
    if (by_seeing) return mls_wait_see(s, n) == MLS_OK;
    return mls_wait_submit(s, &unknown, &a) == MLS_OK && a.number + 1 >= n;
}

static void *look(void *at) {
    mls_session *s = at;
    long *bad = &wrong[s - sessions - 1], n;
    uint64_t seen, last = 0;
    int held;
    for (n = 0; n < rounds; n++, last = seen) {
        while ((seen = heard()) == last) mls_pause(MLS_YIELDS);
        if (by_seeing) *bad += mls_wait_see(s, UINT64_MAX) != MLS_EAGAIN;
        *bad += !has_seen(s, seen);
        *bad += mls_wait_check(s, ANN, MADE, MLS_READ, &held) != MLS_OK || held;
        __atomic_add_fetch(&checked, 1, __ATOMIC_ACQ_REL);
    }
    return NULL;
}

/* One entry by session 0, which must be granted. It returns its number. */
static uint64_t grant(uint8_t action, uint16_t subject) {
    mls_request q = mls_request_of(action, subject, MADE, MLS_READ);
    mls_answer a = { 0, 0, 0 };
    q.other = ANN;
    CHECK(mls_wait_submit(&sessions[0], &q, &a) == MLS_OK && a.reply == MLS_YES);
    return a.number;
}

static void revoke(void) {
    long n;
    for (n = 0; n < rounds; n++) {
        uint64_t number;
        int held = 0;
        grant(MLS_GIVE, SEC);
        grant(MLS_GET, ANN);
        CHECK(mls_wait_check(&sessions[0], ANN, MADE, MLS_READ, &held) == MLS_OK && held);
        number = grant(MLS_RESCIND, SEC);
        __atomic_store_n(&checked, 0, __ATOMIC_RELEASE);
        __atomic_store_n(&told, number + 1, __ATOMIC_RELEASE);
        while (__atomic_load_n(&checked, __ATOMIC_ACQUIRE) < OTHERS) mls_pause(MLS_YIELDS);
    }
}

/* An open monitor in which the officer has an object below the root. */
static void prepare(mls_monitor *m) {
    mls_fault fault;
    mls_answer a;
    mls_label security = { 0, { 0, 0, 0, 0 } }, integrity = { 0, { 0, 0, 0, 0 } };
    CHECK(mls_open(m, start, start_len, &fault) == MLS_OK);
    CHECK(mls_read_label(m, MLS_SECURITY_LABEL, (const uint8_t *)"S:A", 3, &security) == MLS_OK);
    CHECK(mls_read_label(m, MLS_INTEGRITY_LABEL, (const uint8_t *)"hi", 2, &integrity) == MLS_OK);
    CHECK(mls_get(m, 99, SEC, ROOT, MLS_WRITE, &a) == MLS_OK && a.reply == MLS_YES);
    CHECK(mls_create(m, 99, SEC, ROOT, &security, &integrity, &a) == MLS_OK && a.object == MADE);
}

/* Sessions of one office meet, and no others. */
static void meet(void) {
    static mls_session strangers[1];
    mls_monitor m = MLS_INIT;
    mls_office office = MLS_OFFICE_INIT;
    int held;
    grant(MLS_GIVE, SEC);
    grant(MLS_GET, ANN);
    CHECK(mls_session_meet(&sessions[0], &sessions[1]) == MLS_OK);
    CHECK(mls_session_check(&sessions[1], ANN, MADE, MLS_READ, &held) == MLS_OK && held);
    CHECK(mls_session_meet(&sessions[1], &sessions[1]) == MLS_EINVAL);
    CHECK(mls_session_meet(&sessions[1], &strangers[0]) == MLS_ECLOSED && mls_session_see(&strangers[0], 0) == MLS_ECLOSED);
    prepare(&m);
    CHECK(mls_office_open(&office, &m, strangers, 1) == MLS_OK);
    CHECK(mls_session_meet(&sessions[1], &strangers[0]) == MLS_EINVAL);
    CHECK(mls_office_close(&office, strangers, &m) == MLS_OK);
    mls_close(&m);
}

static void run(int seeing) {
    mls_monitor m = MLS_INIT;
    mls_office office = MLS_OFFICE_INIT;
    pthread_t threads[OTHERS];
    int k;
    by_seeing = seeing;
    told = 0;
    prepare(&m);
    CHECK(mls_office_open(&office, &m, sessions, OTHERS + 1) == MLS_OK);
    for (k = 0; k < OTHERS; k++) {
        if (pthread_create(&threads[k], NULL, look, &sessions[k + 1])) exit(2);
    }
    revoke();
    for (k = 0; k < OTHERS; k++) {
        pthread_join(threads[k], NULL);
        CHECK(wrong[k] == 0);
    }
    meet();
    CHECK(mls_office_close(&office, sessions, &m) == MLS_OK);
    mls_close(&m);
}

int main(int argc, char **argv) {
    FILE *file = argc > 1 ? fopen(argv[1], "rb") : NULL;
    if (!file) return 2;
    start_len = fread(start, 1, sizeof start, file);
    fclose(file);
    if (argc > 2) rounds = atol(argv[2]);
    run(1);
    run(0);
    if (!failed) printf("ok\n");
    return failed;
}
