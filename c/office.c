/* Tests an office: eight threads, each with the handle of a session of its own, ask side by side. Then one of them gives
 * and rescinds, and the others keep a yes in a cache by the count of changes.
 *
 *     office START [ROUNDS]
 *
 * START is the standard start's file. Prints what fails, and last 'ok' where nothing did. */
#include "mls_shared.h"

#include <stdio.h>
#include <stdlib.h>
#include <string.h>

enum { ANN, BOB, SEC };
enum { ROOT, PLANS, MEMO, TOOL, MADE };
enum { THREADS = 8, BEFORE = 1 + 2 * THREADS };

static int failed;

#define CHECK(x) \
    do { \
        if (!(x)) { \
            printf("line %d: %s\n", __LINE__, #x); \
            failed = 1; \
        } \
    } while (0)

static uint8_t start[1 << 16];
static size_t start_len;
static long rounds = 2000;

/* A thread: its session, the object that it alone gets and releases, the numbers of its entries, and what went wrong. */
typedef struct {
    mls_session *session;
    uint16_t object;
    uint64_t *numbers;
    long wrong;
} worker;

static mls_session sessions[THREADS];

/* Whether what isn't yet held, or is held, is told so, also by what would be answered to a get that names no object. */
static long is_wrong_told(const worker *w, int held) {
    mls_request unknown = mls_request_of(MLS_GET, ANN, 4000, MLS_READ);
    mls_answer a;
    int told = 7;
    long wrong = mls_wait_check(w->session, ANN, w->object, MLS_READ, &told) != MLS_OK || told != held;
    wrong += mls_wait_check(w->session, ANN, w->object, MLS_WRITE, &told) != MLS_OK || told != 0;
    wrong += mls_wait_check(w->session, ANN, w->object, 4, &told) != MLS_EINVAL || told != 0;
    wrong += mls_wait_decide(w->session, &unknown, &a) != MLS_OK || a.reply != MLS_UNDEFINED;
    return wrong;
}

/* Gets and releases its object in turn. */
static void *work(void *at) {
    worker *w = at;
    mls_request q = mls_request_of(MLS_GET, ANN, w->object, MLS_READ);
    mls_answer a;
    int held;
    long n;
    for (n = 0; n < rounds; n++) {
        q.action = (uint8_t)(n % 2 ? MLS_RELEASE : MLS_GET);
        w->wrong += mls_wait_submit(w->session, &q, &a) != MLS_OK || a.reply != MLS_YES;
        w->numbers[n] = a.number;
        w->wrong += n && a.number <= w->numbers[n - 1];
        w->wrong += is_wrong_told(w, n % 2 == 0);
        /* (what another thread does with its object may be so or so) */
        w->wrong += mls_wait_check(w->session, ANN, MADE + (uint16_t)(n % THREADS), MLS_READ, &held) != MLS_OK;
    }
    return NULL;
}

/* What the first thread is at: odd from when a rescission was answered until the next permission is asked for. */
static uint64_t step;

static uint64_t step_now(void) { return __atomic_load_n(&step, __ATOMIC_SEQ_CST); }

static void step_to(uint64_t next) { __atomic_store_n(&step, next, __ATOMIC_SEQ_CST); }

/* A yes, with the count of changes that was read before it. */
typedef struct {
    uint64_t count;
    int is_yes;
} cached;

/* Answers whether ann reads the first object: by the cache while the count is as before, else by a check. */
static long ask_cache(mls_session *s, cached *kept, int *held) {
    uint64_t count = 0;
    long wrong = mls_session_changes(s, &count) != MLS_OK || count < kept->count;
    if (kept->is_yes && count == kept->count) {
        *held = 1;
        return wrong;
    }
    wrong += mls_wait_check(s, ANN, MADE, MLS_READ, held) != MLS_OK;
    kept->count = count;
    kept->is_yes = *held;
    return wrong;
}

/* Asks its cache until the last rescission. A yes is stale if it was asked for, and told, after a rescission. */
static void *ask_on(void *at) {
    worker *w = at;
    cached kept = { 0, 0 };
    uint64_t before, last = 2 * (uint64_t)rounds + 1;
    int held;
    do {
        before = step_now();
        w->wrong += ask_cache(w->session, &kept, &held);
        w->wrong += held && before % 2 && before == step_now();
    } while (before != last);
    w->wrong += kept.count != (uint64_t)rounds || held;
    return NULL;
}

static long is_not_granted(mls_session *s, uint8_t action, uint16_t subject) {
    mls_request q = mls_request_of(action, subject, MADE, MLS_READ);
    mls_answer a;
    q.other = ANN;
    return mls_wait_submit(s, &q, &a) != MLS_OK || a.reply != MLS_YES;
}

/* Permits ann to read the first object, which she then does, and rescinds both; each rescission is one change. */
static void *give_and_rescind(void *at) {
    worker *w = at;
    uint64_t n, count = 0;
    for (n = 0; n < (uint64_t)rounds; n++) {
        step_to(2 * n + 2);
        w->wrong += is_not_granted(w->session, MLS_GIVE, SEC) + is_not_granted(w->session, MLS_GET, ANN);
        w->wrong += mls_session_changes(w->session, &count) != MLS_OK || count != n;
        w->wrong += is_not_granted(w->session, MLS_RESCIND, SEC);
        w->wrong += mls_session_changes(w->session, &count) != MLS_OK || count != n + 1;
        step_to(2 * n + 3);
    }
    return NULL;
}

/* The first thread copies out what the others add and forgets it, as a store does; the others get and release. */
static void *copy_and_forget(void *at) {
    static char lines[1 << 12];
    worker *w = at;
    uint64_t next = 0, all = (uint64_t)(THREADS - 1) * (uint64_t)rounds + w->numbers[0], n;
    size_t len;
    for (n = w->numbers[0]; n < all; n = next) {
        w->wrong += mls_wait_entry_text(w->session, n, lines, sizeof lines, &len, &next) != MLS_OK || next < n;
        w->wrong += mls_wait_forget(w->session, next) != MLS_OK;
        /* (what was forgotten before stays so, and what isn't is there) */
        w->wrong += mls_wait_forget(w->session, n) != MLS_OK;
        if (next > 0) w->wrong += mls_wait_entry_text(w->session, next - 1, lines, sizeof lines, &len, &n) != MLS_ENOTFOUND;
        w->wrong += mls_wait_entry_text(w->session, next, lines, sizeof lines, &len, &n) != MLS_OK;
    }
    w->numbers[0] = next;
    return NULL;
}

/* Entries are forgotten while other threads ask, and the monitor comes back without them. */
static void forgets(mls_monitor *m, worker *workers) {
    mls_office office = MLS_OFFICE_INIT;
    pthread_t threads[THREADS];
    uint64_t before = mls_entries(m), all = before + (uint64_t)((THREADS - 1) * rounds);
    static char lines[1 << 12];
    mls_journal_entry e;
    uint64_t next = 7;
    size_t len = 7;
    int k;
    CHECK(mls_forget(m, 3) == MLS_OK && mls_forgotten(m) == 3);
    CHECK(mls_office_open(&office, m, sessions, THREADS) == MLS_OK);
    CHECK(mls_wait_entry_text(&sessions[1], 2, lines, sizeof lines, &len, &next) == MLS_ENOTFOUND && next == 7);
    CHECK(mls_wait_entry_text(&sessions[1], 3, lines, sizeof lines, &len, &next) == MLS_OK && next > 3);
    workers[0].numbers[0] = before;
    for (k = 0; k < THREADS; k++) {
        if (pthread_create(&threads[k], NULL, k ? work : copy_and_forget, &workers[k])) exit(2);
    }
    for (k = 0; k < THREADS; k++) {
        pthread_join(threads[k], NULL);
        CHECK(workers[k].wrong == 0);
    }
    /* no session finds them, and no entry that isn't there is forgotten */
    CHECK(workers[0].numbers[0] == all);
    CHECK(mls_wait_entry_text(&sessions[1], all - 1, lines, sizeof lines, &len, &next) == MLS_ENOTFOUND);
    CHECK(mls_wait_entry_text(&sessions[1], all, lines, sizeof lines, &len, &next) == MLS_OK && len == 0 && next == all);
    CHECK(mls_session_forget(&sessions[2], UINT64_MAX) == MLS_OK);
    CHECK(mls_wait_entry_text(&sessions[1], all, lines, sizeof lines, &len, &next) == MLS_OK && len == 0 && next == all);
    CHECK(mls_office_close(&office, sessions, m) == MLS_OK);
    CHECK(mls_session_forget(&sessions[2], 1) == MLS_ECLOSED);
    CHECK(mls_entries(m) == all && mls_forgotten(m) == all && mls_entry(m, all - 1, &e) == MLS_ENOTFOUND);
}

/* The first thread takes away what the others have in their caches. */
static void has_caches(mls_monitor *m, worker *workers) {
    mls_office office = MLS_OFFICE_INIT;
    pthread_t threads[THREADS];
    uint64_t count = 7;
    int k;
    CHECK(mls_office_open(&office, m, sessions, THREADS) == MLS_OK);
    for (k = 0; k < THREADS; k++) {
        if (pthread_create(&threads[k], NULL, k ? ask_on : give_and_rescind, &workers[k])) exit(2);
    }
    for (k = 0; k < THREADS; k++) {
        pthread_join(threads[k], NULL);
        CHECK(workers[k].wrong == 0);
    }
    CHECK(mls_office_close(&office, sessions, m) == MLS_OK);
    CHECK(mls_session_changes(&sessions[0], &count) == MLS_ECLOSED && count == 7);
}

/* An open monitor in which ann may read an object for each thread. */
static void prepare(mls_monitor *m) {
    mls_fault fault;
    mls_answer a;
    mls_label security = { 0, { 0, 0, 0, 0 } }, integrity = { 0, { 0, 0, 0, 0 } };
    uint16_t n;
    CHECK(mls_open(m, start, start_len, &fault) == MLS_OK);
    CHECK(mls_read_label(m, MLS_SECURITY_LABEL, (const uint8_t *)"S:A", 3, &security) == MLS_OK);
    CHECK(mls_read_label(m, MLS_INTEGRITY_LABEL, (const uint8_t *)"hi", 2, &integrity) == MLS_OK);
    CHECK(mls_get(m, 99, SEC, ROOT, MLS_WRITE, &a) == MLS_OK && a.reply == MLS_YES);
    for (n = 0; n < THREADS; n++) {
        CHECK(mls_create(m, 99, SEC, ROOT, &security, &integrity, &a) == MLS_OK && a.object == MADE + n);
        CHECK(mls_give(m, 99, SEC, ANN, MADE + n, MLS_READ, &a) == MLS_OK && a.reply == MLS_YES);
    }
}

/* The journal has what was there before, and each thread's entries, each once and in order. */
static void has_all(mls_monitor *m, const worker *workers) {
    mls_journal_entry e;
    uint64_t n;
    long done[THREADS] = { 0 };
    int k;
    CHECK(mls_entries(m) == BEFORE + (uint64_t)(THREADS * rounds));
    for (n = 0; n < mls_entries(m); n++) {
        CHECK(mls_entry(m, n, &e) == MLS_OK && e.number == n);
        if (n < BEFORE) {
            CHECK(e.session == 99);
            continue;
        }
        k = (int)e.session;
        CHECK(k < THREADS && done[k] < rounds && workers[k].numbers[done[k]] == n && e.reply == MLS_YES);
        CHECK(e.request.action == (done[k] % 2 ? MLS_RELEASE : MLS_GET) && e.request.object == workers[k].object);
        done[k]++;
    }
    for (k = 0; k < THREADS; k++) CHECK(mls_check(m, ANN, workers[k].object, MLS_READ) == rounds % 2);
}

int main(int argc, char **argv) {
    FILE *file = argc > 1 ? fopen(argv[1], "rb") : NULL;
    mls_monitor m = MLS_INIT;
    mls_office office = MLS_OFFICE_INIT;
    pthread_t threads[THREADS];
    worker workers[THREADS];
    uint64_t count = 0;
    int k;
    if (!file) return 2;
    start_len = fread(start, 1, sizeof start, file);
    fclose(file);
    if (argc > 2) rounds = atol(argv[2]);
    prepare(&m);
    CHECK(mls_office_open(&office, &m, sessions, THREADS) == MLS_OK && !m.held);
    for (k = 0; k < THREADS; k++) {
        workers[k].session = &sessions[k];
        workers[k].object = (uint16_t)(MADE + k);
        workers[k].numbers = malloc((size_t)rounds * sizeof(uint64_t));
        workers[k].wrong = 0;
        if (!workers[k].numbers || pthread_create(&threads[k], NULL, work, &workers[k])) return 2;
    }
    for (k = 0; k < THREADS; k++) {
        pthread_join(threads[k], NULL);
        CHECK(workers[k].wrong == 0);
        /* (each thread's releases are changes, and its gets are none) */
        CHECK(mls_session_changes(&sessions[k], &count) == MLS_OK);
    }
    CHECK(count == (uint64_t)(THREADS * (rounds / 2)));
    CHECK(mls_office_close(&office, sessions, &m) == MLS_OK && m.held);
    has_all(&m, workers);
    has_caches(&m, workers);
    forgets(&m, workers);
    for (k = 0; k < THREADS; k++) free(workers[k].numbers);
    mls_close(&m);
    if (!failed) printf("ok\n");
    return failed;
}
