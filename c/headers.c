/* Tests what the headers have beside the library: the calls of the eight actions and those that ask other calls, and a
 * handle that threads share.
 *
 *     headers START
 *
 * START is the standard start's file. Prints what fails, and last 'ok' where nothing did. */
#include "mls_shared.h"

#include <stdio.h>
#include <string.h>

enum { ANN, BOB, SEC };
enum { ROOT, PLANS, MEMO, MADE = 4 };
enum { THREADS = 8, ROUNDS = 2000 };

static int failed;

#define CHECK(x) \
    do { \
        if (!(x)) { \
            printf("line %d: %s\n", __LINE__, #x); \
            failed = 1; \
        } \
    } while (0)

static uint8_t start[1 << 16];
static size_t start_len;

static mls_label label(mls_monitor *m, int kind, const char *text) {
    mls_label l = { 0, { 0, 0, 0, 0 } };
    CHECK(mls_read_label(m, kind, (const uint8_t *)text, strlen(text), &l) == MLS_OK);
    return l;
}

/* The journal that the eight actions leave. */
static const char *const lines =
    "0 10 2 get-write 0 yes\n"
    "1 11 2 create 0 2:0 0 created 4\n"
    "2 12 2 give append 1 4 yes\n"
    "3 13 2 rescind append 1 4 yes\n"
    "4 14 2 relabel 4 2:0 yes\n"
    "5 15 2 delete 4 yes\n"
    "6 16 2 release write 0 yes\n"
    "7 17 1 level 1 yes\n";

static void actions(void) {
    mls_monitor m = MLS_INIT;
    mls_fault fault;
    mls_answer a;
    mls_label security, integrity;
    char text[1024];
    size_t len, all = 0;
    uint64_t n;
    CHECK(mls_get(&m, 0, SEC, ROOT, MLS_WRITE, &a) == MLS_ECLOSED);
    CHECK(mls_open(&m, start, start_len, &fault) == MLS_OK);
    security = label(&m, MLS_SECURITY_LABEL, "S:A");
    integrity = label(&m, MLS_INTEGRITY_LABEL, "lo");
    CHECK(mls_get(&m, 10, SEC, ROOT, MLS_WRITE, &a) == MLS_OK && a.number == 0 && a.reply == MLS_YES);
    CHECK(mls_create(&m, 11, SEC, ROOT, &security, &integrity, &a) == MLS_OK);
    CHECK(a.number == 1 && a.reply == MLS_CREATED && a.object == MADE);
    CHECK(mls_give(&m, 12, SEC, BOB, MADE, MLS_APPEND, &a) == MLS_OK);
    CHECK(mls_rescind(&m, 13, SEC, BOB, MADE, MLS_APPEND, &a) == MLS_OK);
    CHECK(mls_relabel(&m, 14, SEC, MADE, &security, &a) == MLS_OK);
    CHECK(mls_delete(&m, 15, SEC, MADE, &a) == MLS_OK);
    CHECK(mls_release(&m, 16, SEC, ROOT, MLS_WRITE, &a) == MLS_OK);
    security = label(&m, MLS_SECURITY_LABEL, "C");
    CHECK(mls_level(&m, 17, BOB, &security, &a) == MLS_OK && a.number == 7);
    CHECK(mls_get(&m, 0, ANN, PLANS, 4, &a) == MLS_EINVAL);
    for (n = 0; n < mls_entries(&m); n++) {
        CHECK(mls_entry_text(&m, n, text + all, sizeof text - all, &len) == MLS_OK);
        all += len;
    }
    CHECK(all == strlen(lines) && memcmp(text, lines, all) == 0);
    mls_close(&m);
}

/* The inline functions that ask a call of the library. */
static void questions(void) {
    mls_monitor m = MLS_INIT;
    mls_fault fault;
    mls_label security, integrity;
    CHECK(mls_is_active(&m, ROOT) == 0 && mls_child_after(&m, ROOT, 0) == 0);
    CHECK(mls_open(&m, start, start_len, &fault) == MLS_OK);
    security = label(&m, MLS_SECURITY_LABEL, "S:A");
    integrity = label(&m, MLS_INTEGRITY_LABEL, "hi");
    CHECK(mls_may(&m, ANN, MLS_READ, &security, &integrity) == 1);
    CHECK(mls_may(&m, BOB, MLS_READ, &security, &integrity) == 0);
    CHECK(mls_may(&m, ANN, 4, &security, &integrity) == 0 && mls_may(&m, 9, MLS_READ, &security, &integrity) == 0);
    CHECK(mls_is_active(&m, MEMO) == 1 && mls_is_active(&m, MADE) == 0);
    CHECK(mls_child_after(&m, ROOT, 0) == PLANS && mls_child_after(&m, ROOT, PLANS) == MEMO);
    CHECK(mls_child_after(&m, MEMO, 0) == 0);
    CHECK(mls_reason_of(MLS_DENIED + MLS_FULL) == MLS_FULL && mls_reason_of(MLS_CREATED) == 0);
    CHECK(mls_reason_of(MLS_DENIED) == 0);
    mls_close(&m);
    CHECK(mls_may(&m, ANN, MLS_READ, &security, &integrity) == 0);
}

static mls_shared shared = MLS_SHARED_INIT;

/* Whether other calls tell what can't be: ann holds plans in no mode but read, entries only become more, and nothing
 * else changes. */
static int is_wrong_told(uint64_t next) {
    mls_pair_info pair;
    mls_counts counts;
    if (mls_shared_read_pair(&shared, ANN, PLANS, &pair) != MLS_OK || (pair.held & ~MLS_READS)) return 1;
    if (mls_shared_count(&shared, &counts) != MLS_OK || counts.entries < next) return 1;
    return counts.subjects != 4 || counts.objects != 4 || counts.next != MADE;
}

/* Gets and releases in turn, as a session of its own: each answer has the next number that this session can have. */
static void *work(void *session) {
    mls_request q = mls_request_of(MLS_GET, ANN, PLANS, MLS_READ);
    mls_answer a;
    uint64_t next = 0;
    size_t wrong = 0;
    int n;
    for (n = 0; n < ROUNDS; n++) {
        q.action = (uint8_t)(n % 2 ? MLS_RELEASE : MLS_GET);
        wrong += mls_shared_submit(&shared, *(uint32_t *)session, &q, &a) != MLS_OK || a.number < next;
        next = a.number + 1;
        wrong += mls_shared_decide(&shared, &q, &a) != MLS_OK || a.number < next;
        wrong += (size_t)(mls_shared_check(&shared, ANN, PLANS, MLS_READ) & ~1);
        wrong += is_wrong_told(next);
    }
    return wrong ? session : NULL;
}

static void threads(void) {
    pthread_t running[THREADS];
    uint32_t sessions[THREADS] = { 0 };
    unsigned counts[THREADS] = { 0 };
    mls_fault fault;
    mls_journal_entry e;
    uint16_t ann;
    uint64_t n;
    void *wrong;
    int k;
    CHECK(mls_shared_open(&shared, start, start_len, &fault) == MLS_OK);
    CHECK(mls_shared_subject(&shared, (const uint8_t *)"ann", 3, &ann) == MLS_OK && ann == ANN);
    for (k = 0; k < THREADS; k++) {
        sessions[k] = (uint32_t)k;
        CHECK(pthread_create(&running[k], NULL, work, &sessions[k]) == 0);
    }
    for (k = 0; k < THREADS; k++) CHECK(pthread_join(running[k], &wrong) == 0 && wrong == NULL);
    CHECK(mls_shared_entries(&shared) == THREADS * ROUNDS);
    for (n = 0; n < THREADS * ROUNDS; n++) {
        CHECK(mls_shared_entry(&shared, n, &e) == MLS_OK && e.number == n && e.session < THREADS);
        counts[e.session]++;
    }
    for (k = 0; k < THREADS; k++) CHECK(counts[k] == ROUNDS);
    mls_shared_close(&shared);
    CHECK(mls_shared_entries(&shared) == 0 && mls_shared_check(&shared, ANN, PLANS, MLS_READ) == 0);
}

/* A handle that is made while the program runs: its other calls, and that it is opened, resumed and ended. */
static void made(void) {
    const char *kept = "0 5 0 get-read 1 yes\n";
    mls_shared s;
    mls_fault fault;
    mls_label l;
    char text[64];
    size_t len;
    uint16_t memo;
    CHECK(mls_shared_init(&s) == MLS_OK && mls_shared_entries(&s) == 0);
    CHECK(mls_shared_resume(&s, start, start_len, (const uint8_t *)kept, strlen(kept), &fault) == MLS_OK);
    CHECK(mls_shared_check(&s, ANN, PLANS, MLS_READ) == 1);
    CHECK(mls_shared_entry_text(&s, 0, text, sizeof text, &len) == MLS_OK);
    CHECK(len == strlen(kept) && memcmp(text, kept, len) == 0);
    CHECK(mls_shared_forget(&s, 1) == MLS_OK && mls_shared_forgotten(&s) == 1);
    CHECK(mls_shared_entry_text(&s, 0, text, sizeof text, &len) == MLS_ENOTFOUND && mls_shared_entries(&s) == 1);
    CHECK(mls_shared_object(&s, (const uint8_t *)"memo", 4, &memo) == MLS_OK && memo == MEMO);
    CHECK(mls_shared_read_label(&s, MLS_SECURITY_LABEL, (const uint8_t *)"S:A", 3, &l) == MLS_OK && l.level == 2);
    CHECK(mls_shared_write_label(&s, MLS_SECURITY_LABEL, &l, text, sizeof text, &len) == MLS_OK && len == 3);
    CHECK(mls_shared_open(&s, start, start_len, &fault) == MLS_EOPEN);
    mls_shared_destroy(&s);
}

/* The calls of a shared handle that tell what it holds: what each tells of an open handle, and of a closed one. */
static void readers(void) {
    mls_shared s = MLS_SHARED_INIT;
    mls_fault fault;
    mls_subject_info subject;
    mls_object_info object;
    mls_pair_info pair;
    mls_counts counts;
    char text[8];
    size_t len;
    uint16_t child;
    CHECK(mls_shared_open(&s, start, start_len, &fault) == MLS_OK);
    CHECK(mls_shared_read_subject(&s, BOB, &subject) == MLS_OK && subject.maximum.level == 1 && subject.trusted == 0);
    CHECK(mls_shared_read_subject(&s, 4, &subject) == MLS_ENOTFOUND);
    CHECK(mls_shared_read_object(&s, PLANS, &object) == MLS_OK && object.security.level == 2 && object.parent == ROOT);
    CHECK(mls_shared_read_object(&s, MADE, &object) == MLS_ENOTFOUND);
    CHECK(mls_shared_read_pair(&s, ANN, PLANS, &pair) == MLS_OK && pair.permitted == MLS_READS + MLS_WRITES);
    CHECK(pair.held == 0);
    CHECK(mls_shared_count(&s, &counts) == MLS_OK && counts.entries == 0 && counts.subjects == 4);
    CHECK(counts.objects == 4);
    CHECK(counts.next == MADE && mls_shared_next_child(&s, ROOT, PLANS, &child) == MLS_OK && child == MEMO);
    CHECK(mls_shared_next_child(&s, MEMO, 0, &child) == MLS_ENOTFOUND);
    CHECK(mls_shared_subject_name(&s, SEC, text, sizeof text, &len) == MLS_OK && len == 3);
    CHECK(memcmp(text, "sec", len) == 0);
    CHECK(mls_shared_object_name(&s, MEMO, text, sizeof text, &len) == MLS_OK && len == 4);
    CHECK(memcmp(text, "memo", len) == 0);
    CHECK(mls_shared_object_name(&s, MEMO, text, 3, &len) == MLS_ERANGE && len == 4);
    mls_shared_close(&s);
    CHECK(mls_shared_read_subject(&s, BOB, &subject) == MLS_ECLOSED);
    CHECK(mls_shared_read_object(&s, PLANS, &object) == MLS_ECLOSED);
    CHECK(mls_shared_read_pair(&s, ANN, PLANS, &pair) == MLS_ECLOSED && mls_shared_count(&s, &counts) == MLS_ECLOSED);
    CHECK(mls_shared_next_child(&s, ROOT, 0, &child) == MLS_ECLOSED);
    CHECK(mls_shared_subject_name(&s, SEC, text, sizeof text, &len) == MLS_ECLOSED);
    CHECK(mls_shared_object_name(&s, MEMO, text, sizeof text, &len) == MLS_ECLOSED);
    mls_shared_destroy(&s);
}

/* The calls of a shared handle that say what would be answered, and why. */
static void reasons(void) {
    mls_shared s = MLS_SHARED_INIT;
    mls_request get = mls_request_of(MLS_GET, BOB, MEMO, MLS_READ);
    mls_fault fault;
    mls_label security, integrity;
    mls_condition rows[MLS_CONDITIONS];
    mls_remedy remedy;
    size_t count;
    mls_labels batch[2];
    uint16_t reply, replies[2], numbers[MLS_OBJECTS];
    CHECK(mls_shared_open(&s, start, start_len, &fault) == MLS_OK);
    security = label(&s.monitor, MLS_SECURITY_LABEL, "C");
    integrity = label(&s.monitor, MLS_INTEGRITY_LABEL, "lo");
    CHECK(mls_shared_decide_label(&s, BOB, MLS_READ, &security, &integrity, &reply) == MLS_OK);
    CHECK(mls_reason_of(reply) == MLS_STAR);
    batch[0].security = security, batch[0].integrity = batch[1].integrity = integrity;
    batch[1].security = label(&s.monitor, MLS_SECURITY_LABEL, "U");
    CHECK(mls_shared_decide_labels(&s, BOB, MLS_READ, batch, 2, replies) == MLS_OK);
    CHECK(replies[0] == reply && replies[1] == MLS_YES);
    CHECK(mls_shared_explain(&s, &get, rows, MLS_CONDITIONS, &count, &remedy) == MLS_OK && count == 4);
    CHECK(rows[2].reason == MLS_STAR && rows[2].holds == 0 && rows[2].basis == MLS_BY_DOMINANCE);
    CHECK(remedy.there == 1 && mls_dominates(&remedy.label, &security) && mls_dominates(&security, &remedy.label));
    CHECK(mls_shared_explain(&s, &get, NULL, 0, &count, &remedy) == MLS_ERANGE && count == 4);
    CHECK(mls_shared_state_start(&s, NULL, 0, &count, numbers) == MLS_ERANGE && count > 100);
    mls_shared_close(&s);
    CHECK(mls_shared_state_start(&s, NULL, 0, &count, numbers) == MLS_ECLOSED);
    CHECK(mls_shared_decide_label(&s, BOB, MLS_READ, &security, &integrity, &reply) == MLS_ECLOSED);
    CHECK(mls_shared_decide_labels(&s, BOB, MLS_READ, batch, 2, replies) == MLS_ECLOSED && replies[1] == MLS_YES);
    CHECK(mls_shared_explain(&s, &get, rows, MLS_CONDITIONS, &count, &remedy) == MLS_ECLOSED);
    mls_shared_destroy(&s);
}

/* A shared handle that goes on from the text of another one's state. */
static void states(void) {
    mls_shared s = MLS_SHARED_INIT, on = MLS_SHARED_INIT;
    mls_request get = mls_request_of(MLS_GET, ANN, PLANS, MLS_READ);
    mls_answer a;
    mls_fault fault;
    static char text[4096], again[4096];
    size_t len, other;
    CHECK(mls_shared_state_text(&s, text, sizeof text, &len) == MLS_ECLOSED);
    CHECK(mls_shared_open(&s, start, start_len, &fault) == MLS_OK);
    CHECK(mls_shared_submit(&s, 5, &get, &a) == MLS_OK && a.number == 0 && a.reply == MLS_YES);
    CHECK(mls_shared_state_text(&s, NULL, 0, &len) == MLS_ERANGE && len > 100 && len < sizeof text);
    CHECK(mls_shared_state_text(&s, text, sizeof text, &len) == MLS_OK && memcmp(text, "profile 1\n", 10) == 0);
    CHECK(mls_shared_open_state(&on, start, start_len, NULL, 0, 1, &fault) == MLS_ESTATE && fault.kind == 1);
    CHECK(mls_shared_open_state(&on, start, start_len, (const uint8_t *)text, len, 1, &fault) == MLS_OK);
    CHECK(mls_shared_open_state(&on, start, start_len, (const uint8_t *)text, len, 1, &fault) == MLS_EOPEN);
    CHECK(mls_shared_entries(&on) == 1 && mls_shared_forgotten(&on) == 1 && mls_shared_check(&on, ANN, PLANS, MLS_READ) == 1);
    CHECK(mls_shared_state_text(&on, again, sizeof again, &other) == MLS_OK && other == len && memcmp(again, text, len) == 0);
    CHECK(mls_shared_submit(&on, 5, &get, &a) == MLS_OK && a.number == 1);
    mls_shared_destroy(&s);
    mls_shared_destroy(&on);
}

int main(int argc, char **argv) {
    FILE *file = argc == 2 ? fopen(argv[1], "rb") : NULL;
    if (!file) return 2;
    start_len = fread(start, 1, sizeof start, file);
    fclose(file);
    actions();
    questions();
    threads();
    made();
    readers();
    reasons();
    states();
    if (!failed) puts("ok");
    return failed;
}
