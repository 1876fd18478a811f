/* Tests the library from C: each call and each status, a handle closed twice and used after, each allocation refused in turn,
 * many submits, the text of a journal, a journal that is resumed, and a state from which a handle goes on.
 *
 *     test START [SUBMITS]
 *
 * START is the standard start's file, in the folder of the other examples. The program is linked with malloc, realloc and
 * free wrapped (-Wl,--wrap=malloc and so on). Prints a line for each test, and last 'N passed, M failed'. */
#include "mls.h"

#include <stdio.h>
#include <stdlib.h>
#include <string.h>

static int passed, failed;
static int broken;

#define CHECK(x) \
    do { \
        if (!(x)) { \
            printf("line %d: %s\n", __LINE__, #x); \
            broken++; \
        } \
    } while (0)

static void tell(const char *name, void (*test)(void)) {
    broken = 0;
    test();
    printf("%s: %s\n", name, broken ? "failed" : "passed");
    *(broken ? &failed : &passed) += 1;
}

/* The allocations that are left until they fail, below 0 for no end of them, and the blocks that are in use. */
static long left = -1;
static long live;

void *__real_malloc(size_t size);
void *__real_realloc(void *at, size_t size);
void __real_free(void *at);

/* What is done, once, where memory is asked for the next time. */
static void (*meanwhile)(void);

static int refused(void) {
    void (*deed)(void) = meanwhile;
    meanwhile = NULL;
    if (deed) deed();
    if (left == 0) return 1;
    if (left > 0) left--;
    return 0;
}

void *__wrap_malloc(size_t size) {
    void *at = refused() ? NULL : __real_malloc(size);
    live += at != NULL;
    return at;
}

void *__wrap_realloc(void *at, size_t size) {
    void *to;
    if (refused()) return NULL;
    to = __real_realloc(at, size);
    live += to && !at;
    return to;
}

void __wrap_free(void *at) {
    live -= at != NULL;
    __real_free(at);
}

enum { ANN, BOB, SEC, AUD };
enum { ROOT, PLANS, MEMO, TOOL };

static uint8_t start[1 << 16];
static size_t start_len;
static uint16_t numbers[MLS_OBJECTS];
static long submits = 1000000;

static const mls_answer_t no_answer = {77, 88, 99};
static const mls_fault_t no_fault = {55, 66, 77};

static int same_answer(const mls_answer_t *a, const mls_answer_t *b) {
    return a->number == b->number && a->reply == b->reply && a->object == b->object;
}

static int same_fault(const mls_fault_t *a, const mls_fault_t *b) {
    return a->kind == b->kind && a->number == b->number && a->place == b->place;
}

static mls_request_t request(uint8_t action, uint16_t subject, uint8_t mode, uint16_t object) {
    mls_request_t q;
    memset(&q, 0, sizeof q);
    q.action = action;
    q.subject = subject;
    q.mode = mode;
    q.object = object;
    return q;
}

/* Submits a request that is answered, and returns the reply. */
static int asked(mls_t *m, mls_request_t q) {
    mls_answer_t a = no_answer;
    uint64_t before = mls_entries(m);
    CHECK(mls_submit(m, 5, &q, &a) == MLS_OK);
    CHECK(a.number == before && mls_entries(m) == before + 1);
    return a.reply;
}

static void open_standard(mls_t *m) {
    mls_fault_t f = no_fault;
    CHECK(mls_open(m, start, start_len, &f) == MLS_OK);
    CHECK(m->held == 1 && m->monitor && same_fault(&f, &no_fault));
}

/* Each call at a closed handle. */
static void is_closed(mls_t *m) {
    mls_request_t q = request(MLS_GET, ANN, MLS_READ, PLANS), bad = request(9, 0, 0, 0);
    mls_answer_t a = no_answer;
    mls_entry_t e;
    mls_label_t l = {0, {0}};
    mls_subject_info s = {{0, {0}}, {0, {0}}, {0, {0}}, 7};
    mls_object_info o = {{0, {0}}, {0, {0}}, 7};
    mls_pair_info p = {7, 7};
    mls_counts c = {7, 7, 7, 7};
    mls_condition rows[MLS_CONDITIONS];
    mls_remedy r = {7, {0, {0}}};
    mls_labels row = {{0, {0}}, {0, {0}}};
    uint16_t n = 7;
    size_t len = 7;
    char buf[8] = "abcdefg";
    rows[0].reason = 7;
    numbers[0] = 7;
    CHECK(m->held == 0 && m->monitor == NULL);
    CHECK(mls_check(m, ANN, PLANS, MLS_READ) == 0);
    CHECK(mls_submit(m, 0, &q, &a) == MLS_ECLOSED && mls_submit(m, 0, &bad, &a) == MLS_ECLOSED);
    CHECK(mls_decide(m, &q, &a) == MLS_ECLOSED && mls_decide(m, &bad, &a) == MLS_ECLOSED);
    CHECK(same_answer(&a, &no_answer));
    CHECK(mls_entries(m) == 0 && mls_entry(m, 0, &e) == MLS_ECLOSED);
    CHECK(mls_forget(m, 1) == MLS_ECLOSED && mls_forgotten(m) == 0);
    CHECK(mls_entry_text(m, 0, buf, sizeof buf, &len) == MLS_ECLOSED);
    CHECK(mls_subject(m, (const uint8_t *)"ann", 3, &n) == MLS_ECLOSED && mls_object(m, (const uint8_t *)"memo", 4, &n) == MLS_ECLOSED);
    CHECK(mls_read_label(m, MLS_SECURITY_LABEL, (const uint8_t *)"S", 1, &l) == MLS_ECLOSED);
    CHECK(mls_write_label(m, MLS_SECURITY_LABEL, &l, buf, sizeof buf, &len) == MLS_ECLOSED);
    CHECK(mls_decide_label(m, ANN, MLS_READ, &l, &l, &n) == MLS_ECLOSED && mls_decide_label(m, ANN, 4, &l, &l, &n) == MLS_ECLOSED);
    CHECK(mls_decide_labels(m, ANN, MLS_READ, &row, 1, &n) == MLS_ECLOSED && mls_decide_labels(m, ANN, 4, NULL, 0, NULL) == MLS_ECLOSED);
    CHECK(mls_read_subject(m, ANN, &s) == MLS_ECLOSED && mls_read_object(m, PLANS, &o) == MLS_ECLOSED);
    CHECK(mls_read_pair(m, ANN, PLANS, &p) == MLS_ECLOSED && mls_count(m, &c) == MLS_ECLOSED);
    CHECK(s.trusted == 7 && o.parent == 7 && p.permitted == 7 && p.held == 7 && c.entries == 7 && c.objects == 7);
    CHECK(mls_next_child(m, ROOT, 0, &n) == MLS_ECLOSED);
    CHECK(mls_subject_name(m, ANN, buf, sizeof buf, &len) == MLS_ECLOSED && mls_object_name(m, PLANS, buf, sizeof buf, &len) == MLS_ECLOSED);
    CHECK(mls_explain(m, &q, rows, MLS_CONDITIONS, &len, &r) == MLS_ECLOSED && mls_explain(m, &bad, NULL, 0, &len, &r) == MLS_ECLOSED);
    CHECK(mls_state_start(m, buf, sizeof buf, &len, numbers) == MLS_ECLOSED && mls_state_start(m, NULL, 0, &len, numbers) == MLS_ECLOSED);
    CHECK(mls_state_text(m, buf, sizeof buf, &len) == MLS_ECLOSED && mls_state_text(m, NULL, 0, &len) == MLS_ECLOSED);
    CHECK(rows[0].reason == 7 && r.there == 7 && numbers[0] == 7);
    CHECK(n == 7 && len == 7 && strcmp(buf, "abcdefg") == 0);
}

static void closing(void) {
    mls_t m = MLS_INIT;
    is_closed(&m);
    mls_close(&m);
    is_closed(&m);
    open_standard(&m);
    mls_close(&m);
    is_closed(&m);
    mls_close(&m);
    is_closed(&m);
    open_standard(&m);
    CHECK(mls_entries(&m) == 0);
    mls_close(&m);
}

static void opening(void) {
    mls_t m = MLS_INIT;
    mls_fault_t f = no_fault;
    const char *members = "{}", *scheme = "{\"security\": {\"levels\": [], \"categories\": []}, \"integrity\": {\"levels\": [\"lo\"], \"categories\": []}, "
        "\"subjects\": [], \"objects\": [{\"name\": \"o\", \"parent\": null, \"security\": \"S\", \"integrity\": \"lo\"}], \"matrix\": []}";
    CHECK(mls_open(&m, NULL, 0, &f) == MLS_ESTART && f.kind == 1 && f.number == 0 && f.place == 0);
    CHECK(mls_open(&m, (const uint8_t *)"\xff", 1, &f) == MLS_ESTART && f.kind == 1);
    CHECK(mls_open(&m, (const uint8_t *)members, 2, &f) == MLS_ESTART && f.kind == 2);
    CHECK(mls_open(&m, (const uint8_t *)scheme, strlen(scheme), &f) == MLS_ESTART && f.kind == 3 && f.number == 1);
    CHECK(m.held == 0 && m.monitor == NULL);
    open_standard(&m);
    asked(&m, request(MLS_GET, ANN, MLS_READ, PLANS));
    f = no_fault;
    CHECK(mls_open(&m, start, start_len, &f) == MLS_EOPEN && mls_open(&m, NULL, 0, &f) == MLS_EOPEN);
    CHECK(same_fault(&f, &no_fault) && mls_entries(&m) == 1 && mls_check(&m, ANN, PLANS, MLS_READ) == 1);
    mls_close(&m);
}

static void asking(void) {
    mls_t m = MLS_INIT;
    mls_request_t q;
    mls_answer_t a = no_answer;
    open_standard(&m);
    CHECK(asked(&m, request(MLS_GET, ANN, MLS_READ, PLANS)) == MLS_YES);
    CHECK(asked(&m, request(MLS_GET, BOB, MLS_READ, MEMO)) == MLS_DENIED + MLS_STAR);
    CHECK(mls_check(&m, ANN, PLANS, MLS_READ) == 1 && mls_check(&m, BOB, MEMO, MLS_READ) == 0);
    CHECK(mls_check(&m, ANN, PLANS, 4) == 0 && mls_check(&m, 65535, 65535, MLS_READ) == 0);
    CHECK(asked(&m, request(MLS_RELEASE, ANN, MLS_READ, PLANS)) == MLS_YES);
    CHECK(mls_check(&m, ANN, PLANS, MLS_READ) == 0);
    CHECK(asked(&m, request(MLS_GET, 999, MLS_READ, PLANS)) == MLS_UNDEFINED);
    /* what would be answered changes nothing */
    q = request(MLS_GET, ANN, MLS_READ, PLANS);
    CHECK(mls_decide(&m, &q, &a) == MLS_OK && a.number == 4 && a.reply == MLS_YES && a.object == 0);
    CHECK(mls_entries(&m) == 4 && mls_check(&m, ANN, PLANS, MLS_READ) == 0);
    mls_close(&m);
}

/* The labels of an object's creation, by the standard start: all of them by text. */
static mls_label_t label(mls_t *m, int kind, const char *text) {
    mls_label_t l = {200, {1, 2, 3, 4}};
    CHECK(mls_read_label(m, kind, (const uint8_t *)text, strlen(text), &l) == MLS_OK);
    return l;
}

static void all_actions(void) {
    mls_t m = MLS_INIT;
    mls_request_t q;
    mls_answer_t a = no_answer, w = no_answer;
    mls_entry_t e;
    open_standard(&m);
    /* sec is trusted: it makes an object below the root, gives it to bob, and takes it away again */
    q = request(MLS_CREATE, SEC, 0, ROOT);
    q.security = label(&m, MLS_SECURITY_LABEL, "S:A");
    q.integrity = label(&m, MLS_INTEGRITY_LABEL, "lo");
    CHECK(mls_decide(&m, &q, &w) == MLS_OK);
    CHECK(mls_submit(&m, 3, &q, &a) == MLS_OK && same_answer(&a, &w));
    CHECK(mls_entry(&m, 0, &e) == MLS_OK && e.number == 0 && e.session == 3 && e.reply == a.reply && e.object == a.object);
    CHECK(e.request.action == MLS_CREATE && e.request.subject == SEC && e.request.object == ROOT);
    CHECK(memcmp(&e.request.security.categories, &q.security.categories, sizeof q.security.categories) == 0);
    CHECK(e.request.security.level == q.security.level && e.request.integrity.level == q.integrity.level);
    q = request(MLS_GIVE, SEC, MLS_READ, TOOL);
    q.other = BOB;
    asked(&m, q);
    q.action = MLS_RESCIND;
    asked(&m, q);
    CHECK(mls_entry(&m, 2, &e) == MLS_OK && e.request.action == MLS_RESCIND && e.request.other == BOB && e.request.mode == MLS_READ);
    q = request(MLS_SUBJECT_LEVEL, ANN, 0, 0);
    q.security = label(&m, MLS_SECURITY_LABEL, "U");
    asked(&m, q);
    q = request(MLS_OBJECT_LEVEL, SEC, 0, TOOL);
    q.security = label(&m, MLS_SECURITY_LABEL, "U");
    asked(&m, q);
    asked(&m, request(MLS_DELETE, SEC, 0, TOOL));
    CHECK(asked(&m, request(MLS_DELETE, SEC, 0, ROOT)) >= MLS_DENIED);
    CHECK(mls_entry(&m, 7, &e) == MLS_ENOTFOUND && mls_entry(&m, UINT64_MAX, &e) == MLS_ENOTFOUND);
    mls_close(&m);
}

static void bad_numbers(void) {
    mls_t m = MLS_INIT;
    mls_request_t q;
    mls_answer_t a = no_answer;
    int n;
    open_standard(&m);
    for (n = 8; n < 256; n++) {
        q = request((uint8_t)n, ANN, MLS_READ, PLANS);
        CHECK(mls_submit(&m, 0, &q, &a) == MLS_EINVAL && mls_decide(&m, &q, &a) == MLS_EINVAL);
    }
    for (n = MLS_GET; n <= MLS_RESCIND; n++) {
        q = request((uint8_t)n, ANN, 4, PLANS);
        CHECK(mls_submit(&m, 0, &q, &a) == MLS_EINVAL);
    }
    q = request(MLS_CREATE, SEC, 255, ROOT);
    q.security.level = 16;
    CHECK(mls_submit(&m, 0, &q, &a) == MLS_EINVAL);
    q.action = MLS_SUBJECT_LEVEL;
    CHECK(mls_submit(&m, 0, &q, &a) == MLS_EINVAL);
    q.action = MLS_OBJECT_LEVEL;
    CHECK(mls_submit(&m, 0, &q, &a) == MLS_EINVAL);
    q.integrity = q.security;
    q.security.level = 0;
    q.action = MLS_CREATE;
    CHECK(mls_submit(&m, 0, &q, &a) == MLS_EINVAL);
    CHECK(same_answer(&a, &no_answer) && mls_entries(&m) == 0);
    /* what an action doesn't use isn't looked at: a delete with numbers that are no mode and no label */
    q = request(MLS_DELETE, SEC, 255, 4000);
    q.security.level = q.integrity.level = 255;
    CHECK(asked(&m, q) == MLS_UNDEFINED);
    /* each of 256 categories can be asked for; the scheme of the start has two */
    for (n = 2; n < 256; n++) {
        q = request(MLS_SUBJECT_LEVEL, ANN, 255, ROOT);
        q.security.categories[n / 64] = (uint64_t)1 << n % 64;
        CHECK(asked(&m, q) == MLS_UNDEFINED);
        CHECK(mls_decide(&m, &q, &a) == MLS_OK && a.reply == MLS_UNDEFINED);
    }
    mls_close(&m);
}

static void names_and_labels(void) {
    mls_t m = MLS_INIT;
    uint16_t n = 7;
    size_t len = 0;
    char buf[64];
    mls_label_t l = {1, {2, 0, 0, 0}}, none = l;
    open_standard(&m);
    CHECK(mls_subject(&m, (const uint8_t *)"sec", 3, &n) == MLS_OK && n == SEC);
    CHECK(mls_object(&m, (const uint8_t *)"memo", 4, &n) == MLS_OK && n == MEMO);
    CHECK(mls_subject(&m, (const uint8_t *)"memo", 4, &n) == MLS_ENOTFOUND && mls_object(&m, (const uint8_t *)"sec", 3, &n) == MLS_ENOTFOUND);
    CHECK(mls_subject(&m, NULL, 0, &n) == MLS_ENOTFOUND && mls_subject(&m, (const uint8_t *)"\xff\xfe", 2, &n) == MLS_ENOTFOUND);
    CHECK(n == MEMO);
    CHECK(mls_read_label(&m, MLS_SECURITY_LABEL, (const uint8_t *)"nonsense", 8, &l) == MLS_EINVAL);
    CHECK(mls_read_label(&m, MLS_SECURITY_LABEL, NULL, 0, &l) == MLS_EINVAL);
    CHECK(mls_read_label(&m, MLS_INTEGRITY_LABEL, (const uint8_t *)"S", 1, &l) == MLS_EINVAL);
    CHECK(mls_read_label(&m, 2, (const uint8_t *)"S", 1, &l) == MLS_EINVAL && mls_read_label(&m, -1, (const uint8_t *)"S", 1, &l) == MLS_EINVAL);
    CHECK(memcmp(&l.categories, &none.categories, sizeof l.categories) == 0 && l.level == 1);
    l = label(&m, MLS_SECURITY_LABEL, "S:B,A");
    CHECK(l.level == 2 && l.categories[0] == 3 && l.categories[1] == 0);
    memset(buf, '#', sizeof buf);
    CHECK(mls_write_label(&m, MLS_SECURITY_LABEL, &l, buf, sizeof buf, &len) == MLS_OK && len == 5 && memcmp(buf, "S:A,B#", 6) == 0);
    memset(buf, '#', sizeof buf);
    CHECK(mls_write_label(&m, MLS_SECURITY_LABEL, &l, buf, 4, &len) == MLS_ERANGE && len == 5 && memcmp(buf, "#####", 5) == 0);
    CHECK(mls_write_label(&m, MLS_SECURITY_LABEL, &l, NULL, 0, &len) == MLS_ERANGE && len == 5);
    len = 9;
    l.level = 15;
    CHECK(mls_write_label(&m, MLS_SECURITY_LABEL, &l, buf, sizeof buf, &len) == MLS_EINVAL);
    l.level = 16;
    CHECK(mls_write_label(&m, MLS_SECURITY_LABEL, &l, buf, sizeof buf, &len) == MLS_EINVAL);
    l.level = 0;
    CHECK(mls_write_label(&m, 2, &l, buf, sizeof buf, &len) == MLS_EINVAL && len == 9);
    mls_close(&m);
}

static mls_label bits(uint8_t level, uint64_t first, uint64_t last) {
    mls_label l = {0, {0, 0, 0, 0}};
    l.level = level;
    l.categories[0] = first;
    l.categories[3] = last;
    return l;
}

static int over(mls_label a, mls_label b) { return mls_dominates(&a, &b); }

/* Dominance by the definition, category by category. */
static int over_slowly(const mls_label *a, const mls_label *b) {
    int n;
    if (a->level > 15 || b->level > 15 || a->level < b->level) return 0;
    for (n = 0; n < 256; n++)
        if (b->categories[n / 64] >> n % 64 & 1 && !(a->categories[n / 64] >> n % 64 & 1)) return 0;
    return 1;
}

static void dominance(void) {
    const uint64_t top = (uint64_t)1 << 63;
    mls_label l = bits(3, 5, top);
    uint64_t random = 88172645463325252u;
    long k, n, wrong = 0, yes = 0;
    CHECK(over(bits(3, 5, top), bits(3, 4, 0)) == 1 && over(bits(3, 4, 0), bits(3, 5, top)) == 0);
    CHECK(over(bits(3, 0, top), bits(2, 0, top)) == 1 && over(bits(2, 0, top), bits(3, 0, top)) == 0);
    CHECK(over(bits(3, 1, 0), bits(1, 2, 0)) == 0 && over(bits(1, 2, 0), bits(3, 1, 0)) == 0);
    CHECK(mls_dominates(&l, &l) == 1 && over(bits(15, 0, 0), bits(15, 0, 0)) == 1);
    CHECK(over(bits(16, 5, 0), bits(3, 5, 0)) == 0 && over(bits(3, 5, 0), bits(16, 5, 0)) == 0 && over(bits(255, 0, 0), bits(255, 0, 0)) == 0);
    for (n = 0; n < 200000; n++) {
        mls_label two[2];
        for (k = 0; k < 8; k++) {
            random ^= random << 13, random ^= random >> 7, random ^= random << 17;
            /* few bits in the second, many in the first, so that both answers come */
            two[k / 4].categories[k % 4] = k < 4 ? random | random >> 21 | random << 17 : random & random >> 9 & random << 13 & random >> 31;
            two[k / 4].level = random >> 40 & 15;
        }
        wrong += mls_dominates(&two[0], &two[1]) != over_slowly(&two[0], &two[1]);
        yes += mls_dominates(&two[0], &two[1]);
    }
    CHECK(wrong == 0 && yes > 100 && yes < 199900);
}

/* What is said of an access by labels of the standard start's schemes. */
static int said(mls_t *m, uint16_t subject, uint8_t mode, const char *security, const char *integrity) {
    mls_label l = label(m, MLS_SECURITY_LABEL, security), i = label(m, MLS_INTEGRITY_LABEL, integrity);
    uint16_t reply = 999;
    CHECK(mls_decide_label(m, subject, mode, &l, &i, &reply) == MLS_OK);
    CHECK(mls_may(m, subject, mode, &l, &i) == (reply == MLS_YES));
    return reply;
}

static void deciding_by_labels(void) {
    mls_t m = MLS_INIT;
    mls_label l, i, bad = bits(16, 0, 0), wide = bits(0, 4, 0);
    uint16_t reply = 999, subject, object;
    uint8_t mode;
    long before = live;
    open_standard(&m);
    before = live - before;
    /* ann is at S:A and hi, bob at U below C and lo, sec trusted at U below T:A,B and hi */
    CHECK(said(&m, ANN, MLS_READ, "S:A", "hi") == MLS_YES && said(&m, ANN, MLS_READ, "S:B", "hi") == MLS_DENIED + MLS_SIMPLE);
    CHECK(said(&m, ANN, MLS_READ, "U", "lo") == MLS_DENIED + MLS_INTEGRITY && said(&m, ANN, MLS_APPEND, "U", "hi") == MLS_DENIED + MLS_STAR);
    CHECK(said(&m, ANN, MLS_WRITE, "S:A", "hi") == MLS_YES && said(&m, ANN, MLS_WRITE, "S:A", "lo") == MLS_DENIED + MLS_INTEGRITY);
    CHECK(said(&m, ANN, MLS_APPEND, "T:A,B", "lo") == MLS_YES && said(&m, BOB, MLS_APPEND, "T", "hi") == MLS_DENIED + MLS_INTEGRITY);
    CHECK(said(&m, BOB, MLS_READ, "C", "lo") == MLS_DENIED + MLS_STAR && said(&m, BOB, MLS_READ, "T", "lo") == MLS_DENIED + MLS_SIMPLE);
    CHECK(said(&m, BOB, MLS_EXECUTE, "T", "hi") == MLS_YES && said(&m, BOB, MLS_EXECUTE, "T", "lo") == MLS_YES);
    CHECK(said(&m, SEC, MLS_READ, "T:A", "hi") == MLS_YES && said(&m, SEC, MLS_READ, "T:A", "lo") == MLS_DENIED + MLS_INTEGRITY);
    CHECK(said(&m, 4, MLS_READ, "U", "lo") == MLS_UNDEFINED && said(&m, 65535, MLS_READ, "U", "lo") == MLS_UNDEFINED);
    l = label(&m, MLS_SECURITY_LABEL, "U");
    i = label(&m, MLS_INTEGRITY_LABEL, "hi");
    CHECK(mls_decide_label(&m, ANN, MLS_READ, &wide, &i, &reply) == MLS_OK && reply == MLS_UNDEFINED);
    CHECK(mls_decide_label(&m, ANN, MLS_READ, &l, &wide, &reply) == MLS_OK && reply == MLS_UNDEFINED);
    reply = 999;
    CHECK(mls_decide_label(&m, ANN, 4, &l, &i, &reply) == MLS_EINVAL && mls_decide_label(&m, ANN, 255, &l, &i, &reply) == MLS_EINVAL);
    CHECK(mls_decide_label(&m, ANN, MLS_READ, &bad, &i, &reply) == MLS_EINVAL && mls_decide_label(&m, 9, MLS_READ, &l, &bad, &reply) == MLS_EINVAL);
    CHECK(reply == 999 && mls_entries(&m) == 0);
    /* of an object's labels it says what the rule for a get says, where the matrix permits that */
    for (subject = ANN; subject <= AUD; subject++)
        for (object = ROOT; object <= TOOL; object++)
            for (mode = MLS_EXECUTE; mode <= MLS_WRITE; mode++) {
                mls_request_t q = request(MLS_GET, subject, mode, object);
                mls_object_info info;
                mls_answer_t a;
                CHECK(mls_read_object(&m, object, &info) == MLS_OK && mls_decide(&m, &q, &a) == MLS_OK);
                CHECK(mls_decide_label(&m, subject, mode, &info.security, &info.integrity, &reply) == MLS_OK);
                CHECK(a.reply == MLS_DENIED + MLS_DISCRETIONARY || a.reply == reply);
            }
    /* the current label counts: bob at C reads what he didn't at U */
    l = label(&m, MLS_SECURITY_LABEL, "C");
    i = label(&m, MLS_INTEGRITY_LABEL, "lo");
    {
        mls_answer_t a;
        CHECK(mls_level(&m, 0, BOB, &l, &a) == MLS_OK && a.reply == MLS_YES);
    }
    CHECK(said(&m, BOB, MLS_READ, "C", "lo") == MLS_YES);
    CHECK(mls_reason_of(MLS_DENIED + MLS_STAR) == MLS_STAR && mls_reason_of(MLS_YES) == 0 && mls_reason_of(MLS_UNDEFINED) == 0);
    left = 0;
    CHECK(mls_decide_label(&m, BOB, MLS_READ, &l, &i, &reply) == MLS_OK && reply == MLS_YES);
    left = -1;
    mls_close(&m);
}

/* A start whose schemes have 256 categories each, of which labels have some of four: one in each word. Four subjects may
 * do all with the root and fifteen objects below it. */
enum { LONG_SUBJECTS = 4, LONG_OBJECTS = 16 };

static char long_start[1 << 16];
static size_t long_len;

static void put(const char *text) {
    strcpy(long_start + long_len, text);
    long_len += strlen(text);
}

static void put_name(const char *member, const char *kind, int number) {
    char text[64];
    snprintf(text, sizeof text, "\"%s\": \"%s%d\", ", member, kind, number);
    put(text);
}

static void put_scheme(const char *levels) {
    char text[16];
    int n;
    put(levels);
    for (n = 0; n < 256; n++) {
        snprintf(text, sizeof text, "%s\"k%d\"", n ? ", " : "", n);
        put(text);
    }
    put("]}, ");
}

/* A label with those of the four categories whose bits are 1. */
static void put_label(const char *member, const char *level, int mask) {
    static const char *const four[4] = {"k0", "k64", "k130", "k255"};
    const char *before = ":";
    int n;
    put(member);
    put(level);
    for (n = 0; n < 4; n++) {
        if (!(mask >> n & 1)) continue;
        put(before);
        put(four[n]);
        before = ",";
    }
    put("\"");
}

static void put_subject(int n) {
    static const int maxima[LONG_SUBJECTS] = {15, 3, 12, 5}, currents[LONG_SUBJECTS] = {15, 1, 8, 0};
    put(n ? ", {" : "{");
    put_name("name", "s", n);
    put_label("\"maximum\": \"", "S", maxima[n]);
    put_label(", \"current\": \"", n == 3 ? "U" : "S", currents[n]);
    put_label(", \"integrity\": \"", n & 1 ? "hi" : "lo", maxima[3 - n]);
    put(n == 3 ? ", \"trusted\": true}" : ", \"trusted\": false}");
}

static void put_object(int n) {
    put(n ? ", {" : "{");
    put_name("name", "o", n);
    put(n ? "\"parent\": \"o0\"" : "\"parent\": null");
    put_label(", \"security\": \"", n % 3 ? "S" : "U", n);
    put_label(", \"integrity\": \"", n % 5 ? "lo" : "hi", n ? n * 7 % 16 : 15);
    put("}");
}

static size_t write_long_start(void) {
    int n, k;
    long_len = 0;
    put("{\"security\": ");
    put_scheme("{\"levels\": [\"U\", \"S\"], \"categories\": [");
    put("\"integrity\": ");
    put_scheme("{\"levels\": [\"lo\", \"hi\"], \"categories\": [");
    put("\"subjects\": [");
    for (n = 0; n < LONG_SUBJECTS; n++) put_subject(n);
    put("], \"objects\": [");
    for (n = 0; n < LONG_OBJECTS; n++) put_object(n);
    put("], \"matrix\": [");
    for (n = 0; n < LONG_SUBJECTS; n++)
        for (k = 0; k < LONG_OBJECTS; k++) {
            put(n || k ? ", {" : "{");
            put_name("subject", "s", n);
            put_name("object", "o", k);
            put("\"modes\": [\"execute\", \"read\", \"append\", \"write\"]}");
        }
    put("]}");
    return long_len;
}

/* Where the matrix permits all, an access that is decided by an object's labels is decided as the get of it, whichever words
 * of categories the labels use. */
static void deciding_by_long_labels(void) {
    mls_t m = MLS_INIT;
    mls_fault_t f;
    mls_answer_t a;
    mls_object_info info;
    mls_label l, bad = bits(16, 0, 1);
    uint16_t subject, object, reply;
    uint8_t mode;
    long replies[32] = {0}, different = 0;
    CHECK(mls_open(&m, (const uint8_t *)long_start, write_long_start(), &f) == MLS_OK);
    for (subject = 0; subject < LONG_SUBJECTS; subject++)
        for (object = 0; object < LONG_OBJECTS; object++)
            for (mode = MLS_EXECUTE; mode <= MLS_WRITE; mode++) {
                mls_request_t q = request(MLS_GET, subject, mode, object);
                CHECK(mls_read_object(&m, object, &info) == MLS_OK && mls_decide(&m, &q, &a) == MLS_OK);
                CHECK(mls_decide_label(&m, subject, mode, &info.security, &info.integrity, &reply) == MLS_OK);
                different += reply != a.reply;
                replies[reply & 31]++;
            }
    CHECK(different == 0);
    CHECK(replies[MLS_YES] && replies[MLS_DENIED + MLS_SIMPLE] && replies[MLS_DENIED + MLS_STAR] && replies[MLS_DENIED + MLS_INTEGRITY]);
    CHECK(replies[MLS_UNDEFINED] == 0 && replies[MLS_DENIED + MLS_DISCRETIONARY] == 0);
    l = info.security;
    l.level = 2;
    CHECK(mls_decide_label(&m, 0, MLS_READ, &l, &info.integrity, &reply) == MLS_OK && reply == MLS_UNDEFINED);
    reply = 999;
    CHECK(mls_decide_label(&m, 0, MLS_READ, &bad, &info.integrity, &reply) == MLS_EINVAL && mls_decide_label(&m, 0, 4, &l, &l, &reply) == MLS_EINVAL);
    CHECK(reply == 999);
    mls_close(&m);
}

enum { ROWS = 3000, LEVELS = 2 };

static mls_labels batch[ROWS];
static uint16_t batch_replies[ROWS + 1];

static uint64_t next_random(void) {
    static uint64_t random = 88172645463325252u;
    random ^= random << 13, random ^= random >> 7, random ^= random << 17;
    return random;
}

/* A label of the long start's schemes, mostly: one of seven has a level that they don't have. */
static mls_label long_label(void) {
    mls_label l = {0, {0}};
    uint64_t random = next_random();
    l.level = random % 7 ? (uint8_t)(random >> 8 & 1) : (uint8_t)(LEVELS + (random >> 8 & 7));
    l.categories[0] = random >> 16 & 1;
    l.categories[1] = random >> 17 & 1;
    l.categories[2] = (random >> 18 & 1) << 2;
    l.categories[3] = (random >> 19 & 1) << 63;
    /* (half of the labels have categories of the first 64 alone) */
    if (random >> 20 & 1) l.categories[1] = l.categories[2] = l.categories[3] = 0;
    return l;
}

/* Whether each reply of a batch is that of the call for its row, and none is written behind the last. */
static long answered_alike(mls_t *m, uint16_t subject, uint8_t mode, size_t n, long *seen) {
    uint16_t reply;
    long wrong = 0;
    size_t k;
    memset(batch_replies, 77, sizeof batch_replies);
    CHECK(mls_decide_labels(m, subject, mode, batch, n, batch_replies) == MLS_OK);
    for (k = 0; k < n; k++) {
        CHECK(mls_decide_label(m, subject, mode, &batch[k].security, &batch[k].integrity, &reply) == MLS_OK);
        wrong += batch_replies[k] != reply;
        seen[reply & 31]++;
    }
    return wrong + (batch_replies[n] != 77 * 257);
}

/* A batch is refused as a whole: no reply is a grant, and none is written behind the last. */
static long refused_whole(mls_t *m, uint8_t mode, size_t n) {
    long wrong = 0;
    size_t k;
    memset(batch_replies, 0, sizeof batch_replies);
    wrong += mls_decide_labels(m, ANN, mode, batch, n, batch_replies) != MLS_EINVAL;
    for (k = 0; k < n; k++) wrong += batch_replies[k] != MLS_UNDEFINED;
    return wrong + (batch_replies[n] != 0);
}

/* Batches, of rows with labels in each word of categories. */
static void deciding_batches(void) {
    static const size_t counts[] = {0, 1, 2, 63, ROWS}, faults[] = {0, 1, 1500, ROWS - 1};
    mls_t m = MLS_INIT;
    mls_fault_t f;
    uint16_t subject;
    uint8_t mode;
    long seen[32] = {0}, before;
    size_t k;
    CHECK(mls_open(&m, (const uint8_t *)long_start, write_long_start(), &f) == MLS_OK);
    for (k = 0; k < ROWS; k++) batch[k].security = long_label(), batch[k].integrity = long_label();
    before = live;
    left = 0;
    for (subject = 0; subject <= LONG_SUBJECTS; subject++)
        for (mode = MLS_EXECUTE; mode <= MLS_WRITE; mode++)
            for (k = 0; k < sizeof counts / sizeof *counts; k++) CHECK(answered_alike(&m, subject, mode, counts[k], seen) == 0);
    CHECK(seen[MLS_YES] && seen[MLS_UNDEFINED] && seen[MLS_DENIED + MLS_SIMPLE] && seen[MLS_DENIED + MLS_STAR] && seen[MLS_DENIED + MLS_INTEGRITY]);
    CHECK(mls_decide_labels(&m, 0, MLS_READ, NULL, 0, NULL) == MLS_OK && mls_decide_labels(&m, 0, 4, NULL, 0, NULL) == MLS_EINVAL);
    CHECK(refused_whole(&m, 4, ROWS) == 0 && refused_whole(&m, 255, 1) == 0);
    /* one row that is no label's, of short labels and of long ones, whichever of the two labels it is */
    for (k = 0; k < sizeof faults / sizeof *faults; k++) {
        mls_labels row = batch[faults[k]];
        batch[faults[k]].security = bits(16, 0, 0);
        CHECK(refused_whole(&m, MLS_READ, ROWS) == 0 && refused_whole(&m, MLS_READ, faults[k] + 1) == 0);
        CHECK(answered_alike(&m, 0, MLS_READ, faults[k], seen) == 0);
        batch[faults[k]].security = bits(255, 0, 1);
        CHECK(refused_whole(&m, MLS_APPEND, ROWS) == 0);
        batch[faults[k]] = row;
        batch[faults[k]].integrity = bits(16, 1, 1);
        CHECK(refused_whole(&m, MLS_WRITE, ROWS) == 0);
        batch[faults[k]] = row;
    }
    left = -1;
    CHECK(live == before && mls_entries(&m) == 0);
    mls_close(&m);
}

/* A session's batches are those of the monitor. */
static void batches_of_a_session(void) {
    mls_t m = MLS_INIT;
    mls_fault_t f;
    mls_office office = MLS_OFFICE_INIT;
    mls_session s = MLS_SESSION_INIT;
    static uint16_t wanted[LONG_SUBJECTS + 1][ROWS];
    uint16_t subject;
    CHECK(mls_session_decide_labels(&s, 0, MLS_READ, batch, ROWS, batch_replies) == MLS_ECLOSED);
    CHECK(mls_open(&m, (const uint8_t *)long_start, write_long_start(), &f) == MLS_OK);
    for (subject = 0; subject <= LONG_SUBJECTS; subject++)
        CHECK(mls_decide_labels(&m, subject, MLS_READ, batch, ROWS, wanted[subject]) == MLS_OK);
    CHECK(mls_office_open(&office, &m, &s, 1) == MLS_OK);
    left = 0;
    for (subject = 0; subject <= LONG_SUBJECTS; subject++) {
        memset(batch_replies, 77, sizeof batch_replies);
        CHECK(mls_session_decide_labels(&s, subject, MLS_READ, batch, ROWS, batch_replies) == MLS_OK);
        CHECK(memcmp(batch_replies, wanted[subject], sizeof wanted[subject]) == 0 && batch_replies[ROWS] == 77 * 257);
    }
    CHECK(mls_session_decide_labels(&s, 0, MLS_READ, NULL, 0, NULL) == MLS_OK && mls_session_decide_labels(&s, 0, 4, NULL, 0, NULL) == MLS_EINVAL);
    batch_replies[0] = batch_replies[1] = MLS_YES;
    CHECK(mls_session_decide_labels(&s, 0, 4, batch, 2, batch_replies) == MLS_EINVAL && batch_replies[0] == MLS_UNDEFINED && batch_replies[1] == MLS_UNDEFINED);
    left = -1;
    CHECK(mls_office_close(&office, &s, &m) == MLS_OK);
    mls_close(&m);
}

static void readers(void) {
    mls_t m = MLS_INIT;
    mls_subject_info s;
    mls_object_info o;
    mls_pair_info p = {77, 77};
    mls_counts c;
    mls_label l, i;
    mls_answer_t a;
    uint16_t n = 99;
    size_t len = 9;
    char buf[8];
    open_standard(&m);
    l = label(&m, MLS_SECURITY_LABEL, "S:B");
    i = label(&m, MLS_INTEGRITY_LABEL, "lo");
    left = 0;
    CHECK(mls_read_subject(&m, SEC, &s) == MLS_OK && s.trusted == 1 && s.maximum.level == 3 && s.maximum.categories[0] == 3);
    CHECK(s.current.level == 0 && s.current.categories[0] == 0 && s.integrity.level == 1);
    CHECK(mls_read_subject(&m, BOB, &s) == MLS_OK && s.trusted == 0 && s.maximum.level == 1 && s.current.level == 0 && s.integrity.level == 0);
    CHECK(mls_read_subject(&m, 4, &s) == MLS_ENOTFOUND && mls_read_subject(&m, 65535, &s) == MLS_ENOTFOUND && s.maximum.level == 1);
    CHECK(mls_read_object(&m, PLANS, &o) == MLS_OK && o.parent == ROOT && o.security.level == 2 && o.security.categories[0] == 1 && o.integrity.level == 1);
    CHECK(mls_read_object(&m, ROOT, &o) == MLS_OK && o.parent == ROOT && o.security.level == 0);
    CHECK(mls_read_object(&m, 4, &o) == MLS_ENOTFOUND && mls_read_object(&m, 65535, &o) == MLS_ENOTFOUND && o.security.level == 0);
    CHECK(mls_is_active(&m, TOOL) == 1 && mls_is_active(&m, 4) == 0);
    CHECK(mls_read_pair(&m, ANN, PLANS, &p) == MLS_OK && p.permitted == (MLS_READS | MLS_WRITES) && p.held == 0);
    CHECK(mls_read_pair(&m, SEC, MEMO, &p) == MLS_OK && p.permitted == (MLS_APPENDS | MLS_WRITES));
    CHECK(mls_read_pair(&m, BOB, TOOL, &p) == MLS_OK && p.permitted == MLS_EXECUTES);
    CHECK(mls_read_pair(&m, 4, TOOL, &p) == MLS_ENOTFOUND && mls_read_pair(&m, BOB, 4, &p) == MLS_ENOTFOUND && p.permitted == MLS_EXECUTES);
    CHECK(mls_count(&m, &c) == MLS_OK && c.entries == 0 && c.subjects == 4 && c.objects == 4 && c.next == 4);
    CHECK(mls_next_child(&m, ROOT, 0, &n) == MLS_OK && n == PLANS && mls_next_child(&m, ROOT, PLANS, &n) == MLS_OK && n == MEMO);
    CHECK(mls_next_child(&m, ROOT, TOOL, &n) == MLS_ENOTFOUND && mls_next_child(&m, TOOL, 0, &n) == MLS_ENOTFOUND && mls_next_child(&m, 4, 0, &n) == MLS_ENOTFOUND);
    CHECK(mls_next_child(&m, ROOT, 65535, &n) == MLS_ENOTFOUND && n == MEMO);
    CHECK(mls_child_after(&m, ROOT, MEMO) == TOOL && mls_child_after(&m, ROOT, TOOL) == 0);
    memset(buf, '#', sizeof buf);
    CHECK(mls_object_name(&m, PLANS, buf, sizeof buf, &len) == MLS_OK && len == 5 && memcmp(buf, "plans###", 8) == 0);
    CHECK(mls_subject_name(&m, AUD, buf, 2, &len) == MLS_ERANGE && len == 3 && memcmp(buf, "plans", 5) == 0);
    CHECK(mls_subject_name(&m, AUD, NULL, 0, &len) == MLS_ERANGE && mls_subject_name(&m, AUD, buf, 3, &len) == MLS_OK && memcmp(buf, "audns", 5) == 0);
    CHECK(mls_subject_name(&m, 4, buf, sizeof buf, &len) == MLS_ENOTFOUND && mls_object_name(&m, 4, buf, sizeof buf, &len) == MLS_ENOTFOUND && len == 3);
    left = -1;
    /* what is held, and what is made and deleted */
    CHECK(mls_get(&m, 0, ANN, PLANS, MLS_READ, &a) == MLS_OK && a.reply == MLS_YES && mls_read_pair(&m, ANN, PLANS, &p) == MLS_OK && p.held == MLS_READS);
    CHECK(mls_get(&m, 0, SEC, ROOT, MLS_WRITE, &a) == MLS_OK && mls_create(&m, 0, SEC, ROOT, &l, &i, &a) == MLS_OK && a.object == 4);
    CHECK(mls_count(&m, &c) == MLS_OK && c.entries == 3 && c.objects == 5 && c.next == 5);
    CHECK(mls_read_object(&m, 4, &o) == MLS_OK && o.parent == ROOT && o.security.level == 2 && o.security.categories[0] == 2);
    CHECK(mls_object_name(&m, 4, buf, sizeof buf, &len) == MLS_ENOTFOUND && mls_child_after(&m, ROOT, TOOL) == 4);
    CHECK(mls_delete(&m, 0, SEC, MEMO, &a) == MLS_OK && a.reply == MLS_YES && mls_is_active(&m, MEMO) == 0);
    CHECK(mls_count(&m, &c) == MLS_OK && c.entries == 4 && c.objects == 4 && c.next == 5 && mls_child_after(&m, ROOT, PLANS) == TOOL);
    mls_close(&m);
}

static void explaining(void) {
    mls_t m = MLS_INIT;
    mls_request_t q = request(MLS_GET, BOB, MLS_READ, MEMO), bad = request(MLS_GET, BOB, 4, MEMO);
    mls_condition c[MLS_CONDITIONS];
    mls_remedy r = {7, {7, {7, 7, 7, 7}}};
    mls_answer_t a;
    size_t n = 9;
    open_standard(&m);
    memset(c, 0x55, sizeof c);
    CHECK(mls_explain(&m, &q, NULL, 0, &n, &r) == MLS_ERANGE && n == 4 && mls_explain(&m, &q, c, 3, &n, &r) == MLS_ERANGE && n == 4);
    CHECK(c[0].reason == 0x5555 && r.there == 7 && r.label.level == 7);
    n = 9;
    CHECK(mls_explain(&m, &bad, c, MLS_CONDITIONS, &n, &r) == MLS_EINVAL);
    q.object = 4;
    CHECK(mls_explain(&m, &q, c, MLS_CONDITIONS, &n, &r) == MLS_ENOTFOUND && n == 9 && c[0].reason == 0x5555 && r.there == 7);
    q.object = MEMO;
    CHECK(mls_explain(&m, &q, c, MLS_CONDITIONS, &n, &r) == MLS_OK && n == 4);
    CHECK(c[0].reason == MLS_DISCRETIONARY && c[0].holds == 1 && c[0].basis == MLS_BY_PERMISSION && c[0].subject == BOB && c[0].mode == MLS_READ && c[0].object == MEMO);
    CHECK(c[1].reason == MLS_SIMPLE && c[1].holds == 1 && c[1].basis == MLS_BY_DOMINANCE && c[1].first.kind == MLS_MAXIMUM_OF_CALLER && c[1].first.label.level == 1);
    CHECK(c[1].second.kind == MLS_SECURITY_OF_OBJECT && c[1].second.of == MEMO && c[1].second.label.level == 1 && c[1].third.kind == MLS_NO_TERM);
    CHECK(c[2].reason == MLS_STAR && c[2].holds == 0 && c[2].first.kind == MLS_CURRENT_OF_CALLER && c[2].first.label.level == 0 && c[2].subject == 0);
    CHECK(c[3].reason == MLS_INTEGRITY && c[3].holds == 1 && c[3].first.kind == MLS_INTEGRITY_OF_OBJECT && c[3].first.of == MEMO);
    CHECK(c[3].second.kind == MLS_INTEGRITY_OF_SUBJECT && c[3].second.of == BOB);
    /* the remedy: at C the get is granted */
    CHECK(r.there == 1 && r.label.level == 1 && r.label.categories[0] == 0);
    CHECK(mls_level(&m, 0, BOB, &r.label, &a) == MLS_OK && a.reply == MLS_YES);
    CHECK(mls_get(&m, 0, BOB, MEMO, MLS_READ, &a) == MLS_OK && a.reply == MLS_YES);
    /* a request without conditions, and what isn't compared */
    q.action = MLS_RELEASE;
    CHECK(mls_explain(&m, &q, NULL, 0, &n, &r) == MLS_OK && n == 0 && r.there == 0 && r.label.level == 0);
    q = request(MLS_GET, SEC, MLS_APPEND, MEMO);
    CHECK(mls_explain(&m, &q, c, MLS_CONDITIONS, &n, &r) == MLS_OK && c[1].basis == MLS_BY_NO_OBSERVING && c[1].mode == MLS_APPEND);
    CHECK(c[2].basis == MLS_BY_TRUST && c[2].subject == SEC);
    q = request(MLS_OBJECT_LEVEL, ANN, 0, PLANS);
    q.security = label(&m, MLS_SECURITY_LABEL, "T:A");
    CHECK(mls_explain(&m, &q, c, MLS_CONDITIONS, &n, &r) == MLS_OK && n == 4 && c[0].reason == MLS_AUTHORITY && c[0].holds == 0);
    CHECK(c[0].basis == MLS_BY_RELABELLING && c[0].also == 0 && c[0].subject == ANN && c[0].object == PLANS && c[0].parent == ROOT);
    CHECK(c[0].first.label.level == 2 && c[0].second.label.level == 2 && c[0].second.of == PLANS && c[0].third.kind == MLS_REQUESTED_SECURITY && c[0].third.label.level == 3);
    CHECK(c[1].reason == MLS_COMPATIBILITY && c[1].holds == 1 && c[1].basis == MLS_BY_PLACE && c[1].also == 1 && c[1].parent == ROOT);
    CHECK(c[2].basis == MLS_BY_OBSERVERS && c[3].basis == MLS_BY_HOLDERS && c[3].object == PLANS && c[3].first.label.level == 3 && r.there == 0);
    q.object = ROOT;
    q.subject = SEC;
    CHECK(mls_explain(&m, &q, c, MLS_CONDITIONS, &n, &r) == MLS_OK && c[0].basis == MLS_BY_TRUST && c[1].basis == MLS_BY_CHILDREN && c[1].holds == 0);
    q = request(MLS_DELETE, SEC, 0, ROOT);
    CHECK(mls_explain(&m, &q, c, MLS_CONDITIONS, &n, &r) == MLS_OK && n == 2 && c[0].basis == MLS_BY_NO_ROOT && c[1].basis == MLS_BY_NO_PARENT);
    q = request(MLS_CREATE, SEC, 0, ROOT);
    CHECK(mls_explain(&m, &q, c, MLS_CONDITIONS, &n, &r) == MLS_OK && n == 4 && c[0].basis == MLS_BY_ALTERING && c[3].basis == MLS_BY_NUMBER && c[3].object == 4);
    CHECK(c[1].first.kind == MLS_REQUESTED_SECURITY && c[2].second.kind == MLS_REQUESTED_INTEGRITY);
    q = request(MLS_GIVE, BOB, MLS_READ, TOOL);
    CHECK(mls_explain(&m, &q, c, MLS_CONDITIONS, &n, &r) == MLS_OK && n == 1 && c[0].basis == MLS_BY_WRITING && c[0].object == ROOT);
    q = request(MLS_SUBJECT_LEVEL, BOB, 0, 0);
    CHECK(mls_explain(&m, &q, c, MLS_CONDITIONS, &n, &r) == MLS_OK && n == 2 && c[0].reason == MLS_CEILING && c[1].basis == MLS_BY_HOLDINGS && c[1].holds == 0);
    n = 9;
    left = 0;
    r.there = 7;
    CHECK(mls_explain(&m, &q, c, MLS_CONDITIONS, &n, &r) == MLS_ENOMEM && n == 9 && r.there == 7);
    left = -1;
    mls_close(&m);
}

/* The text of the whole journal, which the caller frees. */
static char *journal_of(mls_t *m, size_t *len) {
    uint64_t n, count = mls_entries(m);
    char *text = malloc(count * 512 + 1);
    size_t one;
    *len = 0;
    for (n = 0; n < count; n++) {
        CHECK(mls_entry_text(m, n, text + *len, 512, &one) == MLS_OK);
        *len += one;
    }
    return text;
}

static void keeping(void) {
    mls_t m = MLS_INIT;
    size_t len, len2 = 0;
    char *text, buf[8] = "abcdefg";
    open_standard(&m);
    asked(&m, request(MLS_GET, ANN, MLS_READ, PLANS));
    asked(&m, request(MLS_GET, BOB, MLS_READ, MEMO));
    text = journal_of(&m, &len);
    CHECK(len == strlen("0 5 0 get-read 1 yes\n1 5 1 get-read 2 no star\n") && memcmp(text, "0 5 0 get-read 1 yes\n1 5 1 get-read 2 no star\n", len) == 0);
    CHECK(mls_entry_text(&m, 0, buf, sizeof buf, &len2) == MLS_ERANGE && len2 == 21 && strcmp(buf, "abcdefg") == 0);
    CHECK(mls_entry_text(&m, 0, NULL, 0, &len2) == MLS_ERANGE && len2 == 21);
    len2 = 4;
    CHECK(mls_entry_text(&m, 2, buf, sizeof buf, &len2) == MLS_ENOTFOUND && len2 == 4 && strcmp(buf, "abcdefg") == 0);
    mls_close(&m);
    free(text);
}

/* Each allocation of an opening is refused in turn: the handle stays closed and nothing leaks. */
static void refused_openings(void) {
    long k, before = live;
    int status = MLS_ENOMEM;
    for (k = 0; status != MLS_OK && k < 10000; k++) {
        mls_t m = MLS_INIT;
        mls_fault_t f = no_fault;
        left = k;
        status = mls_open(&m, start, start_len, &f);
        left = -1;
        CHECK(status == MLS_OK || (status == MLS_ENOMEM && m.held == 0));
        CHECK(same_fault(&f, &no_fault));
        if (status == MLS_OK) CHECK(mls_entries(&m) == 0 && k > 20);
        mls_close(&m);
        CHECK(live == before);
    }
}

/* Resumes a closed handle from the standard start and a journal that is refused: the handle stays closed. */
static void refused_journal(const char *text, int status, uint16_t kind, uint16_t number, uint64_t place) {
    mls_t m = MLS_INIT;
    mls_fault_t f = no_fault;
    CHECK(mls_resume(&m, start, start_len, (const uint8_t *)text, strlen(text), &f) == status);
    CHECK(f.kind == kind && f.number == number && f.place == place);
    is_closed(&m);
}

static void refused_journals(void) {
    refused_journal("0 5 0 get-read 1 yes\n\n", MLS_EJOURNAL, 1, 0, 1);
    refused_journal("0 5 0 get-read 1 yes\n1 5 1 get-read 2 no star", MLS_EJOURNAL, 1, 0, 1);
    refused_journal("\xff 5 0 get-read 1 yes\n", MLS_EJOURNAL, 1, 0, 0);
    refused_journal("00 5 0 get-read 1 yes\n", MLS_EJOURNAL, 2, 0, 0);
    refused_journal("0 5 0 level 1:2,1 yes\n", MLS_EJOURNAL, 3, 0, 0);
    refused_journal("0 5 0 get-read 1 yes\r\n", MLS_EJOURNAL, 4, 0, 0);
    refused_journal("0 5 0 get-read 1 yes\n0 5 0 get-read 1 yes\n", MLS_EREPLAY, 1, 0, 1);
    refused_journal("0 5 0 get-read 1 no star\n", MLS_EREPLAY, 2, MLS_YES, 0);
    refused_journal("0 5 0 get-read 1 yes\n1 5 1 get-read 2 yes\n", MLS_EREPLAY, 2, MLS_DENIED + MLS_STAR, 1);
    /* a line that is refused comes before an entry that is wrong */
    refused_journal("0 5 0 get-read 1 no star\nx\n", MLS_EJOURNAL, 1, 0, 1);
}

static void resuming(void) {
    mls_t m = MLS_INIT;
    mls_fault_t f = no_fault;
    const char *kept = "0 5 0 get-read 1 yes\n1 5 1 get-read 2 no star\n";
    size_t len;
    char *text;
    CHECK(mls_resume(&m, NULL, 0, (const uint8_t *)"x", 1, &f) == MLS_ESTART && f.kind == 1 && m.held == 0);
    f = no_fault;
    CHECK(mls_resume(&m, start, start_len, (const uint8_t *)kept, strlen(kept), &f) == MLS_OK && same_fault(&f, &no_fault));
    CHECK(mls_entries(&m) == 2 && mls_check(&m, ANN, PLANS, MLS_READ) == 1 && mls_check(&m, BOB, MEMO, MLS_READ) == 0);
    CHECK(asked(&m, request(MLS_RELEASE, ANN, MLS_READ, PLANS)) == MLS_YES);
    text = journal_of(&m, &len);
    CHECK(len > strlen(kept) && memcmp(text, kept, strlen(kept)) == 0);
    CHECK(mls_resume(&m, start, start_len, NULL, 0, &f) == MLS_EOPEN && same_fault(&f, &no_fault) && mls_entries(&m) == 3);
    mls_close(&m);
    CHECK(mls_resume(&m, start, start_len, (const uint8_t *)text, len, &f) == MLS_OK);
    CHECK(mls_entries(&m) == 3 && mls_check(&m, ANN, PLANS, MLS_READ) == 0);
    mls_close(&m);
    CHECK(mls_resume(&m, start, start_len, NULL, 0, &f) == MLS_OK && mls_entries(&m) == 0);
    mls_close(&m);
    free(text);
}

/* Each allocation of resuming is refused in turn: the handle stays closed and nothing leaks. */
static void refused_resumings(void) {
    const char *kept = "0 5 0 get-read 1 yes\n1 5 1 get-read 2 no star\n";
    long k, before = live;
    int status = MLS_ENOMEM;
    for (k = 0; status != MLS_OK && k < 10000; k++) {
        mls_t m = MLS_INIT;
        mls_fault_t f = no_fault;
        left = k;
        status = mls_resume(&m, start, start_len, (const uint8_t *)kept, strlen(kept), &f);
        left = -1;
        CHECK(status == MLS_OK || (status == MLS_ENOMEM && m.held == 0));
        CHECK(same_fault(&f, &no_fault));
        if (status == MLS_OK) CHECK(mls_entries(&m) == 2 && k > 20);
        mls_close(&m);
        CHECK(live == before);
    }
}

/* Each submit is refused its memory once: nothing changes, and the same submit again is answered. */
static void refused_submits(void) {
    mls_t m = MLS_INIT;
    mls_request_t q = request(MLS_CREATE, SEC, 0, ROOT);
    mls_answer_t a;
    size_t len = 3;
    char buf[64];
    long n, refusals = 0, before = live;
    open_standard(&m);
    q.security = label(&m, MLS_SECURITY_LABEL, "U");
    q.integrity = label(&m, MLS_INTEGRITY_LABEL, "lo");
    for (n = 0; n < 300; n++) {
        a = no_answer;
        left = 0;
        if (mls_submit(&m, 0, &q, &a) == MLS_ENOMEM) {
            left = -1;
            refusals++;
            CHECK(mls_entries(&m) == (uint64_t)n && same_answer(&a, &no_answer));
            CHECK(mls_submit(&m, 0, &q, &a) == MLS_OK);
        }
        left = -1;
        CHECK(a.number == (uint64_t)n);
    }
    CHECK(refusals > 0);
    left = 0;
    CHECK(mls_decide(&m, &q, &a) == MLS_OK && mls_check(&m, SEC, 4, MLS_READ) == 0);
    CHECK(mls_entry_text(&m, 0, buf, sizeof buf, &len) == MLS_ENOMEM && len == 3);
    CHECK(mls_write_label(&m, MLS_SECURITY_LABEL, &q.security, buf, sizeof buf, &len) == MLS_ENOMEM && len == 3);
    left = -1;
    mls_close(&m);
    CHECK(live == before);
}

static void many_submits(void) {
    mls_t m = MLS_INIT;
    mls_request_t get = request(MLS_GET, ANN, MLS_READ, PLANS), release = request(MLS_RELEASE, ANN, MLS_READ, PLANS);
    mls_answer_t a;
    mls_entry_t e;
    long n, wrong = 0;
    open_standard(&m);
    for (n = 0; n < submits; n++) {
        wrong += mls_submit(&m, 1, n & 1 ? &release : &get, &a) != MLS_OK || a.reply != MLS_YES || a.number != (uint64_t)n;
    }
    CHECK(wrong == 0 && mls_entries(&m) == (uint64_t)submits);
    CHECK(mls_entry(&m, (uint64_t)submits - 1, &e) == MLS_OK && e.number == (uint64_t)submits - 1);
    mls_close(&m);
}

static void forgotten_entries(void) {
    mls_t m = MLS_INIT;
    mls_request_t get = request(MLS_GET, ANN, MLS_READ, PLANS), release = request(MLS_RELEASE, ANN, MLS_READ, PLANS);
    mls_answer_t a;
    mls_entry_t e;
    char buf[64];
    size_t len;
    long n, wrong = 0;
    open_standard(&m);
    for (n = 0; n < 20000; n++) {
        wrong += mls_submit(&m, 1, n & 1 ? &release : &get, &a) != MLS_OK || a.number != (uint64_t)n;
        /* the last hundred are kept */
        wrong += n >= 100 && mls_forget(&m, (uint64_t)n - 99) != MLS_OK;
    }
    CHECK(wrong == 0 && mls_entries(&m) == 20000 && mls_forgotten(&m) == 19900);
    CHECK(mls_entry(&m, 19899, &e) == MLS_ENOTFOUND && mls_entry_text(&m, 0, buf, sizeof buf, &len) == MLS_ENOTFOUND);
    CHECK(mls_entry(&m, 19900, &e) == MLS_OK && e.number == 19900 && e.request.action == MLS_GET);
    CHECK(mls_entry_text(&m, 19901, buf, sizeof buf, &len) == MLS_OK);
    CHECK(memcmp(buf, "19901 1 0 release read 1 yes\n", len) == 0);
    CHECK(mls_check(&m, ANN, PLANS, MLS_READ) == 0);
    /* what is forgotten stays so, and no entry that isn't there is forgotten */
    CHECK(mls_forget(&m, 5) == MLS_OK && mls_forgotten(&m) == 19900);
    CHECK(mls_forget(&m, UINT64_MAX) == MLS_OK && mls_forgotten(&m) == 20000);
    CHECK(mls_submit(&m, 1, &get, &a) == MLS_OK && a.number == 20000);
    CHECK(mls_entry(&m, 20000, &e) == MLS_OK && e.number == 20000 && mls_entries(&m) == 20001);
    mls_close(&m);
}

/* Opens a closed handle with what another one holds and an empty journal. Returns its start file, which the caller frees,
 * and tells the new numbers of the other's objects; NULL where there is no memory. docs/EMBEDDING.md shows it. */
static char *rotated(mls_monitor *old, mls_monitor *fresh, size_t *len, uint16_t *numbers) {
    mls_fault fault;
    char *text;
    if (mls_state_start(old, NULL, 0, len, numbers) != MLS_ERANGE || !(text = malloc(*len))) return NULL;
    if (mls_state_start(old, text, *len, len, numbers) == MLS_OK &&
        mls_open(fresh, (const uint8_t *)text, *len, &fault) == MLS_OK)
        return text;
    free(text);
    return NULL;
}

/* Leaves the standard start's handle with these objects: memo is deleted, and below the root stands one that sec made and
 * has append access to, with another below it. */
static void leave_changed(mls_t *m) {
    mls_answer_t a;
    mls_label l, i, c;
    open_standard(m);
    l = label(m, MLS_SECURITY_LABEL, "S:B");
    i = label(m, MLS_INTEGRITY_LABEL, "lo");
    c = label(m, MLS_SECURITY_LABEL, "C");
    CHECK(mls_get(m, 0, ANN, PLANS, MLS_READ, &a) == MLS_OK && a.reply == MLS_YES);
    CHECK(mls_get(m, 0, SEC, ROOT, MLS_WRITE, &a) == MLS_OK && a.reply == MLS_YES);
    CHECK(mls_create(m, 0, SEC, ROOT, &l, &i, &a) == MLS_OK && a.object == 4);
    CHECK(mls_give(m, 0, SEC, SEC, 4, MLS_APPEND, &a) == MLS_OK && a.reply == MLS_YES);
    CHECK(mls_give(m, 0, SEC, BOB, 4, MLS_READ, &a) == MLS_OK && a.reply == MLS_YES);
    CHECK(mls_get(m, 0, SEC, 4, MLS_APPEND, &a) == MLS_OK && a.reply == MLS_YES);
    CHECK(mls_create(m, 0, SEC, 4, &l, &i, &a) == MLS_OK && a.object == 5);
    CHECK(mls_delete(m, 0, SEC, MEMO, &a) == MLS_OK && a.reply == MLS_YES);
    CHECK(mls_level(m, 0, BOB, &c, &a) == MLS_OK && a.reply == MLS_YES);
}

static int same_label(const mls_label *a, const mls_label *b) {
    return a->level == b->level && memcmp(a->categories, b->categories, sizeof a->categories) == 0;
}

/* Whether two handles say the same of a subject and an object, which have these numbers in the second one. */
static void say_the_same(mls_t *m, mls_t *fresh, uint16_t subject, uint16_t object, uint16_t now) {
    mls_pair_info p, q;
    uint8_t mode;
    CHECK(mls_read_pair(m, subject, object, &p) == MLS_OK && mls_read_pair(fresh, subject, now, &q) == MLS_OK);
    CHECK(p.permitted == q.permitted && p.held == q.held);
    for (mode = MLS_EXECUTE; mode <= MLS_WRITE; mode++) {
        mls_request_t get = request(MLS_GET, subject, mode, object), other = request(MLS_GET, subject, mode, now);
        mls_answer_t a, b;
        CHECK(mls_check(m, subject, object, mode) == mls_check(fresh, subject, now, mode));
        CHECK(mls_decide(m, &get, &a) == MLS_OK && mls_decide(fresh, &other, &b) == MLS_OK && a.reply == b.reply);
    }
}

static void rotating(void) {
    static const uint16_t wanted[] = {0, 1, MLS_OBJECTS, 2, 3, 4};
    mls_t m = MLS_INIT, fresh = MLS_INIT;
    mls_counts before, after;
    mls_object_info o, p;
    mls_subject_info s, t;
    uint16_t object, subject, n;
    size_t len = 0, other = 0;
    char *text, *again, name[8];
    leave_changed(&m);
    CHECK(mls_count(&m, &before) == MLS_OK);
    text = rotated(&m, &fresh, &len, numbers);
    CHECK(text && mls_count(&m, &after) == MLS_OK && after.entries == before.entries && after.next == 6);
    CHECK(mls_count(&fresh, &after) == MLS_OK && after.entries == 0 && after.subjects == before.subjects);
    CHECK(after.objects == before.objects && after.next == before.objects);
    for (object = 0; object < MLS_OBJECTS; object++) {
        CHECK(numbers[object] == (object < 6 ? wanted[object] : MLS_OBJECTS));
        CHECK(mls_is_active(&m, object) == (numbers[object] < MLS_OBJECTS));
    }
    for (object = 0; object < 6; object++) {
        if (!mls_is_active(&m, object)) continue;
        CHECK(mls_read_object(&m, object, &o) == MLS_OK && mls_read_object(&fresh, numbers[object], &p) == MLS_OK);
        CHECK(same_label(&o.security, &p.security) && same_label(&o.integrity, &p.integrity) && numbers[o.parent] == p.parent);
        for (subject = ANN; subject <= AUD; subject++) say_the_same(&m, &fresh, subject, object, numbers[object]);
    }
    for (subject = ANN; subject <= AUD; subject++) {
        CHECK(mls_read_subject(&m, subject, &s) == MLS_OK && mls_read_subject(&fresh, subject, &t) == MLS_OK && s.trusted == t.trusted);
        CHECK(same_label(&s.maximum, &t.maximum) && same_label(&s.current, &t.current) && same_label(&s.integrity, &t.integrity));
    }
    CHECK(mls_object(&fresh, (const uint8_t *)"tool", 4, &n) == MLS_OK && n == 2 && mls_object(&fresh, (const uint8_t *)"memo", 4, &n) == MLS_ENOTFOUND);
    CHECK(mls_object_name(&fresh, 3, name, sizeof name, &other) == MLS_OK && other == 2 && memcmp(name, "o4", 2) == 0);
    /* what it opens with is a state, which has the same start file: no number changes */
    again = malloc(len);
    CHECK(mls_state_start(&fresh, again, len, &other, numbers) == MLS_OK && other == len && memcmp(again, text, len) == 0);
    for (object = 0; object < MLS_OBJECTS; object++) CHECK(numbers[object] == (object < 5 ? object : MLS_OBJECTS));
    /* the buffer is too short by one byte: only the length is told */
    memset(again, '#', len);
    numbers[0] = 77;
    other = 0;
    CHECK(mls_state_start(&m, again, len - 1, &other, numbers) == MLS_ERANGE && other == len && again[0] == '#' && numbers[0] == 77);
    free(again);
    free(text);
    mls_close(&m);
    mls_close(&fresh);
}

/* Each allocation of writing a start is refused in turn: nothing is told, nothing changes and nothing leaks. */
static void refused_rotations(void) {
    mls_t m = MLS_INIT;
    long k, before;
    int status = MLS_ENOMEM;
    size_t len;
    char text[4096];
    leave_changed(&m);
    before = live;
    for (k = 0; status != MLS_OK && k < 100000; k++) {
        len = 7;
        numbers[0] = 77;
        text[0] = '#';
        left = k;
        status = mls_state_start(&m, text, sizeof text, &len, numbers);
        left = -1;
        CHECK(status == MLS_OK || (status == MLS_ENOMEM && len == 7 && numbers[0] == 77 && text[0] == '#'));
        CHECK(live == before && mls_entries(&m) == 9);
    }
    CHECK(k > 20 && len < sizeof text && numbers[0] == 0 && text[0] == '{');
    mls_close(&m);
}

/* The text of the present state, which the caller frees; NULL where there is no memory. docs/EMBEDDING.md shows it. */
static char *state_of(mls_monitor *m, size_t *len) {
    char *text;
    if (mls_state_text(m, NULL, 0, len) != MLS_ERANGE || !(text = malloc(*len))) return NULL;
    if (mls_state_text(m, text, *len, len) == MLS_OK) return text;
    free(text);
    return NULL;
}

/* Opens a closed handle that goes on where a store was: from the text of a state to which number entries led, and with the
 * count entries behind that, which are asked again. Returns whether they are answered as they were; the handle is closed
 * where they aren't. docs/EMBEDDING.md shows it. */
static int went_on(mls_monitor *m, const uint8_t *file, size_t file_len, const char *state, size_t len, uint64_t number,
                   const mls_journal_entry *behind, size_t count) {
    mls_fault fault;
    mls_answer a;
    size_t n = 0;
    if (mls_open_state(m, file, file_len, (const uint8_t *)state, len, number, &fault) != MLS_OK) return 0;
    while (n < count && mls_submit(m, behind[n].session, &behind[n].request, &a) == MLS_OK &&
           a.number == behind[n].number && a.reply == behind[n].reply && a.object == behind[n].object)
        n++;
    if (n < count) mls_close(m);
    return n == count;
}

static int same_text(const char *a, size_t len, const char *b, size_t other) {
    return a && b && len == other && memcmp(a, b, len) == 0;
}

static const mls_label no_label = {0, {0, 0, 0, 0}};

/* The text of the state that the standard start opens with. */
static const char *const opening_state =
    "profile 1\n"
    "next 4\n"
    "subject ann maximum S:A current S:A integrity hi\n"
    "subject bob maximum C current U integrity lo\n"
    "subject sec maximum T:A,B current U integrity hi trusted\n"
    "subject aud maximum S:A current U integrity hi trusted\n"
    "object root security U integrity hi\n"
    "object plans security S:A integrity hi parent root\n"
    "object memo security C integrity lo parent root\n"
    "object tool security U integrity lo parent root\n"
    "permit ann read plans\n"
    "permit ann write plans\n"
    "permit ann read memo\n"
    "permit ann execute tool\n"
    "permit bob append plans\n"
    "permit bob read memo\n"
    "permit bob execute tool\n"
    "permit sec write root\n"
    "permit sec write plans\n"
    "permit sec append memo\n"
    "permit sec write memo\n"
    "permit aud read plans\n";

static int opens_state(mls_t *m, const char *text, size_t len, uint64_t number, mls_fault_t *f) {
    return mls_open_state(m, start, start_len, (const uint8_t *)text, len, number, f);
}

static void state_texts(void) {
    mls_t m = MLS_INIT, on = MLS_INIT;
    mls_fault_t f = no_fault;
    mls_answer_t a;
    mls_entry_t e;
    size_t len = 9, all = strlen(opening_state);
    char buf[2048], *text;
    open_standard(&m);
    /* as it is told, with room, with just enough, with too little and with none */
    memset(buf, '#', sizeof buf);
    CHECK(mls_state_text(&m, buf, sizeof buf, &len) == MLS_OK && same_text(buf, len, opening_state, all) && buf[len] == '#');
    memset(buf, '#', sizeof buf);
    CHECK(mls_state_text(&m, buf, all, &len) == MLS_OK && same_text(buf, len, opening_state, all) && buf[len] == '#');
    memset(buf, '#', sizeof buf);
    len = 9;
    CHECK(mls_state_text(&m, buf, all - 1, &len) == MLS_ERANGE && len == all && buf[0] == '#' && buf[all - 2] == '#');
    len = 9;
    CHECK(mls_state_text(&m, NULL, 0, &len) == MLS_ERANGE && len == all && mls_entries(&m) == 0);
    mls_close(&m);
    /* a handle that goes on: objects keep their numbers, and so do entries */
    leave_changed(&m);
    text = state_of(&m, &len);
    CHECK(opens_state(&on, text, len, mls_entries(&m), &f) == MLS_OK && same_fault(&f, &no_fault));
    CHECK(mls_entries(&on) == 9 && mls_forgotten(&on) == 9 && mls_entry(&on, 8, &e) == MLS_ENOTFOUND && mls_entry(&on, 9, &e) == MLS_ENOTFOUND);
    CHECK(mls_entry_text(&on, 0, buf, sizeof buf, &len) == MLS_ENOTFOUND && mls_check(&on, SEC, 4, MLS_APPEND) == 1);
    CHECK(mls_is_active(&on, MEMO) == 0 && mls_is_active(&on, 5) == 1 && mls_is_active(&on, 6) == 0);
    CHECK(mls_create(&on, 3, SEC, ROOT, &no_label, &no_label, &a) == MLS_OK && a.number == 9 && a.object == 6);
    CHECK(mls_entries(&on) == 10 && mls_forgotten(&on) == 9 && mls_entry(&on, 9, &e) == MLS_OK && e.number == 9 && e.session == 3);
    CHECK(mls_forget(&on, 5) == MLS_OK && mls_forgotten(&on) == 9 && mls_forget(&on, 10) == MLS_OK && mls_forgotten(&on) == 10);
    /* an open handle stays as it is */
    CHECK(opens_state(&on, opening_state, all, 0, &f) == MLS_EOPEN && opens_state(&on, "x", 1, 0, &f) == MLS_EOPEN);
    CHECK(mls_open_state(&on, NULL, 0, NULL, 0, UINT64_MAX, &f) == MLS_EOPEN && same_fault(&f, &no_fault) && mls_entries(&on) == 10);
    mls_close(&on);
    mls_close(&m);
    free(text);
    /* with no entry before it is as it was opened */
    CHECK(opens_state(&on, opening_state, all, 0, &f) == MLS_OK && mls_entries(&on) == 0 && mls_forgotten(&on) == 0);
    CHECK(mls_get(&on, 5, ANN, PLANS, MLS_READ, &a) == MLS_OK && a.number == 0 && a.reply == MLS_YES);
    mls_close(&on);
    is_closed(&on);
}

static void numbers_of_entries(void) {
    const uint64_t most = (uint64_t)1 << 63;
    mls_t m = MLS_INIT;
    mls_fault_t f = no_fault;
    mls_answer_t a;
    char buf[64];
    size_t len = 0, all = strlen(opening_state);
    CHECK(opens_state(&m, opening_state, all, most + 1, &f) == MLS_EINVAL && opens_state(&m, opening_state, all, UINT64_MAX, &f) == MLS_EINVAL);
    is_closed(&m);
    CHECK(opens_state(&m, opening_state, all, most, &f) == MLS_OK && mls_entries(&m) == most && mls_forgotten(&m) == most);
    CHECK(mls_get(&m, 5, ANN, PLANS, MLS_READ, &a) == MLS_OK && a.number == most && mls_entries(&m) == most + 1);
    CHECK(mls_entry_text(&m, most, buf, sizeof buf, &len) == MLS_OK && len == 39 && memcmp(buf, "9223372036854775808 5 0 get-read 1 yes\n", len) == 0);
    /* it is never forgotten */
    CHECK(mls_forget(&m, UINT64_MAX) == MLS_OK && mls_forgotten(&m) == most && mls_entry_text(&m, most, buf, sizeof buf, &len) == MLS_OK);
    mls_close(&m);
    CHECK(opens_state(&m, opening_state, all, most - 1, &f) == MLS_OK && mls_get(&m, 5, ANN, PLANS, MLS_READ, &a) == MLS_OK);
    CHECK(a.number == most - 1 && mls_forget(&m, UINT64_MAX) == MLS_OK && mls_forgotten(&m) == most);
    mls_close(&m);
    CHECK(same_fault(&f, &no_fault));
}

/* The place of a fault of lines that don't fit together: some line tells. */
static const uint64_t ANYWHERE = UINT64_MAX;

/* A text that is refused with this fault, which leaves the handle closed. */
static void refused_text(const char *text, size_t len, uint16_t kind, uint64_t place) {
    mls_t m = MLS_INIT;
    mls_fault_t f = no_fault;
    CHECK(opens_state(&m, text, len, 7, &f) == MLS_ESTATE);
    CHECK(f.kind == kind && f.number == 0 && (f.place == place || place == ANYWHERE));
    is_closed(&m);
}

/* The text of the opening state with a part of it changed, once. */
static const char *changed(const char *part, const char *other) {
    static char text[2048];
    const char *at = strstr(opening_state, part);
    CHECK(at != NULL);
    if (at) sprintf(text, "%.*s%s%s", (int)(at - opening_state), opening_state, other, at + strlen(part));
    return text;
}

static void refused_part(const char *part, const char *other, uint16_t kind, uint64_t place) {
    const char *text = changed(part, other);
    refused_text(text, strlen(text), kind, place);
}

static void refused_end(const char *lines, uint16_t kind, uint64_t place) { refused_part("permit aud read plans\n", lines, kind, place); }

static void refused_states(void) {
    mls_t m = MLS_INIT;
    mls_fault_t f = no_fault;
    mls_answer_t a;
    const char *text;
    size_t all = strlen(opening_state);
    /* lines that are not as they must be, and how many stand before */
    refused_text("", 0, 1, 0);
    refused_text(NULL, 0, 1, 0);
    refused_text("\n", 1, 1, 0);
    refused_text("\xff\n", 2, 1, 0);
    refused_text(opening_state, all - 1, 1, 21);
    refused_text(opening_state, 10, 1, 0);
    refused_part("profile 1", "profile 3", 1, 0);
    refused_part("profile 1", "profile 1 ", 1, 0);
    refused_part("profile 1\n", "profile 1\r\n", 1, 0);
    refused_part("profile 1\n", "", 1, 0);
    refused_part("profile 1\n", "\nprofile 1\n", 1, 0);
    refused_part("next 4", "next 3", 1, 1);
    refused_part("next 4", "next 04", 1, 1);
    refused_part("next 4", "next 4097", 1, 1);
    refused_part("next 4", "next", 1, 1);
    refused_part("subject bob", "subject bop", 1, 3);
    refused_part("current S:A", "current Q", 1, 2);
    refused_part("object plans", "object #1", 1, 7);
    refused_part("object plans", "object plan", 1, 7);
    refused_part("hi parent root\n", "hi\n", 1, ANYWHERE);
    /* (a parent may have a greater number than its child: this one is a state, and isn't compatible) */
    refused_part("hi parent root\n", "hi parent memo\n", 3, 0);
    refused_part("hi parent root\n", "hi parent plans\n", 1, 7);
    refused_part("permit ann read plans", "permit ann reads plans", 1, 10);
    refused_part("permit ann read plans", "permit zoe read plans", 1, 10);
    refused_part("permit ann read plans", "permit ann read #1", 1, 10);
    refused_part("permit ann read plans", "permit ann read #9", 1, 10);
    refused_part("permit ann read plans", "permits ann read plans", 1, 10);
    refused_part("permit ann read plans\npermit ann write plans\n", "permit ann write plans\npermit ann read plans\n", 1, 10);
    refused_part("permit ann read plans\n", "permit ann read plans\npermit ann read plans\n", 1, 11);
    refused_part("subject aud maximum S:A current U integrity hi trusted\n", "", 1, 20);
    refused_end("permit aud read plans\n\n", 1, 22);
    refused_end("permit aud read plans\nx\n", 1, 22);
    refused_end("permit aud read plans\naccess ann write plans\naccess ann read plans\n", 1, 22);
    refused_end("permit aud read plans\naccess ann read plans\naccess ann read plans\n", 1, 23);
    /* states of another start */
    refused_part("profile 1", "profile 2", 2, 0);
    refused_part("subject bob maximum C", "subject bob maximum S", 2, 0);
    refused_part("current U integrity lo", "current U integrity hi", 2, 0);
    refused_part("integrity hi trusted", "integrity hi", 2, 0);
    refused_part("integrity lo\nsubject sec", "integrity lo trusted\nsubject sec", 2, 0);
    /* states that are not secure: by star, by the matrix, by simple security, by integrity, by a ceiling, by a parent */
    refused_end("permit aud read plans\naccess bob read memo\n", 3, 0);
    refused_end("permit aud read plans\naccess ann append plans\n", 3, 0);
    refused_end("permit aud read plans\npermit aud read tool\naccess aud read tool\n", 3, 0);
    refused_part("maximum C current U", "maximum C current S", 3, 0);
    refused_part("object root security U", "object root security C", 3, 0);
    refused_part("object root security U integrity hi", "object root security U integrity lo", 3, 0);
    /* what is another secure state of the start is taken */
    text = changed("next 4", "next 9");
    CHECK(opens_state(&m, text, strlen(text), 7, &f) == MLS_OK && mls_get(&m, 0, SEC, ROOT, MLS_WRITE, &a) == MLS_OK && a.number == 7);
    CHECK(mls_create(&m, 0, SEC, ROOT, &no_label, &no_label, &a) == MLS_OK && a.object == 9);
    mls_close(&m);
    text = changed("permit aud read plans\n", "permit aud read plans\naccess ann read plans\n");
    CHECK(opens_state(&m, text, strlen(text), 7, &f) == MLS_OK && mls_check(&m, ANN, PLANS, MLS_READ) == 1);
    mls_close(&m);
    CHECK(same_fault(&f, &no_fault));
    /* the start comes first, and the number last */
    CHECK(mls_open_state(&m, NULL, 0, NULL, 0, UINT64_MAX, &f) == MLS_ESTART && f.kind == 1 && f.number == 0 && f.place == 0);
    CHECK(mls_open_state(&m, (const uint8_t *)"{}", 2, (const uint8_t *)opening_state, all, 7, &f) == MLS_ESTART && f.kind == 2);
    CHECK(opens_state(&m, "x", 1, UINT64_MAX, &f) == MLS_ESTATE && f.kind == 1 && m.held == 0);
}

/* How many texts of those that were tried are of a state, and how many of none. */
static long read_texts, unread_texts;

/* A text is refused, or is that of the state that is then in the handle. */
static void read_or_refused(const char *text, size_t len) {
    mls_t m = MLS_INIT;
    mls_fault_t f = no_fault;
    int status = opens_state(&m, text, len, 7, &f);
    if (status == MLS_OK) {
        size_t other;
        char *again = state_of(&m, &other);
        CHECK(same_text(text, len, again, other) && same_fault(&f, &no_fault) && mls_entries(&m) == 7);
        free(again);
        read_texts++;
    } else {
        CHECK(status == MLS_ESTATE && m.held == 0 && f.kind >= 1 && f.kind <= 3 && f.number == 0 && (f.kind == 1 || f.place == 0));
        unread_texts++;
    }
    mls_close(&m);
}

/* The text of a state with each of its bytes changed, with each of its lines left out, doubled or exchanged with the next
 * one, and cut off at each byte. */
static void damaged_states(void) {
    enum { LINES = 64 };
    mls_t m = MLS_INIT;
    size_t len, at[LINES + 1], count = 0, n;
    char *text, *other;
    leave_changed(&m);
    text = state_of(&m, &len);
    mls_close(&m);
    if (!text || !(other = malloc(2 * len))) {
        CHECK(0);
        return;
    }
    at[0] = 0;
    for (n = 0; n < len && count < LINES; n++)
        if (text[n] == '\n') at[++count] = n + 1;
    CHECK(count > 20 && at[count] == len);
    read_texts = unread_texts = 0;
    for (n = 0; n < len; n++) {
        memcpy(other, text, len);
        other[n] = (char)(text[n] ^ 1 << n % 7);
        read_or_refused(other, len);
        other[n] = (char)(text[n] ^ 3);
        read_or_refused(other, len);
        if (n % 8 == 0) other[n] = (char)0x80, read_or_refused(other, len);
        if (n % 8 == 1) other[n] = 0, read_or_refused(other, len);
        if (n % 4 == 2) read_or_refused(text, n);
    }
    for (n = 0; n < count; n++) {
        size_t one = at[n + 1] - at[n], next = n + 1 < count ? at[n + 2] - at[n + 1] : 0;
        memcpy(other, text, at[n]);
        memcpy(other + at[n], text + at[n + 1], len - at[n + 1]);
        read_or_refused(other, len - one);
        memcpy(other, text, at[n + 1]);
        memcpy(other + at[n + 1], text + at[n], len - at[n]);
        refused_text(other, len + one, 1, memcmp(text + at[n], "object", 6) ? n + 1 : ANYWHERE);
        if (!next) continue;
        memcpy(other, text, len);
        memcpy(other + at[n], text + at[n + 1], next);
        memcpy(other + at[n] + next, text + at[n], one);
        read_or_refused(other, len);
    }
    CHECK(read_texts > 0 && unread_texts > (long)len);
    free(other);
    free(text);
}

/* The starts of the examples, in the folder of the standard one. */
static const char *const examples[] = {"standard", "reused", "office", "database", "guard", "held", "wide"};
static const char *standard;

static uint8_t other_start[1 << 16];
static size_t other_len;

/* Reads the start file of an example. */
static void read_example(const char *name) {
    const char *end = strrchr(standard, '/');
    char path[4096];
    FILE *file;
    sprintf(path, "%.*s%.1000s.json", end ? (int)(end + 1 - standard) : 0, standard, name);
    file = fopen(path, "rb");
    CHECK(file != NULL);
    other_len = file ? fread(other_start, 1, sizeof other_start, file) : 0;
    if (file) fclose(file);
}

static uint32_t chance = 2463534242u;

/* A number below another one, by chance. */
static uint16_t drawn(unsigned below) {
    chance ^= chance << 13, chance ^= chance >> 17, chance ^= chance << 5;
    return (uint16_t)((chance >> 4) % below);
}

/* A label of an object or a subject of the state, or any of few levels and categories. */
static mls_label drawn_label(mls_t *m, int kind, const mls_counts *c, unsigned objects) {
    mls_object_info o;
    mls_subject_info s;
    unsigned n = drawn(8);
    if (n > 2 && mls_read_object(m, drawn(objects), &o) == MLS_OK) return kind == MLS_SECURITY_LABEL ? o.security : o.integrity;
    if (n && mls_read_subject(m, drawn(c->subjects), &s) == MLS_OK)
        return kind == MLS_INTEGRITY_LABEL ? s.integrity : n & 1 ? s.current : s.maximum;
    return bits((uint8_t)drawn(5), drawn(4), 0);
}

/* A request by chance. It follows up what was answered last: what was made is often given, and what was given is got, so
 * that there is more below it. */
static mls_request_t drawn_request(mls_t *m, const mls_request_t *last, const mls_answer_t *a) {
    mls_request_t q = request((uint8_t)drawn(10), 0, (uint8_t)drawn(4), 0);
    mls_counts c = {0, 0, 0, 0};
    unsigned objects;
    CHECK(mls_count(m, &c) == MLS_OK);
    objects = (c.next > c.objects ? c.next : c.objects) + 3u;
    if (a->reply == MLS_CREATED && drawn(4)) {
        q = request(MLS_GIVE, last->subject, drawn(4) ? MLS_WRITE : MLS_READ, a->object);
        q.other = drawn(2) ? last->subject : drawn(c.subjects);
        return q;
    }
    if (last->action == MLS_GIVE && a->reply == MLS_YES && drawn(4)) return request(MLS_GET, last->other, last->mode, last->object);
    if (q.action > MLS_OBJECT_LEVEL) q.action = q.action & 1 ? MLS_GET : MLS_CREATE;
    q.subject = drawn(c.subjects + !drawn(32));
    q.other = drawn(c.subjects);
    q.object = drawn(3) ? drawn(objects) : ROOT;
    if (q.object == ROOT && q.action == MLS_GET) q.mode = MLS_WRITE;
    q.security = drawn_label(m, MLS_SECURITY_LABEL, &c, objects);
    q.integrity = drawn_label(m, MLS_INTEGRITY_LABEL, &c, objects);
    return q;
}

/* The same text of both handles. */
static void have_one_text(mls_t *m, mls_t *on) {
    size_t len, other;
    char *text = state_of(m, &len), *again = state_of(on, &other);
    CHECK(same_text(text, len, again, other));
    free(text);
    free(again);
}

/* How many objects were made and deleted, and how often a parent had a greater number than its child. */
static long made, deleted, backwards;

static void counted(mls_t *m, const mls_request_t *q, const mls_answer_t *a) {
    mls_object_info o;
    deleted += q->action == MLS_DELETE && a->reply == MLS_YES;
    if (a->reply != MLS_CREATED) return;
    made++;
    CHECK(mls_read_object(m, a->object, &o) == MLS_OK);
    backwards += o.parent > a->object;
}

/* A handle of the same start goes on from the text of another one's state: it has the same text, and answers as many
 * requests alike, under the same numbers. */
static void goes_on_alike(mls_t *m, const uint8_t *file, size_t file_len, int requests) {
    mls_t on = MLS_INIT;
    mls_request_t q = request(MLS_RELEASE, 0, 0, 0);
    mls_answer_t a = {0, 0, 0}, b;
    size_t len = 0;
    char *text = state_of(m, &len);
    uint64_t number = mls_entries(m);
    long wrong = 0;
    int n;
    CHECK(went_on(&on, file, file_len, text, len, number, NULL, 0));
    have_one_text(m, &on);
    for (n = 0; n < requests; n++) {
        q = drawn_request(m, &q, &a);
        b = no_answer;
        wrong += mls_submit(m, 5, &q, &a) != MLS_OK || mls_submit(&on, 5, &q, &b) != MLS_OK || !same_answer(&a, &b);
        wrong += a.number != number + (uint64_t)n;
        counted(m, &q, &a);
    }
    CHECK(wrong == 0);
    have_one_text(m, &on);
    mls_close(&on);
    free(text);
}

static void states_of_examples(void) {
    mls_t m = MLS_INIT;
    mls_fault_t f = no_fault;
    size_t n;
    int k;
    made = deleted = backwards = 0;
    for (n = 0; n < sizeof examples / sizeof *examples; n++) {
        read_example(examples[n]);
        CHECK(mls_open(&m, other_start, other_len, &f) == MLS_OK);
        /* (where numbers are used again, it takes many until a parent has a greater one than its child) */
        for (k = 0; k < (strcmp(examples[n], "reused") ? 40 : 200); k++) goes_on_alike(&m, other_start, other_len, 100);
        mls_close(&m);
    }
    CHECK(made > 500 && deleted > 200 && backwards > 10);
}

/* All numbers are in use; and, with profile 2, parents whose numbers are greater than those of all below them. */
static void full_states(void) {
    enum { CHAIN = 200 };
    mls_t m = MLS_INIT;
    mls_fault_t f = no_fault;
    mls_answer_t a;
    mls_label high = bits(1, 0, 0);
    uint16_t n;
    open_standard(&m);
    CHECK(mls_get(&m, 0, SEC, ROOT, MLS_WRITE, &a) == MLS_OK && a.reply == MLS_YES);
    do CHECK(mls_create(&m, 0, SEC, ROOT, &no_label, &no_label, &a) == MLS_OK);
    while (a.reply == MLS_CREATED);
    CHECK(mls_reason_of(a.reply) == MLS_FULL);
    goes_on_alike(&m, start, start_len, 0);
    CHECK(mls_delete(&m, 0, SEC, 7, &a) == MLS_OK && mls_delete(&m, 0, SEC, MLS_OBJECTS - 1, &a) == MLS_OK && a.reply == MLS_YES);
    goes_on_alike(&m, start, start_len, 10);
    /* all that were made are gone, and no number is left */
    for (n = 4; n < MLS_OBJECTS; n++) CHECK(mls_delete(&m, 0, SEC, n, &a) == MLS_OK);
    goes_on_alike(&m, start, start_len, 10);
    mls_close(&m);
    read_example("reused");
    CHECK(mls_open(&m, other_start, other_len, &f) == MLS_OK && mls_get(&m, 0, SEC, ROOT, MLS_WRITE, &a) == MLS_OK);
    for (n = 4; n < 4 + CHAIN; n++) CHECK(mls_create(&m, 0, SEC, ROOT, &no_label, &high, &a) == MLS_OK && a.object == n);
    for (n = 2 + CHAIN; n > 4; n--) {
        uint16_t parent = (uint16_t)(n + 1);
        CHECK(mls_give(&m, 0, SEC, SEC, parent, MLS_WRITE, &a) == MLS_OK && mls_get(&m, 0, SEC, parent, MLS_WRITE, &a) == MLS_OK);
        CHECK(a.reply == MLS_YES && mls_delete(&m, 0, SEC, n, &a) == MLS_OK && a.reply == MLS_YES);
        CHECK(mls_create(&m, 0, SEC, parent, &no_label, &high, &a) == MLS_OK && a.object == n);
    }
    goes_on_alike(&m, other_start, other_len, 0);
    CHECK(mls_delete(&m, 0, SEC, CHAIN / 2, &a) == MLS_OK && a.reply == MLS_YES);
    goes_on_alike(&m, other_start, other_len, 100);
    do CHECK(mls_create(&m, 0, SEC, ROOT, &no_label, &high, &a) == MLS_OK);
    while (a.reply == MLS_CREATED);
    goes_on_alike(&m, other_start, other_len, 100);
    mls_close(&m);
}

/* A state of a start isn't one of another profile, with another maximum, or with a subject less. */
static void states_of_other_starts(void) {
    mls_t m = MLS_INIT;
    mls_fault_t f = no_fault;
    size_t all = strlen(opening_state);
    char *file = malloc(start_len + 1), *at;
    read_example("reused");
    CHECK(mls_open_state(&m, other_start, other_len, (const uint8_t *)opening_state, all, 7, &f) == MLS_ESTATE && f.kind == 2 && f.place == 0);
    memcpy(file, start, start_len);
    file[start_len] = 0;
    at = strstr(file, "\"maximum\": \"C\"");
    CHECK(at != NULL);
    if (at) at[12] = 'S';
    f = no_fault;
    CHECK(mls_open_state(&m, (const uint8_t *)file, start_len, (const uint8_t *)opening_state, all, 7, &f) == MLS_ESTATE && f.kind == 2);
    CHECK(f.place == 0 && f.number == 0);
    is_closed(&m);
    /* start and text may be one, which is no state */
    CHECK(mls_open_state(&m, start, start_len, start, start_len, 7, &f) == MLS_ESTATE && f.kind == 1 && f.place == 0);
    free(file);
}

/* A store in memory: the lines of all entries, the entries behind the last state, and that state. */
enum { BEHIND = 256 };
static struct {
    char lines[1 << 20];
    size_t lines_len, state_len, count;
    mls_journal_entry behind[BEHIND];
    char *state;
    uint64_t number;
} kept;

/* Writes down an entry before its answer is acted on. */
static void keep_entry(mls_t *m, uint64_t n) {
    size_t len = 0;
    CHECK(mls_entry_text(m, n, kept.lines + kept.lines_len, sizeof kept.lines - kept.lines_len, &len) == MLS_OK);
    CHECK(kept.count < BEHIND && mls_entry(m, n, &kept.behind[kept.count]) == MLS_OK);
    kept.lines_len += len;
    kept.count++;
}

/* Writes down the state: the entries before it aren't needed to go on any more. */
static void keep_state(mls_t *m) {
    free(kept.state);
    kept.state = state_of(m, &kept.state_len);
    kept.number = mls_entries(m);
    kept.count = 0;
    CHECK(kept.state && mls_forget(m, kept.number) == MLS_OK);
}

/* A store over a start that crashes between two requests, again and again, and a handle that doesn't. */
static void store_of(const uint8_t *file, size_t file_len) {
    mls_t m = MLS_INIT, whole = MLS_INIT;
    mls_request_t q = request(MLS_RELEASE, 0, 0, 0);
    mls_answer_t a = {0, 0, 0}, b = {0, 0, 0};
    mls_fault_t f = no_fault;
    long n, crashes = 0, wrong = 0;
    kept.lines_len = 0;
    CHECK(mls_open(&m, file, file_len, &f) == MLS_OK && mls_open(&whole, file, file_len, &f) == MLS_OK);
    keep_state(&m);
    for (n = 0; n < 3000; n++) {
        q = drawn_request(&m, &q, &a);
        wrong += mls_submit(&m, (uint32_t)n & 7, &q, &a) != MLS_OK || mls_submit(&whole, (uint32_t)n & 7, &q, &b) != MLS_OK;
        wrong += !same_answer(&a, &b) || a.number != (uint64_t)n;
        keep_entry(&m, a.number);
        if (n % 200 == 199) keep_state(&m);
        if (n % 200 != 199 && drawn(100)) continue;
        mls_close(&m);
        CHECK(went_on(&m, file, file_len, kept.state, kept.state_len, kept.number, kept.behind, kept.count));
        CHECK(mls_entries(&m) == (uint64_t)n + 1 && mls_forgotten(&m) == kept.number);
        crashes++;
    }
    CHECK(wrong == 0 && crashes > 20);
    have_one_text(&m, &whole);
    /* an entry that isn't answered as it was says that the state isn't the one that was left */
    for (n = 0; n < 5; n++) {
        CHECK(mls_submit(&m, 0, &q, &a) == MLS_OK);
        keep_entry(&m, a.number);
    }
    mls_close(&m);
    mls_close(&whole);
    kept.behind[3].reply ^= 1;
    CHECK(!went_on(&m, file, file_len, kept.state, kept.state_len, kept.number, kept.behind, kept.count) && m.held == 0);
    kept.behind[3].reply ^= 1;
    CHECK(!went_on(&m, file, file_len, kept.state, kept.state_len, kept.number + 1, kept.behind, kept.count) && m.held == 0);
    CHECK(went_on(&m, file, file_len, kept.state, kept.state_len, kept.number, kept.behind, kept.count));
    /* the lines before each state and behind it are one journal, which leads to the same state */
    CHECK(mls_resume(&whole, file, file_len, (const uint8_t *)kept.lines, kept.lines_len, &f) == MLS_OK);
    CHECK(mls_entries(&whole) == mls_entries(&m) && mls_forgotten(&whole) == 0 && same_fault(&f, &no_fault));
    have_one_text(&m, &whole);
    mls_close(&m);
    mls_close(&whole);
    free(kept.state);
    kept.state = NULL;
}

static void stores_that_go_on(void) {
    long before = live;
    store_of(start, start_len);
    read_example("reused");
    store_of(other_start, other_len);
    CHECK(live == before);
}

/* Each allocation of a state's text, and of opening with it, is refused in turn: nothing is told, nothing changes and
 * nothing leaks. */
static void refused_going_on(void) {
    mls_t m = MLS_INIT;
    size_t len = 0, other = 0;
    char text[4096], again[4096];
    long k, before;
    int status = MLS_ENOMEM;
    leave_changed(&m);
    before = live;
    for (k = 0; status != MLS_OK && k < 10000; k++) {
        len = 7;
        text[0] = '#';
        left = k;
        status = mls_state_text(&m, text, sizeof text, &len);
        left = -1;
        CHECK(status == MLS_OK || (status == MLS_ENOMEM && len == 7 && text[0] == '#'));
        CHECK(live == before && mls_entries(&m) == 9);
    }
    CHECK(k > 1 && len < sizeof text && text[0] == 'p');
    mls_close(&m);
    before = live;
    status = MLS_ENOMEM;
    for (k = 0; status != MLS_OK && k < 100000; k++) {
        mls_fault_t f = no_fault;
        left = k;
        status = opens_state(&m, text, len, 9, &f);
        left = -1;
        CHECK(status == MLS_OK || (status == MLS_ENOMEM && m.held == 0));
        CHECK(same_fault(&f, &no_fault) && (status == MLS_OK || live == before));
    }
    CHECK(k > 20 && mls_entries(&m) == 9 && mls_state_text(&m, again, sizeof again, &other) == MLS_OK && same_text(text, len, again, other));
    mls_close(&m);
    CHECK(live == before);
}

/* Closed handles of sessions, each call of which says so. */
static void is_shut(mls_session *s) {
    mls_request_t q = request(MLS_GET, ANN, MLS_READ, PLANS), bad = request(9, 0, 0, 0);
    mls_answer_t a = no_answer;
    int held = 7;
    CHECK(s->held == 0 && s->place == NULL);
    CHECK(mls_session_submit(s, &q, &a) == MLS_ECLOSED && mls_session_submit(s, &bad, &a) == MLS_ECLOSED);
    CHECK(mls_session_decide(s, &q, &a) == MLS_ECLOSED && mls_session_decide(s, &bad, &a) == MLS_ECLOSED);
    CHECK(mls_session_check(s, ANN, PLANS, MLS_READ, &held) == MLS_ECLOSED && held == 0);
    CHECK(same_answer(&a, &no_answer));
}

/* An entry by a session: its reply. */
static int entered(mls_session *s, mls_request_t q, uint64_t number) {
    mls_answer_t a = no_answer, w = no_answer;
    CHECK(mls_session_decide(s, &q, &w) == MLS_OK && mls_session_submit(s, &q, &a) == MLS_OK);
    CHECK(a.number == number && same_answer(&a, &w));
    return a.reply;
}

/* What a session is told of an access. */
static int told(mls_session *s, uint16_t subject, uint16_t object) {
    int held = 7;
    CHECK(mls_session_check(s, subject, object, MLS_READ, &held) == MLS_OK);
    return held;
}

/* An office that was dropped leaves sessions: no other office takes them for its own, though it may have the address of the
 * first. What they are refused for is as it was. */
static void dropped_offices(void) {
    mls_t m = MLS_INIT, other = MLS_INIT;
    mls_office first = MLS_OFFICE_INIT, second = MLS_OFFICE_INIT;
    mls_session s[2] = {MLS_SESSION_INIT, MLS_SESSION_INIT}, t[2] = {MLS_SESSION_INIT, MLS_SESSION_INIT}, mixed[2];
    long n, before = live;
    for (n = 0; n < 20; n++) {
        open_standard(&m);
        open_standard(&other);
        CHECK(mls_office_open(&first, &m, s, 2) == MLS_OK);
        mls_office_drop(&first);
        CHECK(mls_office_open(&second, &other, t, 2) == MLS_OK);
        CHECK(mls_office_close(&second, s, &m) == MLS_EINVAL && !m.held && second.held && s[0].held && s[1].held);
        mixed[0] = t[0], mixed[1] = s[1];
        CHECK(mls_office_close(&second, mixed, &m) == MLS_EINVAL && !m.held && second.held && t[0].held && s[1].held);
        CHECK(entered(&s[1], request(MLS_GET, ANN, MLS_READ, PLANS), 0) == MLS_YES && told(&s[0], ANN, PLANS) == 1);
        CHECK(told(&t[1], ANN, PLANS) == 0);
        CHECK(mls_office_close(&second, t, &m) == MLS_OK && m.held == 1 && mls_entries(&m) == 0);
        /* nor does the same handle, once it is opened again */
        CHECK(mls_office_open(&second, &m, t, 2) == MLS_OK && mls_office_close(&second, s, &m) == MLS_EINVAL);
        CHECK(mls_office_close(&second, t, &m) == MLS_OK);
        mls_session_drop(&s[0]);
        mls_session_drop(&s[1]);
        mls_close(&m);
        CHECK(live == before);
    }
}

/* Handles that hold the sessions of their places, with the office's serial and their numbers. */
static int are_seated(const mls_office *office, const mls_session *s, uint16_t count) {
    uint16_t n;
    for (n = 0; n < count; n++) {
        if (s[n].held != 1 || s[n].office != office->serial || s[n].number != n) return 0;
    }
    return office->held == 1 && office->count == count;
}

/* Sessions are handed out into the handles of their places, and taken back without memory. A closing that is refused
 * moves none of them. */
static void seats_of_an_office(void) {
    static mls_session all[MLS_SESSIONS];
    mls_t m = MLS_INIT;
    mls_office office = MLS_OFFICE_INIT;
    mls_session s[3] = {MLS_SESSION_INIT, MLS_SESSION_INIT, MLS_SESSION_INIT}, given[3], none = MLS_SESSION_INIT;
    uint64_t first;
    long before = live;
    open_standard(&m);
    CHECK(mls_office_open(&office, &m, s, 3) == MLS_OK && are_seated(&office, s, 3));
    left = 0;
    /* two that are turned, also after one that is closed */
    given[0] = s[0], given[1] = s[2], given[2] = s[1];
    CHECK(mls_office_close(&office, given, &m) == MLS_EINVAL);
    none.office = office.serial;
    given[0] = none;
    CHECK(mls_office_close(&office, given, &m) == MLS_EINVAL);
    /* the last is closed */
    none.number = 2;
    given[0] = s[0], given[1] = s[1], given[2] = none;
    CHECK(mls_office_close(&office, given, &m) == MLS_EBUSY && given[0].held == 1 && given[1].held == 1 && !m.held);
    CHECK(are_seated(&office, s, 3) && mls_office_close(&office, s, &m) == MLS_OK && !office.held && m.held == 1);
    CHECK(!s[0].held && !s[1].held && !s[2].held && s[1].office == office.serial && s[1].number == 1);
    left = -1;
    /* each opening has a serial of its own, and a dropped session stays out */
    first = office.serial;
    CHECK(mls_office_open(&office, &m, s, 2) == MLS_OK && are_seated(&office, s, 2) && office.serial != first);
    CHECK(s[2].office == first && mls_office_close(&office, &s[1], &m) == MLS_EINVAL);
    mls_session_drop(&s[1]);
    left = 0;
    CHECK(mls_office_close(&office, s, &m) == MLS_EBUSY && s[0].held == 1 && office.held == 1 && !m.held);
    left = -1;
    mls_office_drop(&office);
    CHECK(entered(&s[0], request(MLS_GET, ANN, MLS_READ, PLANS), 0) == MLS_YES);
    mls_session_drop(&s[0]);
    /* as many as there may be */
    open_standard(&m);
    CHECK(mls_office_open(&office, &m, all, MLS_SESSIONS) == MLS_OK && are_seated(&office, all, MLS_SESSIONS));
    left = 0;
    CHECK(mls_office_close(&office, all, &m) == MLS_OK && !all[0].held && !all[MLS_SESSIONS - 1].held);
    left = -1;
    mls_close(&m);
    CHECK(live == before);
}

static void offices(void) {
    mls_t m = MLS_INIT, other = MLS_INIT;
    mls_office office = MLS_OFFICE_INIT, second = MLS_OFFICE_INIT;
    mls_session s[3] = {MLS_SESSION_INIT, MLS_SESSION_INIT, MLS_SESSION_INIT}, t[1] = {MLS_SESSION_INIT}, turned[3];
    mls_request_t bad = request(9, 0, 0, 0);
    mls_answer_t a = no_answer;
    mls_entry_t e;
    uint16_t n = 7;
    int held = 7;
    CHECK(mls_office_open(&office, &m, s, 3) == MLS_ECLOSED && mls_office_close(&office, s, &m) == MLS_ECLOSED);
    open_standard(&m);
    CHECK(asked(&m, request(MLS_GET, BOB, MLS_READ, MEMO)) == MLS_DENIED + MLS_STAR);
    CHECK(mls_office_open(&office, &m, s, 0) == MLS_EINVAL && mls_office_open(&office, &m, s, 65) == MLS_EINVAL);
    CHECK(mls_office_open(&office, &m, s, 3) == MLS_OK && office.held == 1 && s[0].held == 1 && s[2].held == 1);
    is_closed(&m);
    open_standard(&other);
    CHECK(mls_office_open(&office, &other, t, 1) == MLS_EOPEN && mls_office_open(&second, &other, s, 1) == MLS_EOPEN);
    CHECK(mls_office_open(&second, &other, t, 1) == MLS_OK);
    /* each sees what the others made, and none sees the other office */
    CHECK(told(&s[0], ANN, PLANS) == 0 && told(&t[0], ANN, PLANS) == 0);
    CHECK(entered(&s[2], request(MLS_GET, ANN, MLS_READ, PLANS), 1) == MLS_YES);
    CHECK(told(&s[0], ANN, PLANS) == 1 && told(&s[1], ANN, PLANS) == 1 && told(&t[0], ANN, PLANS) == 0);
    CHECK(told(&s[0], 65535, 65535) == 0 && told(&s[0], ANN, 4095) == 0 && told(&s[0], 9, PLANS) == 0);
    CHECK(entered(&s[0], request(MLS_GET, BOB, MLS_READ, MEMO), 2) == MLS_DENIED + MLS_STAR && told(&s[1], BOB, MEMO) == 0);
    CHECK(entered(&s[1], request(MLS_RELEASE, ANN, MLS_READ, PLANS), 3) == MLS_YES && told(&s[2], ANN, PLANS) == 0);
    CHECK(mls_session_submit(&s[0], &bad, &a) == MLS_EINVAL && mls_session_decide(&s[0], &bad, &a) == MLS_EINVAL);
    CHECK(mls_session_check(&s[0], ANN, PLANS, 4, &held) == MLS_EINVAL && held == 0 && same_answer(&a, &no_answer));
    /* what can't be closed is as it was */
    CHECK(mls_office_close(&office, t, &m) == MLS_EINVAL);
    turned[0] = s[1], turned[1] = s[0], turned[2] = s[2];
    CHECK(mls_office_close(&office, turned, &m) == MLS_EINVAL);
    CHECK(entered(&s[0], request(MLS_GET, ANN, MLS_READ, PLANS), 4) == MLS_YES && told(&t[0], ANN, PLANS) == 0);
    CHECK(mls_office_close(&second, t, &other) == MLS_OK && other.held == 1 && mls_entries(&other) == 0);
    is_shut(&t[0]);
    CHECK(mls_office_close(&office, s, &other) == MLS_EOPEN);
    CHECK(mls_office_close(&office, s, &m) == MLS_OK && m.held == 1 && !office.held);
    is_shut(&s[0]);
    is_shut(&s[2]);
    CHECK(mls_office_close(&office, s, &other) == MLS_EOPEN);
    /* the one journal, by sessions */
    CHECK(mls_entries(&m) == 5 && mls_entry(&m, 0, &e) == MLS_OK && e.session == 5);
    CHECK(mls_entry(&m, 1, &e) == MLS_OK && e.session == 2 && mls_entry(&m, 2, &e) == MLS_OK && e.session == 0);
    CHECK(mls_entry(&m, 3, &e) == MLS_OK && e.session == 1 && e.reply == MLS_YES && e.request.action == MLS_RELEASE);
    CHECK(mls_check(&m, ANN, PLANS, MLS_READ) == 1 && asked(&m, request(MLS_RELEASE, ANN, MLS_READ, PLANS)) == MLS_YES);
    /* names are there again, and the office may be opened again; one without a session can't be closed */
    CHECK(mls_subject(&m, (const uint8_t *)"sec", 3, &n) == MLS_OK && n == SEC);
    CHECK(mls_office_open(&office, &m, s, 3) == MLS_OK);
    mls_session_drop(&s[1]);
    mls_session_drop(&s[1]);
    is_shut(&s[1]);
    CHECK(mls_office_close(&office, s, &m) == MLS_EBUSY && entered(&s[0], request(MLS_GET, ANN, MLS_READ, PLANS), 6) == MLS_YES);
    mls_office_drop(&office);
    mls_office_drop(&office);
    CHECK(entered(&s[2], request(MLS_RELEASE, ANN, MLS_READ, PLANS), 7) == MLS_YES);
    mls_session_drop(&s[0]);
    mls_session_drop(&s[2]);
    mls_close(&other);
    dropped_offices();
    seats_of_an_office();
}

/* Each allocation of an opening is refused in turn: the monitor is as it was, and what a session that was dropped has of
 * its office. So is each of a submit. */
static void refused_offices(void) {
    mls_t m = MLS_INIT, other = MLS_INIT;
    mls_office office = MLS_OFFICE_INIT, first = MLS_OFFICE_INIT;
    mls_session s[2] = {MLS_SESSION_INIT, MLS_SESSION_INIT};
    mls_request_t q = request(MLS_GET, BOB, MLS_READ, MEMO);
    mls_answer_t a = no_answer;
    long n, before = live, refusals = 0, made_none = 0;
    int status;
    open_standard(&m);
    open_standard(&other);
    CHECK(asked(&m, request(MLS_GET, ANN, MLS_READ, PLANS)) == MLS_YES);
    CHECK(mls_office_open(&first, &other, &s[1], 1) == MLS_OK);
    mls_session_drop(&s[1]);
    for (n = 0;; n++) {
        long blocks = live;
        left = n;
        status = mls_office_open(&office, &m, s, 2);
        left = -1;
        if (status == MLS_OK) break;
        CHECK(status == MLS_ENOMEM && live == blocks && m.held == 1 && !office.held && !s[0].held && !s[1].held);
        CHECK(mls_entries(&m) == 1 && mls_check(&m, ANN, PLANS, MLS_READ) == 1);
        CHECK(mls_office_close(&first, &s[1], &other) == MLS_EBUSY);
        refusals++;
    }
    CHECK(refusals > 10 && mls_office_close(&first, &s[1], &other) == MLS_EINVAL);
    mls_office_drop(&first);
    for (n = 0; n < 10000; n++) {
        left = 0;
        status = mls_session_submit(&s[n % 2], &q, &a);
        left = -1;
        made_none += status == MLS_ENOMEM;
        CHECK(status == MLS_OK || (status == MLS_ENOMEM && mls_session_submit(&s[n % 2], &q, &a) == MLS_OK));
        CHECK(a.number == (uint64_t)n + 1);
    }
    CHECK(made_none > 0);
    left = 0;
    CHECK(mls_office_close(&office, s, &m) == MLS_OK && mls_entries(&m) == 10001);
    left = -1;
    mls_close(&m);
    CHECK(live == before);
}

/* Has each session of an office take turns at a monitor that has two entries of another one, with each allocation refused
 * in turn after the first k: the same call then ends as it should. Returns whether one was refused, and counts those of the
 * opening and of the turns. */
static int turns_with_refusals(uint16_t count, long k, long *opened, long *asked_for) {
    static const uint8_t actions[] = {MLS_GET, MLS_CREATE, MLS_CREATE, MLS_GET, MLS_CREATE};
    mls_t m = MLS_INIT;
    mls_office office = MLS_OFFICE_INIT;
    mls_session s[3] = {MLS_SESSION_INIT, MLS_SESSION_INIT, MLS_SESSION_INIT};
    mls_answer_t a;
    mls_entry_t e;
    mls_counts c;
    uint64_t n = 2;
    uint16_t object = 5, j;
    size_t turn;
    int was_refused;
    open_standard(&m);
    CHECK(asked(&m, request(MLS_GET, SEC, MLS_WRITE, ROOT)) == MLS_YES && asked(&m, request(MLS_CREATE, SEC, 0, ROOT)) == MLS_CREATED);
    left = k;
    if (mls_office_open(&office, &m, s, count) == MLS_ENOMEM) {
        left = -1;
        ++*opened;
        CHECK(m.held == 1 && !office.held && !s[0].held && mls_entries(&m) == 2 && mls_check(&m, SEC, ROOT, MLS_WRITE) == 1);
        CHECK(mls_count(&m, &c) == MLS_OK && c.next == 5 && mls_office_open(&office, &m, s, count) == MLS_OK);
    }
    for (j = 0; j < count; j++)
        for (turn = 0; turn < sizeof actions; turn++, n++) {
            mls_request_t q = request(actions[turn], SEC, MLS_WRITE, ROOT);
            int status;
            a = no_answer;
            status = mls_session_submit(&s[j], &q, &a);
            if (status == MLS_ENOMEM) {
                left = -1;
                ++*asked_for;
                CHECK(same_answer(&a, &no_answer) && mls_session_count(&s[j], &c) == MLS_OK && c.entries == n && c.next == object);
                status = mls_session_submit(&s[j], &q, &a);
            }
            CHECK(status == MLS_OK && a.number == n && a.reply == (q.action == MLS_GET ? MLS_YES : MLS_CREATED));
            CHECK(a.object == (q.action == MLS_GET ? 0 : object));
            object += q.action == MLS_CREATE;
        }
    was_refused = left < 0;
    left = -1;
    CHECK(mls_office_close(&office, s, &m) == MLS_OK && mls_entries(&m) == n && mls_count(&m, &c) == MLS_OK && c.next == object);
    for (n = 0; n < mls_entries(&m); n++) CHECK(mls_entry(&m, n, &e) == MLS_OK && e.session == (n < 2 ? 5 : (n - 2) / 5));
    CHECK(mls_check(&m, SEC, ROOT, MLS_WRITE) == 1);
    mls_close(&m);
    return was_refused;
}

/* The turns of one session and of three. */
static void refused_turns(void) {
    uint16_t count;
    for (count = 1; count <= 3; count += 2) {
        long k = 0, opened = 0, asked_for = 0, before = live;
        while (turns_with_refusals(count, k, &opened, &asked_for) && k < 1000) k++;
        CHECK(k < 1000 && opened >= 3 && asked_for >= count && live == before);
    }
}

static mls_session pair[2] = {MLS_SESSION_INIT, MLS_SESSION_INIT};

/* How often the second session asked while the first was at the monitor. */
static int beside;

/* The second session is told that the monitor is busy, except where it reads a word that is written. */
static void ask_beside(void) {
    mls_request_t q = request(MLS_GET, ANN, MLS_READ, PLANS);
    mls_answer_t a = no_answer;
    uint64_t next = 7;
    size_t len = 7;
    char line[64];
    int held = 7;
    CHECK(mls_session_forget(&pair[1], 1) == MLS_EBUSY && mls_session_submit(&pair[1], &q, &a) == MLS_EBUSY);
    CHECK(mls_session_decide(&pair[1], &q, &a) == MLS_EBUSY && same_answer(&a, &no_answer));
    CHECK(mls_session_entry_text(&pair[1], 0, line, sizeof line, &len, &next) == MLS_EBUSY && len == 7 && next == 7);
    CHECK(mls_session_check(&pair[1], SEC, 4, MLS_READ, &held) == MLS_EBUSY && held == 0);
    CHECK(mls_session_check(&pair[1], ANN, PLANS, MLS_READ, &held) == MLS_OK && held == 1);
    beside++;
}

/* A session asks while another one is at the monitor, which then needs memory for its entry. A check that was answered has
 * written the word of its object, and the word of an object that was deleted is blank. */
static void busy_sessions(void) {
    mls_t m = MLS_INIT;
    mls_office office = MLS_OFFICE_INIT;
    mls_request_t denied = request(MLS_GET, BOB, MLS_READ, MEMO);
    mls_answer_t a;
    uint64_t n, count = 7;
    long before = live;
    open_standard(&m);
    CHECK(mls_office_open(&office, &m, pair, 2) == MLS_OK);
    CHECK(entered(&pair[1], request(MLS_GET, ANN, MLS_READ, PLANS), 0) == MLS_YES && told(&pair[1], ANN, PLANS) == 1);
    CHECK(entered(&pair[1], request(MLS_GET, SEC, MLS_WRITE, ROOT), 1) == MLS_YES);
    CHECK(entered(&pair[1], request(MLS_CREATE, SEC, 0, ROOT), 2) == MLS_CREATED && told(&pair[1], SEC, 4) == 0);
    CHECK(entered(&pair[1], request(MLS_DELETE, SEC, 0, 4), 3) == MLS_YES);
    beside = 0;
    for (n = 4; !beside && n < 10000; n++) {
        meanwhile = ask_beside;
        CHECK(mls_session_submit(&pair[0], &denied, &a) == MLS_OK && a.number == n && a.reply == MLS_DENIED + MLS_STAR);
        meanwhile = NULL;
    }
    /* then the monitor is free */
    CHECK(beside == 1 && told(&pair[1], SEC, 4) == 0 && entered(&pair[1], denied, n) == MLS_DENIED + MLS_STAR);
    CHECK(mls_session_changes(&pair[1], &count) == MLS_OK && count == 1);
    CHECK(mls_office_close(&office, pair, &m) == MLS_OK && mls_entries(&m) == n + 1 && mls_forgotten(&m) == 0);
    mls_close(&m);
    CHECK(live == before);
}

static void words(void) {
    CHECK(strcmp(mls_status_word(MLS_ENOTFOUND), "not found") == 0 && strcmp(mls_status_word(1), "?") == 0 && strcmp(mls_status_word(-13), "?") == 0);
    CHECK(strcmp(mls_status_word(MLS_ESTATE), "state refused") == 0 && strcmp(mls_status_word(MLS_EBUSY), "busy") == 0 && strcmp(mls_status_word(MLS_EAGAIN), "not yet") == 0);
    CHECK(strcmp(mls_action_word(MLS_OBJECT_LEVEL), "relabel") == 0 && strcmp(mls_action_word(8), "?") == 0);
    CHECK(strcmp(mls_mode_word(MLS_WRITE), "write") == 0 && strcmp(mls_mode_word(-1), "?") == 0);
    CHECK(strcmp(mls_reply_word(MLS_UNDEFINED), "undefined") == 0 && strcmp(mls_reply_word(MLS_DENIED + MLS_FULL), "no") == 0);
    CHECK(MLS_DENIED + MLS_DISCRETIONARY == 17 && MLS_DENIED + MLS_FULL == 25 && strcmp(mls_reply_word(MLS_DENIED), "?") == 0);
    CHECK(strcmp(mls_reply_word(3), "?") == 0 && strcmp(mls_reply_word(26), "?") == 0);
    CHECK(strcmp(mls_reason_word(MLS_FULL), "full") == 0 && strcmp(mls_reason_word(10), "?") == 0 && strcmp(mls_reason_word(0), "?") == 0);
    CHECK(strcmp(mls_reason_word(MLS_DISCRETIONARY), "discretionary") == 0);
    CHECK(MLS_VERSION_MAJOR == 0 && MLS_VERSION_MINOR == 3 && strcmp(mls_version(), "0.3") == 0);
}

/* Submits a request, and compares the line of its entry with the words of its numbers. */
static void has_words(mls_t *m, const mls_request_t *q, long *reasons) {
    mls_answer_t a;
    char line[512], head[64], tail[64];
    size_t len, front, end;
    CHECK(mls_submit(m, 5, q, &a) == MLS_OK && mls_entry_text(m, a.number, line, sizeof line - 1, &len) == MLS_OK);
    line[len] = 0;
    sprintf(head, "%lu 5 %u %s%s%s", (unsigned long)a.number, q->subject, mls_action_word(q->action), q->action == MLS_GET ? "-" : " ",
            q->action <= MLS_RESCIND ? mls_mode_word(q->mode) : "");
    if (a.reply == MLS_CREATED)
        sprintf(tail, " %s %u\n", mls_reply_word(a.reply), a.object);
    else
        sprintf(tail, " %s%s%s\n", mls_reply_word(a.reply), a.reply > MLS_DENIED ? " " : "", a.reply > MLS_DENIED ? mls_reason_word(mls_reason_of(a.reply)) : "");
    front = strlen(head);
    end = strlen(tail);
    CHECK(len > front + end - 1 && memcmp(line, head, front) == 0 && memcmp(line + len - end, tail, end) == 0);
    if (a.reply > MLS_DENIED) *reasons |= 1L << mls_reason_of(a.reply);
}

/* The words of c/mls.c are those of the journal's lines, of all actions, modes and replies. */
static void words_of_lines(void) {
    mls_t m = MLS_INIT;
    mls_request_t q = request(MLS_CREATE, SEC, 0, ROOT), r;
    mls_answer_t a;
    long reasons = 0, n;
    uint32_t random = 2463534242u;
    open_standard(&m);
    CHECK(mls_get(&m, 0, SEC, ROOT, MLS_WRITE, &a) == MLS_OK && a.reply == MLS_YES);
    for (n = 0; n < 20000; n++) {
        random ^= random << 13, random ^= random >> 17, random ^= random << 5;
        r = request((uint8_t)(random & 7), (uint16_t)(random >> 3 & 3), (uint8_t)(random >> 5 & 3), (uint16_t)(random >> 7 & 3));
        r.other = (uint16_t)(random >> 9 & 3);
        r.security.level = (uint8_t)(random >> 11 & 3);
        r.security.categories[0] = random >> 13 & 3;
        r.integrity.level = (uint8_t)(random >> 15 & 1);
        /* the objects of the start stay, so that all can be asked of them */
        if (r.action != MLS_DELETE || r.subject != SEC || r.object == ROOT) has_words(&m, &r, &reasons);
        if (n % 64 == 0) CHECK(mls_get(&m, 0, SEC, ROOT, MLS_WRITE, &a) == MLS_OK);
    }
    /* an object on each number that is left, and one more */
    for (n = 0; n <= MLS_OBJECTS; n++) has_words(&m, &q, &reasons);
    CHECK(reasons == (1L << (MLS_FULL + 1)) - 2);
    mls_close(&m);
}

int main(int argc, char **argv) {
    FILE *file = argc > 1 ? fopen(argv[1], "rb") : NULL;
    if (!file) return 2;
    standard = argv[1];
    start_len = fread(start, 1, sizeof start, file);
    fclose(file);
    if (argc > 2) submits = atol(argv[2]);
    tell("closing", closing);
    tell("opening", opening);
    tell("asking", asking);
    tell("all actions", all_actions);
    tell("bad numbers", bad_numbers);
    tell("names and labels", names_and_labels);
    tell("dominance", dominance);
    tell("deciding by labels", deciding_by_labels);
    tell("deciding by long labels", deciding_by_long_labels);
    tell("deciding batches", deciding_batches);
    tell("batches of a session", batches_of_a_session);
    tell("readers", readers);
    tell("explaining", explaining);
    tell("the text of a journal", keeping);
    tell("resuming", resuming);
    tell("journals that are refused", refused_journals);
    tell("openings without memory", refused_openings);
    tell("resuming without memory", refused_resumings);
    tell("submits without memory", refused_submits);
    tell("many submits", many_submits);
    tell("entries that are forgotten", forgotten_entries);
    tell("rotating", rotating);
    tell("rotations without memory", refused_rotations);
    tell("the text of a state", state_texts);
    tell("numbers of entries", numbers_of_entries);
    tell("states that are refused", refused_states);
    tell("states that are damaged", damaged_states);
    tell("states of examples", states_of_examples);
    tell("states that are full", full_states);
    tell("states of other starts", states_of_other_starts);
    tell("stores that go on", stores_that_go_on);
    tell("going on without memory", refused_going_on);
    tell("offices", offices);
    tell("offices without memory", refused_offices);
    tell("turns of sessions without memory", refused_turns);
    tell("sessions beside one at the monitor", busy_sessions);
    tell("words", words);
    tell("words of lines", words_of_lines);
    printf("%d passed, %d failed\n", passed, failed);
    return failed != 0;
}
