/* Filters labelled rows, as a database would: which of a million rows may a subject read?
 *
 *     rows START SUBJECT [ROWS]
 *
 * Four loops over the same rows. The first asks mls_dominates whether the subject's current label dominates the row's.
 * The second does the same with dominance written out by hand. The third asks mls_decide_label, which looks at the
 * maximum label and at integrity too, and knows who is trusted. The fourth asks mls_decide_labels, once for all rows.
 * Prints how many rows each lets pass and how long a row takes. The status is 1 where the first two differ, or the last
 * two, and 2 where the files or the names are wrong. */
#define _POSIX_C_SOURCE 199309L
#include "mls.h"

#include <stdio.h>
#include <stdlib.h>
#include <string.h>
#include <time.h>

enum { REPEATS = 5 };

typedef struct {
    mls_monitor monitor;
    uint16_t subject;
    mls_label current;
    const mls_labels *rows;
    uint16_t *replies;
    size_t count;
} table;

static double now(void) {
    struct timespec t;
    clock_gettime(CLOCK_MONOTONIC, &t);
    return (double)t.tv_sec * 1e9 + (double)t.tv_nsec;
}

/* Dominance by hand. */
static int dominates(const mls_label *a, const mls_label *b) {
    return a->level >= b->level &&
           ((b->categories[0] & ~a->categories[0]) | (b->categories[1] & ~a->categories[1]) |
            (b->categories[2] & ~a->categories[2]) | (b->categories[3] & ~a->categories[3])) == 0;
}

static size_t by_calls(table *t) {
    size_t n, passed = 0;
    for (n = 0; n < t->count; n++) passed += (size_t)mls_dominates(&t->current, &t->rows[n].security);
    return passed;
}

static size_t by_hand(table *t) {
    size_t n, passed = 0;
    for (n = 0; n < t->count; n++) passed += (size_t)dominates(&t->current, &t->rows[n].security);
    return passed;
}

static size_t by_rule(table *t) {
    size_t n, passed = 0;
    for (n = 0; n < t->count; n++)
        passed += (size_t)mls_may(&t->monitor, t->subject, MLS_READ, &t->rows[n].security, &t->rows[n].integrity);
    return passed;
}

static size_t by_batch(table *t) {
    size_t n, passed = 0;
    if (mls_decide_labels(&t->monitor, t->subject, MLS_READ, t->rows, t->count, t->replies)) return 0;
    for (n = 0; n < t->count; n++) passed += t->replies[n] == MLS_YES;
    return passed;
}

/* Tells how many rows a loop lets pass, and the shortest time of a row in some runs of it. */
static size_t timed(const char *name, table *t, size_t (*loop)(table *)) {
    double best = 0;
    size_t passed = 0;
    int n;
    for (n = 0; n < REPEATS; n++) {
        double begun = now(), each;
        passed = loop(t);
        each = (now() - begun) / (double)t->count;
        if (n == 0 || each < best) best = each;
    }
    printf("%s: %lu of %lu rows, %.2f ns a row, %.0f million rows a second\n", name, (unsigned long)passed,
           (unsigned long)t->count, best, 1e3 / best);
    return passed;
}

/* Rows with labels that change from one to the next: three levels and two categories, and two levels of integrity. */
static mls_labels *made(size_t count) {
    mls_labels *rows = calloc(count, sizeof *rows);
    uint32_t random = 2463534242u;
    size_t n;
    for (n = 0; rows && n < count; n++) {
        random ^= random << 13, random ^= random >> 17, random ^= random << 5;
        rows[n].security.level = (uint8_t)(random % 3);
        rows[n].security.categories[0] = random >> 8 & 3;
        rows[n].integrity.level = random >> 16 & 1;
    }
    return rows;
}

int main(int argc, char **argv) {
    static uint8_t start[1 << 16];
    static table t;
    mls_fault fault;
    mls_subject_info subject;
    mls_labels *rows;
    size_t calls, hand, rule, batch;
    FILE *file = argc == 3 || argc == 4 ? fopen(argv[1], "rb") : NULL;
    if (!file || mls_open(&t.monitor, start, fread(start, 1, sizeof start, file), &fault)) return 2;
    fclose(file);
    if (mls_subject(&t.monitor, (const uint8_t *)argv[2], strlen(argv[2]), &t.subject)) return 2;
    if (mls_read_subject(&t.monitor, t.subject, &subject)) return 2;
    t.current = subject.current;
    t.count = argc == 4 ? strtoul(argv[3], NULL, 10) : 1000000;
    t.rows = rows = made(t.count);
    t.replies = calloc(t.count, sizeof *t.replies);
    if (!rows || !t.replies || !t.count) return 2;
    calls = timed("mls_dominates", &t, by_calls);
    hand = timed("by hand", &t, by_hand);
    rule = timed("mls_decide_label", &t, by_rule);
    batch = timed("mls_decide_labels", &t, by_batch);
    mls_close(&t.monitor);
    free(t.replies);
    free(rows);
    return calls != hand || rule != batch;
}
