/* Calls the library many times: `embed START WHAT COUNT`, where WHAT is open, check, decide, dominates, label (reads that
 * are decided by labels; executes, appends and writes: those; wide: reads of labels with a category above the first 64),
 * labels (the same as label in batches of 1,000 rows: COUNT and the time are of rows), explain, denied, held (a get of
 * what is held already), granted (a get of what isn't, and its release, in turn), delete, or with no monitor: cells,
 * which looks up packed cells of four modes, and plain, which decides the get of decide by the same conditions. Prints
 * nanoseconds a call. `delete` is for the start of bench/rules.sh in which subject 0 writes object 1, and below this
 * stand objects 2 to 11 with 60 below each, 12 to 611, that subjects 1 to 16 may read: all that is got, and then COUNT
 * of the ten are deleted. */
#define _POSIX_C_SOURCE 199309L
#include "mls.h"

#include <stdio.h>
#include <stdlib.h>
#include <string.h>
#include <time.h>

enum { BATCH = 1000, MOST = 1 << 28 };

static double now(void) {
    struct timespec t;
    clock_gettime(CLOCK_MONOTONIC, &t);
    return (double)t.tv_sec * 1e9 + (double)t.tv_nsec;
}

static uint8_t cells[256 * 4096 / 2];

/* As the monitor's table is: four bits a pair, looked up where the numbers are within the table. */
static int __attribute__((noinline)) looked_up(uint16_t subject, uint16_t object, uint8_t mode) {
    size_t at;
    if (subject >= 256 || object >= 4096 || mode >= 4) return 0;
    at = (size_t)subject * 4096 + object;
    return cells[at / 2] >> (at % 2 * 4 + mode) & 1;
}

struct label { uint64_t level, words[4]; };
static struct { struct label maximum, current, integrity; uint8_t trusted; } subjects[4];
static struct { struct label security, integrity; } objects[4];
static struct { uint8_t active; uint16_t parent; } parents[4];
static uint8_t matrix[4 * 2];
static size_t subject_count = 4, object_count = 4, entry_count;

static int dominates(const struct label *a, const struct label *b) {
    return b->level <= a->level && !((b->words[0] & ~a->words[0]) | (b->words[1] & ~a->words[1]) | (b->words[2] & ~a->words[2]) |
                                     (b->words[3] & ~a->words[3]));
}

/* The conditions of a get, as the monitor has them and in its order. */
static uint16_t conditions_of(uint16_t s, uint16_t o, uint8_t x) {
    const struct label *own, *label;
    if (s >= subject_count || (o && (o >= object_count || !parents[o].active))) return MLS_UNDEFINED;
    if (!(matrix[o * ((subject_count + 1) / 2) + s / 2] >> (s % 2 * 4 + x) & 1)) return MLS_DENIED + MLS_DISCRETIONARY;
    label = &objects[o].security;
    if ((x == MLS_READ || x == MLS_WRITE) && !dominates(&subjects[s].maximum, label)) return MLS_DENIED + MLS_SIMPLE;
    own = &subjects[s].current;
    if (!subjects[s].trusted && (((x == MLS_READ || x == MLS_WRITE) && !dominates(own, label)) ||
                                 ((x == MLS_APPEND || x == MLS_WRITE) && !dominates(label, own)))) return MLS_DENIED + MLS_STAR;
    own = &subjects[s].integrity, label = &objects[o].integrity;
    if ((x != MLS_APPEND && !dominates(label, own)) || ((x == MLS_APPEND || x == MLS_WRITE) && !dominates(own, label)))
        return MLS_DENIED + MLS_INTEGRITY;
    return MLS_YES;
}

static int __attribute__((noinline)) plain(const mls_request_t *asked, mls_answer_t *answer) {
    if (asked->action != MLS_GET || asked->mode >= 4) return MLS_EINVAL;
    answer->number = entry_count;
    answer->reply = conditions_of(asked->subject, asked->object, asked->mode);
    answer->object = 0;
    return MLS_OK;
}

/* Submits a request, which must be granted. */
static void granted(mls_t *m, uint8_t action, uint8_t mode, uint16_t subject, uint16_t object) {
    mls_request_t request;
    mls_answer_t answer;
    memset(&request, 0, sizeof request);
    request.action = action;
    request.mode = mode;
    request.subject = subject;
    request.object = object;
    if (mls_submit(m, 0, &request, &answer) || answer.reply != MLS_YES) exit(2);
}

/* Gets all that is to be held when objects are deleted. */
static void get_all(mls_t *m) {
    uint16_t s, o;
    granted(m, MLS_GET, MLS_WRITE, 0, 1);
    for (o = 12; o < 612; o++)
        for (s = 1; s <= 16; s++) granted(m, MLS_GET, MLS_READ, s, o);
}

int main(int argc, char **argv) {
    uint8_t *start = malloc(MOST), mode = MLS_READ;
    mls_t m = MLS_INIT;
    mls_fault_t fault;
    mls_answer_t a;
    mls_request_t get, release, denied;
    mls_label labels[4] = {{0, {0}}, {2, {1, 0, 0, 0}}, {1, {0}}, {3, {3, 0, 0, 0}}}, low = {0, {0}};
    static mls_labels batch[BATCH];
    static uint16_t replies[BATCH];
    mls_condition conditions[MLS_CONDITIONS];
    mls_remedy remedy;
    size_t rows, len;
    uint16_t reply;
    FILE *file = argc == 4 ? fopen(argv[1], "rb") : NULL;
    unsigned long sum = 0;
    long n, count;
    double begun;
    if (!file || !start) return 2;
    len = fread(start, 1, MOST, file);
    if (mls_open(&m, start, len, &fault)) return 2;
    fclose(file);
    count = atol(argv[3]);
    memset(&get, 0, sizeof get);
    get.mode = MLS_READ;
    get.object = 1;
    release = denied = get;
    release.action = MLS_RELEASE;
    denied.subject = 1;
    for (n = 0; n < BATCH; n++) batch[n].security = labels[n & 3], batch[n].integrity = low;
    if (!strcmp(argv[2], "delete")) get_all(&m);
    if (!strcmp(argv[2], "executes")) mode = MLS_EXECUTE;
    if (!strcmp(argv[2], "appends")) mode = MLS_APPEND;
    if (!strcmp(argv[2], "writes")) mode = MLS_WRITE;
    if (!strcmp(argv[2], "wide"))
        for (n = 0; n < 4; n++) labels[n].categories[1] = 1;
    begun = now();
    if (!strcmp(argv[2], "check"))
        for (n = 0; n < count; n++) sum += (unsigned)mls_check(&m, n & 3, n >> 2 & 3, MLS_READ);
    else if (!strcmp(argv[2], "cells"))
        for (n = 0; n < count; n++) sum += (unsigned)looked_up(n & 3, n >> 2 & 3, MLS_READ);
    else if (!strcmp(argv[2], "plain")) {
        memset(matrix, 255, sizeof matrix);
        for (n = 0; n < 4; n++) parents[n].active = 1, subjects[n].current.level = subjects[n].maximum.level = 2;
        for (n = 0; n < count; n++) sum += (unsigned)plain(&get, &a) + a.reply;
        if (sum) return 2;
    } else if (!strcmp(argv[2], "decide"))
        for (n = 0; n < count; n++) sum += (unsigned)mls_decide(&m, &get, &a);
    else if (!strcmp(argv[2], "dominates"))
        for (n = 0; n < count; n++) sum += (unsigned)mls_dominates(&labels[n & 3], &labels[n >> 2 & 3]);
    else if (!strcmp(argv[2], "open"))
        for (n = 0; n < count; n++) mls_close(&m), sum += (unsigned)mls_open(&m, start, len, &fault);
    else if (mode != MLS_READ || !strcmp(argv[2], "label") || !strcmp(argv[2], "wide"))
        for (n = 0; n < count; n++) sum += (unsigned)mls_decide_label(&m, n & 3, mode, &labels[n >> 2 & 3], &low, &reply) + reply;
    else if (!strcmp(argv[2], "labels"))
        for (n = 0; n < count / BATCH; n++) sum += (unsigned)mls_decide_labels(&m, n & 3, MLS_READ, batch, BATCH, replies) + replies[0];
    else if (!strcmp(argv[2], "explain"))
        for (n = 0; n < count; n++) sum += (unsigned)mls_explain(&m, &get, conditions, MLS_CONDITIONS, &rows, &remedy) + conditions[0].holds;
    else if (!strcmp(argv[2], "denied"))
        for (n = 0; n < count; n++) sum += (unsigned)mls_submit(&m, 0, &denied, &a);
    else if (!strcmp(argv[2], "held"))
        for (n = 0; n < count; n++) sum += (unsigned)mls_submit(&m, 0, &get, &a);
    else if (!strcmp(argv[2], "delete"))
        for (n = 0; n < count; n++) granted(&m, MLS_DELETE, 0, 0, (uint16_t)(2 + n));
    else if (!strcmp(argv[2], "granted"))
        for (n = 0; n < count; n++) sum += (unsigned)mls_submit(&m, 0, n & 1 ? &release : &get, &a);
    else
        return 2;
    printf("%.2f\n", (now() - begun) / (double)count);
    mls_close(&m);
    return sum == 12345678901u;
}
