/* Reads states whose trees are as deep as there are numbers, in a thread with a small stack: no way up is walked by calls
 * one in the other. A text from outside may say any parent.
 *
 *     deep START
 *
 * START is the standard start's file. Prints ok, or the line of a check that failed. */
#include "mls.h"

#include <pthread.h>
#include <stdio.h>
#include <stdlib.h>
#include <string.h>

enum { STACK = 128 * 1024, FIRST = 4, ROOM = 1 << 19 };

/* The lines of the opening state before those of the objects that are made, with their next number, and behind them. */
static const char before[] =
    "profile 1\nnext 4096\n"
    "subject ann maximum S:A current S:A integrity hi\n"
    "subject bob maximum C current U integrity lo\n"
    "subject sec maximum T:A,B current U integrity hi trusted\n"
    "subject aud maximum S:A current U integrity hi trusted\n"
    "object root security U integrity hi\n"
    "object plans security S:A integrity hi parent root\n"
    "object memo security C integrity lo parent root\n"
    "object tool security U integrity lo parent root\n";
static const char behind[] = "permit sec write root\n";

/* Which way the numbers of a chain go from the root down; or two objects are each the parent of the other. */
typedef enum { UP, DOWN, ROUND } way;

typedef struct {
    uint8_t *start;
    size_t start_len;
    char *text, *copy;
    way order;
    int failed;
} job;

#define CHECK(x) \
    do { \
        if (!(x) && !it->failed) it->failed = __LINE__; \
    } while (0)

/* The parent of an object; 0 is the root. */
static int parent_of(way order, int object) {
    if (order == DOWN) return object + 1 < MLS_OBJECTS ? object + 1 : 0;
    if (order == ROUND && object == FIRST) return FIRST + 1;
    return object > FIRST ? object - 1 : 0;
}

static size_t written(const job *it) {
    char *at = it->text + sprintf(it->text, "%s", before);
    int object;
    for (object = FIRST; object < MLS_OBJECTS; object++) {
        int parent = parent_of(it->order, object);
        at += sprintf(at, "object #%d security U integrity hi parent ", object);
        at += parent ? sprintf(at, "#%d\n", parent) : sprintf(at, "root\n");
    }
    at += sprintf(at, "%s", behind);
    return (size_t)(at - it->text);
}

static void *reads(void *given) {
    job *it = given;
    mls_monitor m = MLS_INIT;
    mls_fault f;
    size_t len = written(it), told = 0;
    int status;
    memset(&f, 0, sizeof f);
    status = mls_open_state(&m, it->start, it->start_len, (const uint8_t *)it->text, len, 5000, &f);
    if (it->order == ROUND) {
        CHECK(status == MLS_ESTATE && f.kind == 1 && !m.held);
        return NULL;
    }
    CHECK(status == MLS_OK && mls_state_text(&m, it->copy, ROOM, &told) == MLS_OK);
    CHECK(told == len && memcmp(it->copy, it->text, len) == 0);
    mls_close(&m);
    return NULL;
}

/* Reads in a thread with a small stack, and returns whether it ended as it must. */
static int is_read(job *it, way order) {
    pthread_attr_t attributes;
    pthread_t thread;
    it->order = order;
    it->failed = 0;
    if (pthread_attr_init(&attributes) || pthread_attr_setstacksize(&attributes, STACK)) return 0;
    if (pthread_create(&thread, &attributes, reads, it) || pthread_join(thread, NULL)) return 0;
    pthread_attr_destroy(&attributes);
    if (it->failed) printf("line %d, order %d\n", it->failed, (int)order);
    return !it->failed;
}

int main(int count, char **words) {
    static uint8_t start[1 << 16];
    job it = {start, 0, NULL, NULL, UP, 0};
    FILE *file = count == 2 ? fopen(words[1], "rb") : NULL;
    if (!file) return 2;
    it.start_len = fread(start, 1, sizeof start, file);
    fclose(file);
    it.text = malloc(ROOM);
    it.copy = malloc(ROOM);
    if (!it.text || !it.copy) return 2;
    if (!is_read(&it, UP) || !is_read(&it, DOWN) || !is_read(&it, ROUND)) return 1;
    free(it.text);
    free(it.copy);
    printf("ok\n");
    return 0;
}
