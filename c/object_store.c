/* A tiny store of notes whose every read and write asks the monitor first.
 *
 *     object_store START
 *
 * START is the standard start's file: ann, bob, sec and aud, and root, plans, memo and tool. */
#include "mls.h"

#include <stdio.h>
#include <string.h>

typedef struct {
    mls_monitor monitor;
    char notes[8][64];
} note_store;

static int number(int (*find)(mls_monitor *, const uint8_t *, size_t, uint16_t *), note_store *s, const char *name) {
    uint16_t n = 0;
    return find(&s->monitor, (const uint8_t *)name, strlen(name), &n) == MLS_OK ? n : -1;
}

/* Asks for an access, and ends it again: 0 where it was granted, else the reply or a status below 0. */
static int ask(note_store *s, int subject, int object, uint8_t mode) {
    uint16_t who = (uint16_t)subject, what = (uint16_t)object;
    mls_answer a;
    int reply, status = mls_get(&s->monitor, 0, who, what, mode, &a);
    if (status || a.reply) return status ? status : a.reply;
    reply = mls_check(&s->monitor, who, what, mode) ? 0 : MLS_UNDEFINED;
    status = mls_release(&s->monitor, 0, who, what, mode, &a);
    return status ? status : reply;
}

static void tell(const char *who, const char *does, const char *what, int reply, const char *note) {
    if (reply == 0) printf("%s %s %s: %s\n", who, does, what, note);
    else if (reply >= MLS_DENIED) printf("%s %s %s: no %s\n", who, does, what, mls_reason_word(reply - MLS_DENIED));
    else printf("%s %s %s: %s\n", who, does, what, reply < 0 ? mls_status_word(reply) : mls_reply_word(reply));
}

static void read_note(note_store *s, const char *who, const char *what) {
    int subject = number(mls_subject, s, who), object = number(mls_object, s, what);
    if (subject < 0 || object < 0) tell(who, "reads", what, MLS_ENOTFOUND, "");
    else tell(who, "reads", what, ask(s, subject, object, MLS_READ), s->notes[object]);
}

static void write_note(note_store *s, const char *who, const char *what, const char *note) {
    int subject = number(mls_subject, s, who), object = number(mls_object, s, what), reply;
    if (subject < 0 || object < 0) {
        tell(who, "writes", what, MLS_ENOTFOUND, "");
        return;
    }
    reply = ask(s, subject, object, MLS_WRITE);
    if (reply == 0) snprintf(s->notes[object], sizeof s->notes[object], "%s", note);
    tell(who, "writes", what, reply, s->notes[object]);
}

int main(int argc, char **argv) {
    static uint8_t start[1 << 16];
    static note_store store;
    mls_fault fault;
    FILE *file = argc > 1 ? fopen(argv[1], "rb") : NULL;
    uint64_t n;
    if (!file) return 2;
    if (mls_open(&store.monitor, start, fread(start, 1, sizeof start, file), &fault)) return 2;
    fclose(file);
    write_note(&store, "ann", "plans", "attack at dawn");
    read_note(&store, "ann", "plans");
    read_note(&store, "bob", "plans");
    read_note(&store, "ann", "memo");
    write_note(&store, "bob", "memo", "lunch at noon");
    read_note(&store, "eve", "plans");
    for (n = 0; n < mls_entries(&store.monitor); n++) {
        char line[512];
        size_t len;
        if (mls_entry_text(&store.monitor, n, line, sizeof line, &len)) return 2;
        fwrite(line, 1, len, stdout);
    }
    mls_close(&store.monitor);
    return 0;
}
