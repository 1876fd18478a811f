/* Submits requests to a monitor, and writes them as scripts of the program mls, the journal that they leave, and the state:
 *
 *     session START FOLDER SCRIPTS LINES
 *
 * FOLDER/script0 and so on, of so many lines each, are one session each, by their number; FOLDER/journal is what
 * `mls run --serial --journal` of them must write too, and FOLDER/state what `mls state` of that must print. The requests
 * are the same each time. */
#include "mls.h"

#include <stdio.h>
#include <stdlib.h>
#include <string.h>

static uint64_t seed = 88172645463325252u;

static unsigned below(unsigned n) {
    seed ^= seed << 13;
    seed ^= seed >> 7;
    seed ^= seed << 17;
    return (unsigned)(seed >> 33) % n;
}

static const char *const security[] = {"U", "C", "S", "S:A", "T:A,B"};
static const char *const integrity[] = {"lo", "hi"};

/* Makes a request, and writes its line. */
static mls_request make(mls_monitor *m, FILE *script) {
    mls_request q;
    const char *s = security[below(5)], *i = integrity[below(2)], *mode;
    memset(&q, 0, sizeof q);
    q.action = (uint8_t)below(8);
    if (q.action >= MLS_CREATE && below(4)) q.action = MLS_GET;
    q.mode = (uint8_t)below(4);
    q.subject = (uint16_t)below(5);
    q.other = (uint16_t)below(5);
    q.object = (uint16_t)below(below(10) ? 6 : 300);
    mode = mls_mode_word(q.mode);
    if (mls_read_label(m, MLS_SECURITY_LABEL, (const uint8_t *)s, strlen(s), &q.security) ||
        mls_read_label(m, MLS_INTEGRITY_LABEL, (const uint8_t *)i, strlen(i), &q.integrity))
        exit(2);
    if (q.action == MLS_CREATE) fputs("$made = ", script);
    fprintf(script, "#%u ", q.subject);
    switch (q.action) {
    case MLS_GET: fprintf(script, "get-%s #%u\n", mode, q.object); break;
    case MLS_RELEASE: fprintf(script, "release %s #%u\n", mode, q.object); break;
    case MLS_GIVE: fprintf(script, "give %s #%u #%u\n", mode, q.other, q.object); break;
    case MLS_RESCIND: fprintf(script, "rescind %s #%u #%u\n", mode, q.other, q.object); break;
    case MLS_CREATE: fprintf(script, "create #%u %s %s\n", q.object, s, i); break;
    case MLS_DELETE: fprintf(script, "delete #%u\n", q.object); break;
    case MLS_SUBJECT_LEVEL: fprintf(script, "level %s\n", s); break;
    default: fprintf(script, "relabel #%u %s\n", q.object, s);
    }
    return q;
}

static FILE *create(const char *folder, const char *name, unsigned n) {
    char path[4096];
    FILE *file;
    snprintf(path, sizeof path, name, folder, n);
    file = fopen(path, "wb");
    if (!file) exit(2);
    return file;
}

int main(int argc, char **argv) {
    static uint8_t start[1 << 16];
    static char state[1 << 20];
    mls_monitor m = MLS_INIT;
    mls_fault fault;
    mls_answer answer;
    size_t len;
    FILE *file = argc == 5 ? fopen(argv[1], "rb") : NULL;
    unsigned script, line, scripts, lines;
    uint64_t n;
    if (!file) return 2;
    if (mls_open(&m, start, fread(start, 1, sizeof start, file), &fault)) return 2;
    fclose(file);
    scripts = (unsigned)atoi(argv[3]);
    lines = (unsigned)atoi(argv[4]);
    for (script = 0; script < scripts; script++) {
        file = create(argv[2], "%s/script%u", script);
        for (line = 0; line < lines; line++) {
            mls_request q = make(&m, file);
            if (mls_submit(&m, script, &q, &answer)) return 2;
        }
        fclose(file);
    }
    file = create(argv[2], "%s/journal", 0);
    for (n = 0; n < mls_entries(&m); n++) {
        char text[512];
        if (mls_entry_text(&m, n, text, sizeof text, &len)) return 2;
        fwrite(text, 1, len, file);
    }
    fclose(file);
    file = create(argv[2], "%s/state", 0);
    if (mls_state_text(&m, state, sizeof state, &len)) return 2;
    fwrite(state, 1, len, file);
    fclose(file);
    mls_close(&m);
    return 0;
}
