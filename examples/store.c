/* A store with threads that loses no answer: eight threads ask, and one writes the journal and syncs it, for all that
 * asked meanwhile at once, and then forgets it, so that memory doesn't grow. A thread acts on an answer once its entry
 * is synced: here it prints the entry's line, as it knows it from its request and its answer.
 *
 *     cc -IFOLDER/include examples/store.c FOLDER/lib/libmls.a -pthread -o store
 *     store START JOURNAL
 *
 * It goes on with what JOURNAL has, and runs until it is killed. JOURNAL is its own file, or none yet: of another file
 * it may cut off the end. Its status is 5 if the journal couldn't be written or synced: start nothing over that file
 * until its file system was unmounted and mounted again. */
#define _POSIX_C_SOURCE 200809L
#include "mls_shared.h"
#include <fcntl.h>
#include <libgen.h>
#include <stdio.h>
#include <string.h>
#include <sys/file.h>
#include <sys/stat.h>
#include <unistd.h>

/* The writer syncs at most so many bytes at once: a crash takes no more. */
enum { THREADS = 8, ROOM = 1 << 16 };

static int journal;
static uint64_t asked, synced; /* somebody waits for the entries below asked; those below synced are on the disk */
static pthread_mutex_t mutex = PTHREAD_MUTEX_INITIALIZER;
static pthread_cond_t more = PTHREAD_COND_INITIALIZER, grown = PTHREAD_COND_INITIALIZER;
static mls_session sessions[THREADS + 1];

static void die(const char *what, int status) {
    perror(what);
    _exit(status);
}

/* The thread that writes has a session of its own. It sleeps until a thread waits for an entry, copies out what all
 * sessions added, and writes and syncs it. If that lacks the entry, it copies out again. What is synced it forgets. */
static void *write_entries(void *at) {
    static char lines[ROOM];
    uint64_t next;
    size_t len;
    for (;;) {
        pthread_mutex_lock(&mutex);
        while (asked <= synced) pthread_cond_wait(&more, &mutex);
        pthread_mutex_unlock(&mutex);
        if (mls_wait_entry_text(at, synced, lines, sizeof lines, &len, &next)) die("no text", 1);
        if (write(journal, lines, len) != (ssize_t)len || fsync(journal)) die("the journal can't be written", 5);
        pthread_mutex_lock(&mutex);
        synced = next;
        pthread_cond_broadcast(&grown);
        pthread_mutex_unlock(&mutex);
        if (mls_wait_forget(at, next)) die("entries can't be forgotten", 1);
    }
    return NULL;
}

/* Waits until so many entries are on the disk. */
static void wait_synced(uint64_t entries) {
    pthread_mutex_lock(&mutex);
    if (asked < entries) {
        asked = entries;
        pthread_cond_signal(&more);
    }
    while (synced < entries) pthread_cond_wait(&grown, &mutex);
    pthread_mutex_unlock(&mutex);
}

/* The line of an entry, as the journal has it; its length. */
static int line_of(char *line, size_t cap, int session, const mls_request *r, const mls_answer *a) {
    int reason = mls_reason_of(a->reply);
    return snprintf(line, cap, "%lu %d %d %s%s %d %s%s%s\n", (unsigned long)a->number, session, r->subject,
                    r->action == MLS_GET ? "get-" : "release ", mls_mode_word(r->mode), r->object,
                    mls_reply_word(a->reply), reason ? " " : "", reason ? mls_reason_word(reason) : "");
}

/* A thread that asks: each for one subject, for all modes of four objects. It acts on no answer before it is synced. */
static void *ask(void *at) {
    int session = (int)((mls_session *)at - sessions), len;
    unsigned n;
    for (n = 0;; n++) {
        mls_request request = mls_request_of(n % 2 ? MLS_RELEASE : MLS_GET, (uint16_t)(session % 4),
                                             (uint16_t)(n / 2 % 4), (uint8_t)(n / 8 % 4));
        mls_answer answer;
        char line[128];
        if (mls_wait_submit(at, &request, &answer)) die("no answer", 1);
        wait_synced(answer.number + 1);
        len = line_of(line, sizeof line, session, &request, &answer);
        if (write(1, line, (size_t)len) != len) die("the answer can't be used", 1);
    }
    return NULL;
}

/* All of a file, of any length. */
static uint8_t *content(const char *name, int file, size_t *len) {
    struct stat told;
    uint8_t *text;
    ssize_t got;
    if (file < 0 || fstat(file, &told) || !(text = malloc((size_t)told.st_size + 1))) die(name, 1);
    for (*len = 0; (got = read(file, text + *len, (size_t)told.st_size + 1 - *len)) > 0;) *len += (size_t)got;
    if (got < 0 || *len != (size_t)told.st_size) die(name, 1);
    return text;
}

/* How much of a journal's text was synced whole. A crash may leave a last line without its end, and zeros in place of
 * bytes that weren't synced, with whole lines behind them. Nobody acted on any of these lines. */
static size_t whole(const uint8_t *text, size_t len) {
    size_t from = len > ROOM ? len - ROOM : 0;
    const uint8_t *zero = memchr(text + from, 0, len - from);
    size_t end = zero ? (size_t)(zero - text) : len;
    while (end > from && text[end - 1] != '\n') end--;
    return end;
}

/* Locks the journal, and syncs it and its folder: what a killed process wrote may not be synced yet. */
static void take(const char *name) {
    char *path = strdup(name);
    int folder = path ? open(dirname(path), O_RDONLY) : -1;
    journal = open(name, O_RDWR | O_CREAT | O_APPEND, 0600);
    if (folder < 0 || journal < 0 || flock(journal, LOCK_EX | LOCK_NB)) die(name, 1);
    if (fsync(journal) || fsync(folder)) die(name, 5);
    close(folder);
    free(path);
}

/* Opens the monitor that goes on with the journal. What a crash left behind the last whole line is cut off, but only
 * once the rest was read as a journal of this start. */
static void resume(mls_monitor *monitor, const char *start_name, const char *journal_name) {
    size_t start_len, len, kept, fault_len;
    int file = open(start_name, O_RDONLY), status;
    uint8_t *start = content(start_name, file, &start_len), *text = content(journal_name, journal, &len);
    mls_fault fault;
    char why[MLS_FAULT_TEXT];
    kept = whole(text, len);
    status = mls_resume(monitor, start, start_len, text, kept, &fault);
    if (status) {
        mls_fault_text(status, &fault, why, sizeof why, &fault_len);
        fprintf(stderr, "%s: %.*s\n", status == MLS_ESTART ? start_name : journal_name, (int)fault_len, why);
        _exit(3);
    }
    if (kept < len && (ftruncate(journal, (off_t)kept) || fsync(journal))) die(journal_name, 5);
    close(file);
    free(start);
    free(text);
}

int main(int argc, char **argv) {
    mls_monitor monitor = MLS_INIT;
    mls_office office = MLS_OFFICE_INIT;
    pthread_t thread;
    int n;
    if (argc != 3) {
        fputs("usage: store START JOURNAL\n", stderr);
        return 2;
    }
    take(argv[2]);
    resume(&monitor, argv[1], argv[2]);
    asked = synced = mls_entries(&monitor); /* (the writer begins there; the office closes this handle) */
    if (mls_office_open(&office, &monitor, sessions, THREADS + 1)) die("no office", 1);
    for (n = 0; n < THREADS; n++) {
        if (pthread_create(&thread, NULL, ask, &sessions[n])) die("no thread", 1);
    }
    write_entries(&sessions[THREADS]);
    return 0;
}
