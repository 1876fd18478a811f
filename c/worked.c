/* Tests journals that were worked out by hand from docs/POLICY.md, in both profiles: what each request is answered, the
 * state that all lead to, the objects below one, a replay, entries that are forgotten, and each allocation refused in
 * turn.
 *
 *     worked START
 *
 * START is the standard start's file. The program is linked with malloc, realloc and free wrapped, as test.c is.
 * Prints a line for each test, and last 'N passed, M failed'. */
#include "mls.h"

#include <malloc.h>
#include <stdio.h>
#include <stdlib.h>
#include <string.h>

static int passed, failed;
static int broken;

#define CHECK(x) \
    do { \
        if (!(x)) { \
            printf("line %d: %s\n", __LINE__, #x); \
            broken++; \
        } \
    } while (0)

static void tell(const char *name, void (*test)(void)) {
    broken = 0;
    test();
    printf("%s: %s\n", name, broken ? "failed" : "passed");
    *(broken ? &failed : &passed) += 1;
}

/* The allocations that are left until one is refused, below 0 for no end of them; and the bytes in use. */
static long left = -1;
static long live;

void *__real_malloc(size_t size);
void *__real_realloc(void *at, size_t size);
void __real_free(void *at);

/* Whether this one is refused; those after it aren't. */
static int refused(void) {
    if (left < 0) return 0;
    left--;
    return left < 0;
}

static long size_of(void *at) { return at ? (long)malloc_usable_size(at) : 0; }

void *__wrap_malloc(size_t size) {
    void *at = refused() ? NULL : __real_malloc(size);
    live += size_of(at);
    return at;
}

void *__wrap_realloc(void *at, size_t size) {
    long before = size_of(at);
    void *to;
    if (refused()) return NULL;
    to = __real_realloc(at, size);
    if (to) live += size_of(to) - before;
    return to;
}

void __wrap_free(void *at) {
    live -= size_of(at);
    __real_free(at);
}

enum { ANN, BOB, SEC, AUD };
enum { ROOT, PLANS, MEMO, TOOL };

/* The start file, and which profile it is of. */
static uint8_t start[1 << 16];
static size_t start_len;
static int profile = 1;

/* Makes the start that of the other profile. */
static void change_profile(void) {
    static const char *const member = "\"profile\": 2,";
    size_t len = strlen(member);
    if (profile == 1) {
        CHECK(start[0] == '{' && start_len + len < sizeof start);
        memmove(start + 1 + len, start + 1, start_len - 1);
        memcpy(start + 1, member, len);
        start_len += len;
    } else {
        CHECK(memcmp(start + 1, member, len) == 0);
        memmove(start + 1, start + 1 + len, start_len - 1 - len);
        start_len -= len;
    }
    profile = 3 - profile;
}

static const mls_fault no_fault = {55, 66, 77};

static int is_fault(const mls_fault *f, uint16_t kind, uint16_t number, uint64_t place) {
    return f->kind == kind && f->number == number && f->place == place;
}

/* A journal over the standard start, by its text, and how the state that it leads to differs from the opening: the
 * number after `next`, what stands in the place of parts of the text, and the accesses. */
typedef struct {
    const char *text;
    const char *next;
    const char *old[2], *now[2];
    const char *accesses;
} worked;

/* Gets and releases: sec writes, and ann's reading ends. */
static const worked reading = {
    "0 7 0 get-read 2 no integrity\n"
    "1 7 0 get-read 1 yes\n"
    "2 7 0 get-read 1 yes\n"
    "3 7 1 get-read 2 no star\n"
    "4 7 1 get-execute 3 yes\n"
    "5 7 0 release read 1 yes\n"
    "6 7 2 get-write 1 yes\n"
    "7 7 0 release write 1 yes\n"
    "8 7 9 get-read 1 undefined\n"
    "9 7 2 get-write 2 no integrity\n",
    "4", {"", ""}, {"", ""}, "access bob execute tool\naccess sec write plans\n"};

/* Bob climbs to read memo, and climbs down once he has released it; then sec goes up. */
static const worked climb = {
    "0 7 1 get-read 2 no star\n"
    "1 7 1 level 1 yes\n"
    "2 7 1 get-read 2 yes\n"
    "3 7 1 level 0 no star\n"
    "4 7 1 release read 2 yes\n"
    "5 7 1 level 0 yes\n"
    "6 7 2 level 3:0,1 yes\n"
    "7 7 0 level 9 undefined\n",
    "4", {"sec maximum T:A,B current U ", ""}, {"sec maximum T:A,B current T:A,B ", ""}, ""};

/* The same with a reply that the rules don't give, which the replay finds. */
static const char *const forged =
    "0 7 1 get-read 2 no star\n"
    "1 7 1 level 1 yes\n"
    "2 7 1 get-read 2 yes\n"
    "3 7 1 level 0 yes\n"
    "4 7 1 release read 2 yes\n"
    "5 7 1 level 0 yes\n"
    "6 7 2 level 3:0,1 yes\n"
    "7 7 0 level 9 undefined\n";

/* Objects are made below one another and deleted with the uppermost, and their numbers aren't given again. The branch
 * is gone with its accesses, and nothing is permitted or accessed on the object made after it. */
static const worked family = {
    "0 7 2 get-write 0 yes\n"
    "1 7 2 create 0 0 1 created 4\n"
    "2 7 2 give write 2 4 yes\n"
    "3 7 2 get-write 4 yes\n"
    "4 7 2 create 4 1 1 created 5\n"
    "5 7 2 give write 2 5 yes\n"
    "6 7 2 get-write 5 yes\n"
    "7 7 2 create 5 2:0 1 created 6\n"
    "8 7 2 give read 0 6 yes\n"
    "9 7 0 get-read 6 yes\n"
    "10 7 2 delete 4 yes\n"
    "11 7 2 create 0 0 1 created 7\n",
    "8", {"permit ann read plans\n", ""},
    {"object #7 security U integrity hi parent root\npermit ann read plans\n", ""},
    "access sec write root\n"};

/* Ann makes an object below plans and takes it up, and sec takes plans down once nobody else holds it. */
static const worked relabels = {
    "0 7 0 get-write 1 yes\n"
    "1 7 0 create 1 2:0 1 created 4\n"
    "2 7 0 relabel 4 3:0 yes\n"
    "3 7 2 relabel 1 1 no star\n"
    "4 7 0 release write 1 yes\n"
    "5 7 2 relabel 1 1 yes\n",
    "5", {"object plans security S:A ", "permit ann read plans\n"},
    {"object plans security C ", "object #4 security T:A integrity hi parent plans\npermit ann read plans\n"}, ""};

/* A branch of five is deleted, whose numbers lie among others. */
static const worked branched = {
    "0 7 2 get-write 0 yes\n"
    "1 7 2 create 0 0 1 created 4\n"
    "2 7 2 give write 2 4 yes\n"
    "3 7 2 get-write 4 yes\n"
    "4 7 2 create 0 0 1 created 5\n"
    "5 7 2 create 4 0 1 created 6\n"
    "6 7 2 create 0 0 1 created 7\n"
    "7 7 2 create 4 0 1 created 8\n"
    "8 7 2 give write 2 6 yes\n"
    "9 7 2 get-write 6 yes\n"
    "10 7 2 create 6 0 1 created 9\n"
    "11 7 2 create 4 0 1 created 10\n"
    "12 7 2 give write 2 7 yes\n"
    "13 7 2 get-write 7 yes\n"
    "14 7 2 delete 4 yes\n"
    "15 7 2 create 7 0 1 created 11\n",
    "12", {"permit ann read plans\n", "permit aud read plans\n"},
    {"object #5 security U integrity hi parent root\nobject #7 security U integrity hi parent root\n"
     "object #11 security U integrity hi parent #7\npermit ann read plans\n",
     "permit sec write #7\npermit aud read plans\n"},
    "access sec write root\naccess sec write #7\n"};

/* In profile 2: a branch of three is deleted. Its numbers are given again, the least first, also below an object with a
 * larger one, and hold nothing of what they were. */
static const worked reused = {
    "0 7 2 get-write 0 yes\n"
    "1 7 2 create 0 0 1 created 4\n"
    "2 7 2 give write 2 4 yes\n"
    "3 7 2 get-write 4 yes\n"
    "4 7 2 create 4 0 1 created 5\n"
    "5 7 2 give write 2 5 yes\n"
    "6 7 2 get-write 5 yes\n"
    "7 7 2 create 5 0 1 created 6\n"
    "8 7 2 create 0 0 1 created 7\n"
    "9 7 2 give write 2 7 yes\n"
    "10 7 2 get-write 7 yes\n"
    "11 7 2 delete 4 yes\n"
    "12 7 2 create 7 0 1 created 4\n"
    "13 7 2 create 0 0 1 created 5\n"
    "14 7 2 create 0 0 1 created 6\n"
    "15 7 2 create 0 0 1 created 8\n",
    "9", {"permit ann read plans\n", "permit aud read plans\n"},
    {"object #4 security U integrity hi parent #7\nobject #5 security U integrity hi parent root\n"
     "object #6 security U integrity hi parent root\nobject #7 security U integrity hi parent root\n"
     "object #8 security U integrity hi parent root\npermit ann read plans\n",
     "permit sec write #7\npermit aud read plans\n"},
    "access sec write root\naccess sec write #7\n"};

/* The text of the state that the standard start opens with, behind the number after `next`. */
static const char *const opening_rest =
    "\n"
    "subject ann maximum S:A current S:A integrity hi\n"
    "subject bob maximum C current U integrity lo\n"
    "subject sec maximum T:A,B current U integrity hi trusted\n"
    "subject aud maximum S:A current U integrity hi trusted\n"
    "object root security U integrity hi\n"
    "object plans security S:A integrity hi parent root\n"
    "object memo security C integrity lo parent root\n"
    "object tool security U integrity lo parent root\n"
    "permit ann read plans\n"
    "permit ann write plans\n"
    "permit ann read memo\n"
    "permit ann execute tool\n"
    "permit bob append plans\n"
    "permit bob read memo\n"
    "permit bob execute tool\n"
    "permit sec write root\n"
    "permit sec write plans\n"
    "permit sec append memo\n"
    "permit sec write memo\n"
    "permit aud read plans\n";

/* Writes what a text becomes where a part of it is changed, once. */
static void change(char *to, const char *text, const char *old, const char *now) {
    const char *at = strstr(text, old);
    CHECK(at != NULL);
    if (at) sprintf(to, "%.*s%s%s", (int)(at - text), text, now, at + strlen(old));
}

/* The text of the state that a journal leads to. */
static const char *state_after(const worked *w) {
    static char text[8192];
    char first[2048], second[2048];
    change(first, opening_rest, w->old[0], w->now[0]);
    change(second, first, w->old[1], w->now[1]);
    sprintf(text, "profile %d\nnext %s%s%s", profile, w->next, second, w->accesses);
    return text;
}

/* The text of a handle's state, which the caller frees; what is refused otherwise isn't counted here. */
static char *state_of(mls_monitor *m) {
    long kept = left;
    size_t len = 0;
    char *text;
    left = -1;
    CHECK(mls_state_text(m, NULL, 0, &len) == MLS_ERANGE);
    text = malloc(len + 1);
    if (!text || mls_state_text(m, text, len, &len) != MLS_OK) exit(2);
    text[len] = 0;
    left = kept;
    return text;
}

static void has_state(mls_monitor *m, const char *wanted) {
    char *text = state_of(m);
    CHECK(strcmp(text, wanted) == 0);
    free(text);
}

/* Two handles have the same state, and as many entries. */
static void are_alike(mls_monitor *m, mls_monitor *other) {
    char *text = state_of(other);
    has_state(m, text);
    CHECK(mls_entries(m) == mls_entries(other) && mls_forgotten(m) == mls_forgotten(other));
    free(text);
}

static void open_standard(mls_monitor *m) {
    mls_fault f = no_fault;
    CHECK(mls_open(m, start, start_len, &f) == MLS_OK && is_fault(&f, 55, 66, 77));
}

static int resume(mls_monitor *m, const char *text, size_t len, mls_fault *f) {
    return mls_resume(m, start, start_len, (const uint8_t *)text, len, f);
}

/* A handle that replayed a journal. */
static void open_replayed(mls_monitor *m, const char *text) {
    mls_fault f = no_fault;
    CHECK(resume(m, text, strlen(text), &f) == MLS_OK && is_fault(&f, 55, 66, 77));
}

/* The length of the first so many lines. */
static size_t lines(const char *text, int count) {
    const char *at = text;
    while (count--) at = strchr(at, '\n') + 1;
    return (size_t)(at - text);
}

static int is_label(const mls_label *a, const mls_label *b) {
    return a->level == b->level && memcmp(a->categories, b->categories, sizeof a->categories) == 0;
}

static int is_request(const mls_request *a, const mls_request *b) {
    return a->action == b->action && a->mode == b->mode && a->subject == b->subject && a->other == b->other &&
           a->object == b->object && is_label(&a->security, &b->security) && is_label(&a->integrity, &b->integrity);
}

static int is_entry(const mls_journal_entry *a, const mls_journal_entry *b) {
    return a->number == b->number && a->session == b->session && a->reply == b->reply && a->object == b->object &&
           is_request(&a->request, &b->request);
}

static int answers(const mls_answer *a, const mls_journal_entry *e) {
    return a->number == e->number && a->reply == e->reply && a->object == e->object;
}

/* Makes the request of an entry, which is answered as it says. That it would be is told before, and its line is that
 * of the journal's text. */
static void ask(mls_monitor *m, const mls_journal_entry *e, const char *text) {
    mls_answer a = {77, 88, 99};
    mls_journal_entry made;
    char line[512];
    size_t len = 0, at = lines(text, (int)e->number);
    CHECK(mls_decide(m, &e->request, &a) == MLS_OK && answers(&a, e));
    a.reply = 88;
    CHECK(mls_submit(m, e->session, &e->request, &a) == MLS_OK && answers(&a, e) && mls_entries(m) == e->number + 1);
    memset(&made, 0, sizeof made);
    CHECK(mls_entry(m, e->number, &made) == MLS_OK && is_entry(&made, e));
    CHECK(mls_entry_text(m, e->number, line, sizeof line, &len) == MLS_OK && memcmp(line, text + at, len) == 0);
    CHECK(text[at + len - 1] == '\n');
}

/* Reads the entries of a journal by a handle that replays it, and returns how many. */
static uint64_t entries_of(const char *text, mls_journal_entry *all) {
    mls_monitor m = MLS_INIT;
    uint64_t n, count;
    open_replayed(&m, text);
    count = mls_entries(&m);
    for (n = 0; n < count; n++) {
        memset(&all[n], 0, sizeof all[n]);
        CHECK(mls_entry(&m, n, &all[n]) == MLS_OK);
    }
    mls_close(&m);
    return count;
}

enum { MOST = 16 };

/* A handle that was asked for what the entries of a journal say. */
static void open_asked(mls_monitor *m, const char *text) {
    mls_journal_entry all[MOST];
    uint64_t n, count = entries_of(text, all);
    open_standard(m);
    for (n = 0; n < count; n++) ask(m, &all[n], text);
    CHECK(mls_entries(m) == count && count > 5);
}

/* The requests of a journal lead to its state, and so does its replay. */
static void leads(const worked *w) {
    mls_monitor m = MLS_INIT, other = MLS_INIT;
    open_asked(&m, w->text);
    has_state(&m, state_after(w));
    open_replayed(&other, w->text);
    are_alike(&other, &m);
    mls_close(&m);
    mls_close(&other);
}

static void states_of_journals(void) {
    leads(&reading);
    leads(&climb);
    leads(&family);
    leads(&relabels);
    leads(&branched);
}

/* Accesses, and whether they are held after the gets and releases. */
static void accesses_that_are_held(void) {
    static const struct {
        uint16_t subject, object;
        uint8_t mode;
        int held;
    } rows[] = {{ANN, PLANS, MLS_READ, 0}, {ANN, PLANS, MLS_WRITE, 0}, {SEC, PLANS, MLS_WRITE, 1},
                {SEC, MEMO, MLS_WRITE, 0}, {9, PLANS, MLS_READ, 0}, {ANN, 77, MLS_READ, 0}};
    mls_monitor m = MLS_INIT;
    size_t k;
    open_asked(&m, reading.text);
    for (k = 0; k < sizeof rows / sizeof *rows; k++)
        CHECK(mls_check(&m, rows[k].subject, rows[k].object, rows[k].mode) == rows[k].held);
    mls_close(&m);
}

/* After how many entries of the climb bob is at which level, and whether he then reads memo. */
static void fronts_of_the_climb(void) {
    static const struct {
        uint8_t level;
        int reads;
    } stands[] = {{0, 0}, {0, 0}, {1, 0}, {1, 1}, {1, 1}, {1, 0}, {0, 0}};
    mls_monitor m = MLS_INIT;
    mls_subject_info bob;
    mls_fault f;
    int count;
    for (count = 0; count < 7; count++) {
        CHECK(resume(&m, climb.text, lines(climb.text, count), &f) == MLS_OK);
        CHECK(mls_read_subject(&m, BOB, &bob) == MLS_OK && bob.current.level == stands[count].level);
        CHECK(bob.current.categories[0] == 0 && mls_check(&m, BOB, MEMO, MLS_READ) == stands[count].reads);
        mls_close(&m);
    }
}

/* The objects right below one are just these: a text with a space behind each. */
static void has_children(mls_monitor *m, uint16_t object, const char *wanted) {
    char found[256] = "";
    uint16_t child = 0;
    size_t len = 0;
    while ((child = mls_child_after(m, object, child)) != 0 && len < sizeof found - 8)
        len += (size_t)sprintf(found + len, "%d ", child);
    CHECK(mls_is_active(m, object) && strcmp(found, wanted) == 0);
}

/* Behind so many entries of a journal the objects right below the root and below another one are just these. */
static void lists_children(const char *text, int count, const char *below_root, uint16_t object, const char *below) {
    mls_monitor m = MLS_INIT;
    mls_fault f;
    CHECK(resume(&m, text, lines(text, count), &f) == MLS_OK);
    has_children(&m, ROOT, below_root);
    has_children(&m, object, below);
    mls_close(&m);
}

static void children_of_objects(void) {
    lists_children(family.text, 8, "1 2 3 4 ", 4, "5 ");
    lists_children(family.text, 12, "1 2 3 7 ", 7, "");
    lists_children(branched.text, 14, "1 2 3 4 5 7 ", 4, "6 8 10 ");
    lists_children(branched.text, 15, "1 2 3 5 7 ", 7, "");
    lists_children(branched.text, 16, "1 2 3 5 7 ", 7, "11 ");
    /* where numbers are given again, one comes before greater ones */
    change_profile();
    lists_children(reused.text, 11, "1 2 3 4 7 ", 4, "5 ");
    lists_children(reused.text, 12, "1 2 3 7 ", 7, "");
    lists_children(reused.text, 13, "1 2 3 7 ", 4, "");
    lists_children(reused.text, 14, "1 2 3 5 7 ", 5, "");
    lists_children(reused.text, 16, "1 2 3 5 6 7 8 ", 7, "4 ");
    change_profile();
}

/* What is read of the first count entries of a journal, of which so many are forgotten. */
static void is_kept(mls_monitor *m, const mls_journal_entry *all, uint64_t most, uint64_t count, uint64_t gone) {
    mls_journal_entry e;
    uint64_t n;
    CHECK(mls_forgotten(m) == gone && mls_entries(m) == count);
    for (n = 0; n < most; n++) {
        int there = n >= gone && n < count, status;
        memset(&e, 0, sizeof e);
        status = mls_entry(m, n, &e);
        CHECK(status == (there ? MLS_OK : MLS_ENOTFOUND) && (!there || is_entry(&e, &all[n])));
    }
}

/* All but the last three entries are forgotten after each, at last all: numbers go on, and the state is the same. */
static void entries_that_are_forgotten(void) {
    mls_monitor m = MLS_INIT;
    mls_journal_entry all[MOST];
    uint64_t n, count = entries_of(reading.text, all), gone = 0;
    open_standard(&m);
    for (n = 0; n < count; n++) {
        ask(&m, &all[n], reading.text);
        gone = n + 1 > 3 ? n + 1 - 3 : 0;
        CHECK(mls_forget(&m, gone) == MLS_OK);
        is_kept(&m, all, count, n + 1, gone);
    }
    CHECK(mls_forget(&m, 1) == MLS_OK);
    is_kept(&m, all, count, count, gone);
    CHECK(mls_forget(&m, (uint64_t)1 << 63) == MLS_OK);
    is_kept(&m, all, count, count, count);
    has_state(&m, state_after(&reading));
    mls_close(&m);
}

/* Memory is given back where entries are forgotten. Five times as many as room is kept for have room for eight times as
 * many at most, and at most a quarter of it stays: twice the room that is kept. */
static void memory_that_is_given_back(void) {
    enum { ROOM = 4096 };
    mls_monitor m = MLS_INIT;
    mls_request q;
    mls_answer a;
    long before, full, n;
    memset(&q, 0, sizeof q);
    q.subject = ANN, q.mode = MLS_READ, q.object = MEMO;
    open_standard(&m);
    before = live;
    for (n = 0; n < 5 * ROOM; n++)
        CHECK(mls_submit(&m, 7, &q, &a) == MLS_OK && a.reply == MLS_DENIED + MLS_INTEGRITY);
    full = live - before;
    CHECK(full > 5 * ROOM && mls_forget(&m, UINT64_MAX) == MLS_OK && mls_entries(&m) == 5 * ROOM);
    CHECK(4 * (live - before) <= full);
    mls_close(&m);
}

/* Makes the request of an entry, again where an allocation was refused: nothing has changed then. Returns whether one
 * was. */
static int asked_again(mls_monitor *m, mls_monitor *ample, const mls_journal_entry *e) {
    mls_answer a = {77, 88, 99};
    int status = mls_submit(m, e->session, &e->request, &a);
    int met = status == MLS_ENOMEM;
    if (met) {
        CHECK(a.number == 77 && a.reply == 88 && a.object == 99);
        are_alike(m, ample);
        status = mls_submit(m, e->session, &e->request, &a);
    }
    CHECK(status == MLS_OK && answers(&a, e));
    return met;
}

/* Opens a handle that goes on from the text of a state, to which so many entries led. */
static int go_on(mls_monitor *m, const char *text, uint64_t number) {
    mls_fault f = no_fault;
    return mls_open_state(m, start, start_len, (const uint8_t *)text, strlen(text), number, &f);
}

/* Opens a handle from the standard start, or from the state that it opens with. */
static int open_as(mls_monitor *m, int by_state) {
    mls_fault f = no_fault;
    static char text[4096];
    if (!by_state) return mls_open(m, start, start_len, &f);
    sprintf(text, "profile %d\nnext 4%s", profile, opening_rest);
    return go_on(m, text, 0);
}

/* Has each allocation of an opening and of a journal's requests refused in turn. Returns how many requests met that. */
static long refused_in_turn(const worked *w, int by_state) {
    mls_journal_entry all[MOST];
    uint64_t n, count = entries_of(w->text, all);
    long k, met = 0, before = live;
    int is_refused = 1;
    for (k = 0; is_refused && k < 100000; k++) {
        mls_monitor m = MLS_INIT, ample = MLS_INIT;
        mls_answer a;
        CHECK(open_as(&ample, by_state) == MLS_OK);
        left = k;
        if (open_as(&m, by_state) == MLS_ENOMEM) {
            CHECK(m.held == 0 && m.monitor == NULL);
            CHECK(open_as(&m, by_state) == MLS_OK);
        }
        are_alike(&m, &ample);
        for (n = 0; n < count; n++) {
            long kept;
            met += asked_again(&m, &ample, &all[n]);
            kept = left, left = -1;
            CHECK(mls_submit(&ample, 7, &all[n].request, &a) == MLS_OK && answers(&a, &all[n]));
            left = kept;
            are_alike(&m, &ample);
        }
        is_refused = left < 0;
        left = -1;
        has_state(&m, state_after(w));
        mls_close(&m);
        mls_close(&ample);
        CHECK(live == before);
    }
    CHECK(k > 20 && !is_refused);
    return met;
}

static void refused_requests(void) {
    /* the room made at first, the room made later, and the growth for a new access; and for a new object */
    long few = refused_in_turn(&reading, 0), many = refused_in_turn(&family, 0);
    CHECK(few >= 3 && many > few && refused_in_turn(&branched, 0) > few);
    few = refused_in_turn(&reading, 1);
    many = refused_in_turn(&family, 1);
    CHECK(few >= 3 && many > few && refused_in_turn(&branched, 1) > few);
}

/* Has each allocation of an opening refused in turn, of the standard start with two accesses, of which one stands
 * twice: it then opens as it should. */
static void refused_openings(void) {
    static const char *const accesses =
        ", \"accesses\": [{\"subject\": \"sec\", \"object\": \"plans\", \"modes\": [\"write\"]}, "
        "{\"subject\": \"ann\", \"object\": \"plans\", \"modes\": [\"read\"]}, "
        "{\"subject\": \"sec\", \"object\": \"plans\", \"modes\": [\"write\"]}]}";
    static char file[1 << 16], wanted[4096];
    size_t end = start_len;
    long k, before = live;
    int status = MLS_ENOMEM;
    while (end && start[end - 1] != '}') end--;
    CHECK(end > 1 && end + strlen(accesses) < sizeof file);
    sprintf(file, "%.*s%s", (int)(end - 1), (const char *)start, accesses);
    sprintf(wanted, "profile %d\nnext 4%saccess ann read plans\naccess sec write plans\n", profile, opening_rest);
    for (k = 0; status == MLS_ENOMEM && k < 100000; k++) {
        mls_monitor m = MLS_INIT;
        mls_fault f = no_fault;
        left = k;
        status = mls_open(&m, (const uint8_t *)file, strlen(file), &f);
        left = -1;
        if (status == MLS_ENOMEM) {
            CHECK(m.held == 0 && m.monitor == NULL && live == before);
            CHECK(mls_open(&m, (const uint8_t *)file, strlen(file), &f) == MLS_OK);
        }
        CHECK(is_fault(&f, 55, 66, 77));
        has_state(&m, wanted);
        mls_close(&m);
    }
    CHECK(status == MLS_OK && k > 10 && live == before);
}

/* Has each allocation of a label's text refused in turn: nothing is written then, and the same call again writes it. */
static void refused_labels(void) {
    mls_monitor m = MLS_INIT;
    mls_label l = {0, {0, 0, 0, 0}};
    char text[8];
    long k;
    int status = MLS_ENOMEM;
    open_standard(&m);
    CHECK(mls_read_label(&m, MLS_SECURITY_LABEL, (const uint8_t *)"S:B,A", 5, &l) == MLS_OK);
    for (k = 0; status == MLS_ENOMEM && k < 100; k++) {
        size_t len = 77;
        memset(text, '#', sizeof text);
        left = k;
        status = mls_write_label(&m, MLS_SECURITY_LABEL, &l, text, sizeof text, &len);
        left = -1;
        if (status == MLS_ENOMEM) {
            CHECK(len == 77 && memcmp(text, "########", sizeof text) == 0);
            CHECK(mls_write_label(&m, MLS_SECURITY_LABEL, &l, text, sizeof text, &len) == MLS_OK);
        }
        CHECK(len == 5 && memcmp(text, "S:A,B###", sizeof text) == 0);
    }
    CHECK(status == MLS_OK && k > 1);
    mls_close(&m);
}

/* How a replay of a journal ended: with this state and an entry for each line; the forged one, with the reply that is
 * due. */
static void is_ended(mls_monitor *m, const mls_fault *f, int status, const char *text, const char *state) {
    uint64_t count = 0;
    if (status == MLS_OK) {
        for (; *text; text++) count += *text == '\n';
        CHECK(mls_entries(m) == count && is_fault(f, 55, 66, 77));
        has_state(m, state);
    } else
        CHECK(m->held == 0 && is_fault(f, 2, MLS_DENIED + MLS_STAR, 3));
}

/* Has each allocation of a journal's replay refused in turn: it then ends so, with this state where it is one. */
static void replays_refused(const char *text, const char *state, int status) {
    mls_monitor m = MLS_INIT;
    mls_fault f = no_fault;
    long k, before = live;
    int ended = MLS_ENOMEM;
    for (k = 0; ended == MLS_ENOMEM && k < 100000; k++) {
        left = k;
        ended = resume(&m, text, strlen(text), &f);
        left = -1;
        if (ended != MLS_ENOMEM) break;
        CHECK(m.held == 0 && m.monitor == NULL && is_fault(&f, 55, 66, 77) && live == before);
        ended = resume(&m, text, strlen(text), &f);
        CHECK(ended == status);
        is_ended(&m, &f, ended, text, state);
        mls_close(&m);
        f = no_fault;
        ended = MLS_ENOMEM;
    }
    CHECK(ended == status && k > 20);
    is_ended(&m, &f, ended, text, state);
    /* the start of the forged journal takes the true one */
    if (status == MLS_EREPLAY) {
        open_replayed(&m, climb.text);
        has_state(&m, state_after(&climb));
    }
    mls_close(&m);
    CHECK(live == before);
}

static void refused_replays(void) {
    replays_refused(climb.text, state_after(&climb), MLS_OK);
    replays_refused(family.text, state_after(&family), MLS_OK);
    replays_refused(branched.text, state_after(&branched), MLS_OK);
    replays_refused(forged, NULL, MLS_EREPLAY);
}

/* Numbers that are given again, each allocation refused in turn: of openings and requests, and of replays. */
static void refused_numbers_again(void) {
    change_profile();
    leads(&reused);
    /* the room made at first, and the growth for a new object, of which some have room that others left */
    CHECK(refused_in_turn(&reused, 0) >= 4 && refused_in_turn(&reused, 1) >= 4);
    replays_refused(reused.text, state_after(&reused), MLS_OK);
    change_profile();
}

/* The last numbers of objects, each allocation refused in turn: three are given out, and a fourth request is denied. */
static void refused_last_numbers(void) {
    mls_monitor m = MLS_INIT, on = MLS_INIT, ample = MLS_INIT;
    mls_journal_entry e;
    mls_answer a;
    char *text;
    uint64_t number;
    long k, met = 0;
    int is_refused = 1, n;
    memset(&e, 0, sizeof e);
    e.session = 7;
    e.request.action = MLS_CREATE, e.request.subject = SEC, e.request.integrity.level = 1;
    open_standard(&m);
    CHECK(mls_get(&m, 7, SEC, ROOT, MLS_WRITE, &a) == MLS_OK && a.reply == MLS_YES);
    for (n = 4; n < 4093; n++)
        CHECK(mls_submit(&m, 7, &e.request, &a) == MLS_OK && a.reply == MLS_CREATED && a.object == n);
    text = state_of(&m);
    number = mls_entries(&m);
    mls_close(&m);
    for (k = 0; is_refused && k < 1000; k++) {
        CHECK(go_on(&on, text, number) == MLS_OK && go_on(&ample, text, number) == MLS_OK);
        left = k;
        for (n = 0; n < 4; n++) {
            long kept;
            e.number = number + (uint64_t)n;
            e.reply = n < 3 ? MLS_CREATED : MLS_DENIED + MLS_FULL;
            e.object = (uint16_t)(n < 3 ? 4093 + n : 0);
            met += asked_again(&on, &ample, &e);
            kept = left, left = -1;
            CHECK(mls_submit(&ample, 7, &e.request, &a) == MLS_OK && answers(&a, &e));
            left = kept;
        }
        is_refused = left < 0;
        left = -1;
        are_alike(&on, &ample);
        mls_close(&on);
        mls_close(&ample);
    }
    /* the entries, and the tables of labels, permissions and parents: a state that was read leaves no spare room */
    CHECK(met >= 4 && !is_refused);
    free(text);
}

/* Conditions of gets over the opening, in their order: permission, simple security, star, integrity. */
static void conditions_of_gets(void) {
    static const struct {
        uint16_t object;
        uint8_t mode, holds[4];
    } rows[] = {{PLANS, MLS_APPEND, {1, 1, 1, 0}}, {PLANS, MLS_READ, {0, 0, 0, 1}},
                {MEMO, MLS_READ, {1, 1, 0, 1}}, {MEMO, MLS_APPEND, {0, 1, 1, 1}}};
    mls_monitor m = MLS_INIT;
    mls_condition c[MLS_CONDITIONS];
    mls_remedy r;
    mls_request q;
    size_t k, n, len;
    memset(&q, 0, sizeof q);
    q.subject = BOB;
    open_standard(&m);
    for (k = 0; k < sizeof rows / sizeof *rows; k++) {
        q.object = rows[k].object, q.mode = rows[k].mode, len = 0;
        CHECK(mls_explain(&m, &q, c, MLS_CONDITIONS, &len, &r) == MLS_OK && len == 4);
        for (n = 0; n < 4; n++) CHECK(c[n].reason == MLS_DISCRETIONARY + n && c[n].holds == rows[k].holds[n]);
    }
    mls_close(&m);
}

/* What each byte of a text is changed to. */
static const uint8_t other_bytes[] = {0, 10, 32, 34, 48, 92, 123, 125, 255};

/* The entries of a handle write its journal's text back. */
static void is_written_back(mls_monitor *m, const char *text, size_t len) {
    char line[512];
    size_t at = 0, one = 0;
    uint64_t n;
    for (n = 0; n < mls_entries(m); n++, at += one)
        CHECK(mls_entry_text(m, n, line, sizeof line, &one) == MLS_OK && at + one <= len &&
              !memcmp(line, text + at, one));
    CHECK(at == len);
}

/* The state of a handle is a secure one of a start file. */
static void is_secure(mls_monitor *m, const uint8_t *file, size_t len) {
    mls_monitor on = MLS_INIT;
    mls_fault f = no_fault;
    char *text = state_of(m);
    CHECK(mls_open_state(&on, file, len, (const uint8_t *)text, strlen(text), 0, &f) == MLS_OK);
    mls_close(&on);
    free(text);
}

/* Each byte of a journal is changed: that is found by name, or the entries write the text back and the state is
 * secure. */
static void changed_bytes_of_a_journal(void) {
    static const char *const text =
        "0 0 1 get-read 2 no star\n1 0 1 level 1 yes\n2 0 1 get-read 2 yes\n3 0 1 level 0 no star\n"
        "4 0 1 release read 2 yes\n5 0 1 level 0 yes\n";
    mls_monitor m = MLS_INIT;
    mls_fault f;
    char other[256];
    size_t place, k, len = strlen(text), whole = 0;
    CHECK(len < sizeof other);
    for (place = 0; place < len; place++)
        for (k = 0; k < sizeof other_bytes; k++) {
            int status;
            memcpy(other, text, len);
            other[place] = (char)other_bytes[k];
            status = resume(&m, other, len, &f);
            CHECK(status == MLS_OK || status == MLS_EJOURNAL || status == MLS_EREPLAY);
            if (status != MLS_OK) continue;
            is_written_back(&m, other, len);
            is_secure(&m, start, start_len);
            mls_close(&m);
            whole++;
        }
    CHECK(whole > 0 && whole < len);
}

/* Each byte of a start file is changed: it is refused by name, or it opens secure. */
static void changed_bytes_of_a_start(void) {
    static uint8_t other[1 << 16];
    mls_monitor m = MLS_INIT;
    mls_fault f;
    size_t place, k, whole = 0;
    for (place = 0; place < start_len; place++)
        for (k = 0; k < sizeof other_bytes; k++) {
            int status;
            memcpy(other, start, start_len);
            other[place] = other_bytes[k];
            status = mls_open(&m, other, start_len, &f);
            CHECK(status == MLS_OK || status == MLS_ESTART);
            if (status != MLS_OK) continue;
            is_secure(&m, other, start_len);
            mls_close(&m);
            whole++;
        }
    CHECK(whole > 0 && whole < sizeof other_bytes * start_len / 2);
}

int main(int argc, char **argv) {
    FILE *file = argc > 1 ? fopen(argv[1], "rb") : NULL;
    if (!file) return 2;
    start_len = fread(start, 1, sizeof start, file);
    fclose(file);
    tell("states that journals lead to", states_of_journals);
    tell("accesses that are held", accesses_that_are_held);
    tell("fronts of a journal", fronts_of_the_climb);
    tell("children of objects", children_of_objects);
    tell("conditions of gets", conditions_of_gets);
    tell("entries that are forgotten", entries_that_are_forgotten);
    tell("memory that is given back", memory_that_is_given_back);
    tell("openings without memory", refused_openings);
    tell("labels without memory", refused_labels);
    tell("requests without memory", refused_requests);
    tell("replays without memory", refused_replays);
    tell("numbers that are given again, without memory", refused_numbers_again);
    tell("the last numbers without memory", refused_last_numbers);
    tell("changed bytes of a journal", changed_bytes_of_a_journal);
    tell("changed bytes of a start", changed_bytes_of_a_start);
    printf("%d passed, %d failed\n", passed, failed);
    return failed > 0;
}
