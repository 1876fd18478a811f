/* The part of the library that is plain C: the words of numbers and of faults, and the calls that take bytes with a
 * length. What is proved takes no null pointer; where a length is 0 and the pointer is null, it gets the address of a byte
 * that it doesn't read. */
#include "mls.h"

#define COUNT(words) (sizeof(words) / sizeof(words)[0])

#define TEXT(number) #number
#define VERSION(major, minor) TEXT(major) "." TEXT(minor)

static uint8_t nothing;

static const uint8_t *bytes(const uint8_t *at, size_t len) { return at || len ? at : &nothing; }

static char nowhere;

static mls_condition no_condition;

static mls_labels no_row;

static uint16_t no_reply;

static mls_session no_session;

static char *room(char *at, size_t cap) { return at || cap ? at : &nowhere; }

int mls_open_bytes(mls_monitor *m, const uint8_t *start, size_t len, mls_fault *fault);
int mls_resume_bytes(mls_monitor *m, const uint8_t *start, size_t len, const uint8_t *journal, size_t journal_len, mls_fault *fault);
int mls_open_state_bytes(mls_monitor *m, const uint8_t *start, size_t len, const uint8_t *state, size_t state_len, uint64_t number, mls_fault *fault);
int mls_entry_bytes(mls_monitor *m, uint64_t n, char *buf, size_t cap, size_t *len);
int mls_subject_bytes(mls_monitor *m, const uint8_t *name, size_t len, uint16_t *subject);
int mls_object_bytes(mls_monitor *m, const uint8_t *name, size_t len, uint16_t *object);
int mls_read_label_bytes(mls_monitor *m, uint32_t kind, const uint8_t *text, size_t len, mls_label *label);
int mls_write_label_bytes(mls_monitor *m, uint32_t kind, const mls_label *label, char *buf, size_t cap, size_t *len);
int mls_subject_name_bytes(mls_monitor *m, uint16_t subject, char *buf, size_t cap, size_t *len);
int mls_object_name_bytes(mls_monitor *m, uint16_t object, char *buf, size_t cap, size_t *len);
int mls_decide_label_pairs(mls_monitor *m, uint16_t subject, uint8_t mode, const mls_labels *pairs, size_t n, uint16_t *replies, size_t count);
int mls_explain_rows(mls_monitor *m, const mls_request *request, mls_condition *rows, size_t cap, size_t *count, mls_remedy *remedy);
int mls_state_start_bytes(mls_monitor *m, char *buf, size_t cap, size_t *len, uint16_t *numbers, size_t count);
int mls_state_text_bytes(mls_monitor *m, char *buf, size_t cap, size_t *len);
int mls_office_open_sessions(mls_office *office, mls_monitor *m, mls_session *sessions, size_t count, uint64_t serial);
int mls_office_close_sessions(mls_office *office, mls_session *sessions, size_t count, mls_monitor *m);
int mls_session_meet_other(mls_session *s, mls_session *other);
int mls_session_decide_label_pairs(mls_session *s, uint16_t subject, uint8_t mode, const mls_labels *pairs, size_t n, uint16_t *replies, size_t count);
int mls_session_explain_rows(mls_session *s, const mls_request *request, mls_condition *rows, size_t cap, size_t *count, mls_remedy *remedy);
int mls_session_entry_bytes(mls_session *s, uint64_t from, char *buf, size_t cap, size_t *len, uint64_t *next);

int mls_open(mls_monitor *m, const uint8_t *start, size_t len, mls_fault *fault) {
    return mls_open_bytes(m, bytes(start, len), len, fault);
}

int mls_resume(mls_monitor *m, const uint8_t *start, size_t len, const uint8_t *journal, size_t journal_len, mls_fault *fault) {
    return mls_resume_bytes(m, bytes(start, len), len, bytes(journal, journal_len), journal_len, fault);
}

int mls_open_state(mls_monitor *m, const uint8_t *start, size_t len, const uint8_t *state, size_t state_len, uint64_t number, mls_fault *fault) {
    return mls_open_state_bytes(m, bytes(start, len), len, bytes(state, state_len), state_len, number, fault);
}

int mls_entry_text(mls_monitor *m, uint64_t n, char *buf, size_t cap, size_t *len) {
    return mls_entry_bytes(m, n, room(buf, cap), cap, len);
}

int mls_subject(mls_monitor *m, const uint8_t *name, size_t len, uint16_t *subject) {
    return mls_subject_bytes(m, bytes(name, len), len, subject);
}

int mls_object(mls_monitor *m, const uint8_t *name, size_t len, uint16_t *object) {
    return mls_object_bytes(m, bytes(name, len), len, object);
}

int mls_read_label(mls_monitor *m, int kind, const uint8_t *text, size_t len, mls_label *label) {
    return mls_read_label_bytes(m, (uint32_t)kind, bytes(text, len), len, label);
}

int mls_write_label(mls_monitor *m, int kind, const mls_label *label, char *buf, size_t cap, size_t *len) {
    return mls_write_label_bytes(m, (uint32_t)kind, label, room(buf, cap), cap, len);
}

int mls_subject_name(mls_monitor *m, uint16_t subject, char *buf, size_t cap, size_t *len) {
    return mls_subject_name_bytes(m, subject, room(buf, cap), cap, len);
}

int mls_object_name(mls_monitor *m, uint16_t object, char *buf, size_t cap, size_t *len) {
    return mls_object_name_bytes(m, object, room(buf, cap), cap, len);
}

/* (there are as many replies as rows) */
int mls_decide_labels(mls_monitor *m, uint16_t subject, uint8_t mode, const mls_labels *rows, size_t n, uint16_t *replies) {
    return mls_decide_label_pairs(m, subject, mode, rows || n ? rows : &no_row, n, replies || n ? replies : &no_reply, n);
}

int mls_explain(mls_monitor *m, const mls_request *request, mls_condition *conditions, size_t cap, size_t *count, mls_remedy *remedy) {
    return mls_explain_rows(m, request, conditions || cap ? conditions : &no_condition, cap, count, remedy);
}

int mls_state_start(mls_monitor *m, char *buf, size_t cap, size_t *len, uint16_t *numbers) {
    return mls_state_start_bytes(m, room(buf, cap), cap, len, numbers, MLS_OBJECTS);
}

int mls_state_text(mls_monitor *m, char *buf, size_t cap, size_t *len) {
    return mls_state_text_bytes(m, room(buf, cap), cap, len);
}

/* The serial of the last opening of an office. Each has its own, from 1 on, and none is used again. A session notes that
 * of its office, and no address: a session that outlives its office has it still, when another office has the address. */
static uint64_t last_serial;

static uint64_t new_serial(void) { return __atomic_add_fetch(&last_serial, 1, __ATOMIC_RELAXED); }

/* (too many sessions are refused as none are, and not looked at) */
int mls_office_open(mls_office *office, mls_monitor *m, mls_session *sessions, uint16_t count) {
    size_t n = count <= MLS_SESSIONS ? count : 0;
    return mls_office_open_sessions(office, m, n ? sessions : &no_session, n, new_serial());
}

int mls_office_close(mls_office *office, mls_session *sessions, mls_monitor *m) {
    size_t n = office->held ? office->count : 0;
    return mls_office_close_sessions(office, n ? sessions : &no_session, n, m);
}

/* (sessions of one office have its serial, and no other session has) */
int mls_session_meet(mls_session *s, mls_session *other) {
    if (!s->held || !other->held) return MLS_ECLOSED;
    if (s == other || s->office != other->office) return MLS_EINVAL;
    return mls_session_meet_other(s, other);
}

int mls_session_decide_labels(mls_session *s, uint16_t subject, uint8_t mode, const mls_labels *rows, size_t n, uint16_t *replies) {
    return mls_session_decide_label_pairs(s, subject, mode, rows || n ? rows : &no_row, n, replies || n ? replies : &no_reply, n);
}

int mls_session_explain(mls_session *s, const mls_request *request, mls_condition *conditions, size_t cap, size_t *count, mls_remedy *remedy) {
    return mls_session_explain_rows(s, request, conditions || cap ? conditions : &no_condition, cap, count, remedy);
}

int mls_session_entry_text(mls_session *s, uint64_t from, char *buf, size_t cap, size_t *len, uint64_t *next) {
    return mls_session_entry_bytes(s, from, room(buf, cap), cap, len, next);
}

static const char *word(const char *const *words, size_t count, int number) {
    return number >= 0 && (size_t)number < count ? words[number] : "?";
}

const char *mls_version(void) { return VERSION(MLS_VERSION_MAJOR, MLS_VERSION_MINOR); }

const char *mls_status_word(int status) {
    static const char *const words[] = {"ok", "closed", "open", "no memory", "invalid", "start refused", "journal refused",
                                        "replay differs", "too short", "not found", "state refused",
                                        "busy", "not yet"};
    return status > -(int)COUNT(words) ? word(words, COUNT(words), -status) : "?";
}

const char *mls_action_word(int action) {
    static const char *const words[] = {"get", "release", "give", "rescind", "create", "delete", "level", "relabel"};
    return word(words, COUNT(words), action);
}

const char *mls_mode_word(int mode) {
    static const char *const words[] = {"execute", "read", "append", "write"};
    return word(words, COUNT(words), mode);
}

const char *mls_reply_word(int reply) {
    static const char *const words[] = {"yes", "created", "undefined"};
    return reply > MLS_DENIED && reply <= MLS_DENIED + MLS_FULL ? "no" : word(words, COUNT(words), reply);
}

const char *mls_reason_word(int reason) {
    static const char *const words[] = {"?", "discretionary", "simple", "star", "integrity", "authority", "compatibility",
                                        "ceiling", "root", "full"};
    return word(words, COUNT(words), reason);
}

/* The names of faults, by their numbers from 1 on, as docs/FORMATS.md has them. */
static const char *const start_faults[] = {"Json", "Members", "Scheme", "Name", "Label", "Unknown", "Start", "Memory"};
static const char *const scheme_causes[] = {"NoLevels", "TooManyLevels", "TooManyCategories", "BadName", "RepeatedName",
                                            "Memory"};
static const char *const start_causes[] = {"NoSubjects", "TooManySubjects", "TooManyObjects", "BadLabel", "BadParent",
                                           "CurrentAboveMaximum", "NotCompatible", "IntegrityAboveParent", "NoSuchCell",
                                           "NotSecure"};
static const char *const line_faults[] = {"BadForm", "BadNumber", "BadLabel", "BadReply"};
static const char *const replay_faults[] = {"Number", "Differs"};

/* A line that is being written, of which what has room is kept. */
typedef struct {
    char text[MLS_FAULT_TEXT];
    size_t len;
} line;

static void put(line *l, const char *text) {
    while (*text && l->len < sizeof l->text) l->text[l->len++] = *text++;
}

static void put_number(line *l, uint64_t n) {
    char digits[21];
    size_t at = sizeof digits - 1;
    digits[at] = 0;
    do digits[--at] = (char)('0' + n % 10); while (n /= 10);
    put(l, digits + at);
}

/* Writes a number from 1 on and its name. */
static void put_named(line *l, const char *front, int number, const char *const *words, size_t count) {
    put(l, front);
    put_number(l, (uint64_t)number);
    put(l, " ");
    put(l, word(words, count, number - 1));
}

static void put_start(line *l, const mls_fault *fault) {
    put_named(l, "start ", fault->kind, start_faults, COUNT(start_faults));
    if (fault->kind == 3) put_named(l, " ", fault->number, scheme_causes, COUNT(scheme_causes));
    if (fault->kind == 7) put_named(l, " ", fault->number, start_causes, COUNT(start_causes));
}

static void put_line(line *l, const mls_fault *fault) {
    put(l, "line ");
    put_number(l, fault->place == UINT64_MAX ? fault->place : fault->place + 1);
}

static void put_replay(line *l, const mls_fault *fault) {
    put_named(l, "replay ", fault->kind, replay_faults, COUNT(replay_faults));
    put(l, " at ");
    put_number(l, fault->place);
    if (fault->kind != 2) return;
    put(l, " expected ");
    put(l, mls_reply_word(fault->number));
    if (fault->number > MLS_DENIED) {
        put(l, " ");
        put(l, mls_reason_word(fault->number - MLS_DENIED));
    }
}

static void put_state(line *l, const mls_fault *fault) {
    static const char *const words[] = {": not of a state", "a state of another start", "a state that is not secure"};
    if (fault->kind == 1) put_line(l, fault);
    put(l, word(words, COUNT(words), fault->kind - 1));
}

int mls_fault_text(int status, const mls_fault *fault, char *buf, size_t cap, size_t *len) {
    line l;
    size_t n;
    l.len = 0;
    if (status == MLS_ESTART) put_start(&l, fault);
    else if (status == MLS_EREPLAY) put_replay(&l, fault);
    else if (status == MLS_ESTATE) put_state(&l, fault);
    else if (status == MLS_EJOURNAL) {
        put_line(&l, fault);
        put_named(&l, ": entry ", fault->kind, line_faults, COUNT(line_faults));
    } else put(&l, mls_status_word(status));
    *len = l.len;
    if (cap < l.len) return MLS_ERANGE;
    for (n = 0; n < l.len; n++) buf[n] = l.text[n];
    return MLS_OK;
}
