/* mls.h: a proved reference monitor for C programs.
 *
 * A handle is closed or open. An open handle has the names of a start, the start, and a journal.
 * The state of its monitor is the fold of the rules over the journal from the start, and is always
 * secure. The comment of each call gives its effect on the handle and its output, for every status;
 * docs/CALLS.md is the reference with examples, and crates/mls_c has the contracts, which are
 * proved.
 *
 * Duties of the caller, which nothing checks:
 * - The caller allocates a handle, as MLS_INIT or all zeros. It never copies the handle or writes
 *   to it, and does not move it while it is open.
 * - Pointers are aligned, and valid for what the call reads or writes. None overlaps another of the
 *   same call, except that memory that the call only reads may be passed twice. If a length is 0,
 *   the pointer beside it may be null; no other pointer may be null.
 * - One call at a time works on a handle. If threads pass a handle on, their calls are ordered: by
 *   a thread's start or join, say, or a mutex, as mls_shared.h has. Calls on different handles may
 *   run in different threads at the same time. Threads share one monitor as an office: each has the
 *   handle of a session of its own, and calls on different sessions run side by side.
 * - mls_dominates and the names of numbers take no handle; any threads may call them at once.
 * - No call is made from a signal handler, nor in the forked child of a process with threads.
 * Memory comes from malloc, realloc and free. mls_close frees what the library holds, and
 * mls_forget may free memory of entries.
 */
#ifndef MLS_H
#define MLS_H

#include <stddef.h>
#include <stdint.h>

#ifdef __cplusplus
extern "C" {
#endif

/* The version of this header. Numbers that stand here keep their meaning from 0.2 on. */
#define MLS_VERSION_MAJOR 0
#define MLS_VERSION_MINOR 3

/* Statuses: MLS_OK, or a number below 0. With a status below 0 the handle is unchanged, and the
 * call writes only the output that its comment names for that status: the fault of MLS_ESTART,
 * MLS_EJOURNAL, MLS_EREPLAY and MLS_ESTATE, the length of MLS_ERANGE, and the replies of a batch
 * that is MLS_EINVAL. The decision is never in the status. */
enum {
    MLS_OK = 0,
    MLS_ECLOSED = -1,   /* the handle is closed */
    MLS_EOPEN = -2,     /* the handle is open already */
    MLS_ENOMEM = -3,    /* an allocation failed */
    MLS_EINVAL = -4,    /* the numbers are no request, label or kind, the text is no label, or there
                           are too many entries */
    MLS_ESTART = -5,    /* the start is refused: the fault says why */
    MLS_EJOURNAL = -6,  /* a line of the journal is no entry's: the fault says which and why */
    MLS_EREPLAY = -7,   /* the journal isn't one of its start: the fault says where and why */
    MLS_ERANGE = -8,    /* the buffer or the rows are too short */
    MLS_ENOTFOUND = -9, /* no such entry, name, subject or object, or a request that names none */
    MLS_ESTATE = -10,   /* the text isn't that of a secure state of the start: the fault says why */
    MLS_EBUSY = -11,    /* another session is at the monitor, or sessions of the office are out */
    MLS_EAGAIN = -12    /* the journal isn't so long yet */
};

/* Actions. */
enum {
    MLS_GET = 0,            /* object, mode */
    MLS_RELEASE = 1,        /* object, mode */
    MLS_GIVE = 2,           /* object, mode, and the other subject, which gets the permission */
    MLS_RESCIND = 3,        /* object, mode, and the other subject, which loses the permission */
    MLS_CREATE = 4,         /* object: the parent; security, integrity: the new object's labels */
    MLS_DELETE = 5,         /* object */
    MLS_SUBJECT_LEVEL = 6,  /* security: the subject's new current label */
    MLS_OBJECT_LEVEL = 7    /* object; security: its new label */
};

/* Modes of access. */
enum { MLS_EXECUTE = 0, MLS_READ = 1, MLS_APPEND = 2, MLS_WRITE = 3 };

/* Replies: a denial is MLS_DENIED and the number of its reason, 17 to 25. */
enum { MLS_YES = 0, MLS_CREATED = 1, MLS_UNDEFINED = 2, MLS_DENIED = 16 };

/* Reasons of denials, numbered as docs/POLICY.md counts them. */
enum {
    MLS_DISCRETIONARY = 1, MLS_SIMPLE = 2, MLS_STAR = 3, MLS_INTEGRITY = 4, MLS_AUTHORITY = 5,
    MLS_COMPATIBILITY = 6, MLS_CEILING = 7, MLS_ROOT = 8, MLS_FULL = 9
};

/* Kinds of labels. */
enum { MLS_SECURITY_LABEL = 0, MLS_INTEGRITY_LABEL = 1 };

/* A handle. Its fields are the library's. */
typedef struct {
    uint32_t held;
    void *monitor;
} mls_monitor;

#define MLS_INIT { 0, NULL }

/* An office: a monitor that threads share by sessions. Its fields are the library's. */
typedef struct {
    uint32_t held;
    void *hall;
    uint64_t serial;
    uint16_t count;
} mls_office;

#define MLS_OFFICE_INIT { 0, NULL, 0, 0 }

/* The handle of a session of an office. Its fields are the library's. */
typedef struct {
    uint32_t held;
    void *place;
    uint64_t office;
    uint16_t number;
} mls_session;

#define MLS_SESSION_INIT { 0, NULL, 0, 0 }

/* An office has no more sessions than this. */
enum { MLS_SESSIONS = 64 };

/* A label: a level below 16, and bit n % 64 of word n / 64 for category n, 0 to 255. */
typedef struct {
    uint8_t level;
    uint64_t categories[4];
} mls_label;

/* The labels of something that isn't an object, say a row or a file. */
typedef struct {
    mls_label security, integrity;
} mls_labels;

/* A request. The library ignores the members that its action doesn't use. */
typedef struct {
    uint8_t action, mode;
    uint16_t subject, other, object;
    mls_label security, integrity;
} mls_request;

/* An answer: the number of its entry, the reply, and the number of the new object if the reply is
 * MLS_CREATED, else 0. */
typedef struct {
    uint64_t number;
    uint16_t reply, object;
} mls_answer;

/* An entry of the journal. */
typedef struct {
    uint64_t number;
    uint32_t session;
    uint16_t reply, object;
    mls_request request;
} mls_journal_entry;

/* Why a start, a journal or a state is refused: the kind of the fault, a number with details, and
 * the place. */
typedef struct {
    uint16_t kind, number;
    uint64_t place;
} mls_fault;

/* The line of a fault is not longer than this. */
enum { MLS_FAULT_TEXT = 80 };

/* A subject: its labels, and 1 if the star property doesn't bind it, else 0. */
typedef struct {
    mls_label maximum, current, integrity;
    uint8_t trusted;
} mls_subject_info;

/* An object: its labels, and its parent, 0 if it is the root. */
typedef struct {
    mls_label security, integrity;
    uint16_t parent;
} mls_object_info;

/* Sets of modes: the sum of these, or bit MLS_READ and so on. */
enum {
    MLS_EXECUTES = 1 << MLS_EXECUTE, MLS_READS = 1 << MLS_READ, MLS_APPENDS = 1 << MLS_APPEND,
    MLS_WRITES = 1 << MLS_WRITE
};

/* A subject and an object: the modes that the matrix permits, and those in which it is held. */
typedef struct {
    uint8_t permitted, held;
} mls_pair_info;

/* The numbers of entries, subjects and active objects, and the number of the next object,
 * MLS_OBJECTS if there is none. Subjects have the numbers below their count. */
typedef struct {
    uint64_t entries;
    uint16_t subjects, objects, next;
} mls_counts;

/* Object numbers are below this. */
enum { MLS_OBJECTS = 4096 };

/* What a label that a condition compares is the label of. */
enum {
    MLS_NO_TERM = 0,           /* no label is compared */
    MLS_MAXIMUM_OF_CALLER = 1,
    MLS_CURRENT_OF_CALLER = 2,
    MLS_REQUESTED_SECURITY = 3,
    MLS_SECURITY_OF_OBJECT = 4,    /* of: the object */
    MLS_REQUESTED_INTEGRITY = 5,
    MLS_INTEGRITY_OF_OBJECT = 6,   /* of: the object */
    MLS_INTEGRITY_OF_SUBJECT = 7   /* of: the subject */
};

/* A label that a condition compares: what it is the label of; the number of that object or subject,
 * else 0; and the label. */
typedef struct {
    uint16_t kind, of;
    mls_label label;
} mls_term;

/* What a condition rests on, and the fields that it uses; the others are 0. */
enum {
    MLS_BY_PERMISSION = 1,   /* the matrix permits subject the object in the mode */
    MLS_BY_NO_OBSERVING = 2, /* the mode doesn't observe */
    MLS_BY_EXECUTE = 3,      /* execute neither observes nor alters */
    MLS_BY_TRUST = 4,        /* subject is trusted */
    MLS_BY_DOMINANCE = 5,    /* first dominates second */
    MLS_BY_EQUALITY = 6,     /* first equals second */
    MLS_BY_WRITING = 7,      /* subject holds write on object */
    MLS_BY_ALTERING = 8,     /* subject holds append or write on object */
    MLS_BY_NO_PARENT = 9,    /* object has no parent that could be written: it never holds */
    MLS_BY_NUMBER = 10,      /* the next number, which object has, is below MLS_OBJECTS */
    MLS_BY_NO_ROOT = 11,     /* object isn't the root */
    MLS_BY_HOLDINGS = 12,    /* star of all that subject holds, with the current label first */
    MLS_BY_RELABELLING = 13, /* also: subject writes parent; and first, its current label, and
                                third, the new one, dominate second, that of object */
    MLS_BY_CHILDREN = 14,    /* the label of each child of object dominates first */
    MLS_BY_PLACE = 15,       /* first dominates second, the label of parent, the object's parent;
                                and also: the label of each child of object dominates first */
    MLS_BY_OBSERVERS = 16,   /* simple security of all that is held of object, with label first */
    MLS_BY_HOLDERS = 17      /* star of all that is held of object, with label first */
};

/* No request has more conditions than this. */
enum { MLS_CONDITIONS = 4 };

/* A condition of a request: the reason of the denial if it is the first that fails, 1 if it holds,
 * and what it rests on. */
typedef struct {
    uint16_t reason;
    uint8_t holds, also, basis, mode;
    uint16_t subject, object, parent;
    mls_term first, second, third;
} mls_condition;

/* The remedy of a get: 1 and the least current label that the subject can take now after which the
 * get is granted; 0 if there is none. For a get that is granted anyway it may be a lower label than
 * the current one. */
typedef struct {
    uint8_t there;
    mls_label label;
} mls_remedy;

/* The same types by their names of version 0.2, which version 0.4 no longer has: POSIX keeps
 * names that end in _t for itself. */
typedef mls_monitor mls_t;
typedef mls_label mls_label_t;
typedef mls_request mls_request_t;
typedef mls_answer mls_answer_t;
typedef mls_journal_entry mls_entry_t;
typedef mls_fault mls_fault_t;

/* Opens a closed handle from the bytes of a start file, with an empty journal.
 * MLS_EOPEN, MLS_ESTART, MLS_ENOMEM. The fault is written only if the status is MLS_ESTART. */
int mls_open(mls_monitor *m, const uint8_t *start, size_t len, mls_fault *fault);

/* Opens a closed handle from the bytes of a start file and the text of a journal, and computes the
 * journal's numbers and replies again. The first fault decides: of the start, then of the journal's
 * lines, then of the entries. MLS_EOPEN, MLS_ESTART, MLS_EJOURNAL, MLS_EREPLAY, MLS_ENOMEM. The
 * fault is written only if the start or the journal is refused. */
int mls_resume(mls_monitor *m, const uint8_t *start, size_t len, const uint8_t *journal,
               size_t journal_len, mls_fault *fault);

/* Opens a closed handle from the bytes of a start file and the text of a state to which number
 * entries led, as mls_state_text copies it out. The handle goes on as the one that answered these
 * entries: objects keep their numbers, the next entry has this number, and the entries before it
 * are as if forgotten. Whatever the text says, the state is secure and has what no request changes
 * of that start: the profile, the bounds of labels, and the subjects with their maximum and
 * integrity labels and trust. The caller must know that those entries led to the state: nothing
 * checks it. docs/EMBEDDING.md shows how.
 * MLS_EOPEN; MLS_ESTART; MLS_EINVAL if number is above 2^63; MLS_ENOMEM; MLS_ESTATE, with a fault
 * of kind 1 for a line that isn't as it must be, its place the number of lines before it, of kind 2
 * for a state of another start, and of kind 3 for one that isn't secure. The fault is written only
 * if the start or the state is refused. */
int mls_open_state(mls_monitor *m, const uint8_t *start, size_t len, const uint8_t *state,
                   size_t state_len, uint64_t number, mls_fault *fault);

/* Answers a request by the rules, changes the state as they say, and adds exactly its entry to the
 * journal. The session is written into the entry and means nothing else. MLS_ECLOSED, MLS_EINVAL,
 * MLS_ENOMEM: then nothing is changed or written. */
int mls_submit(mls_monitor *m, uint32_t session, const mls_request *request, mls_answer *answer);

/* Returns 1 if the subject holds an access to the object in the mode now; 0 if not, if the handle
 * is closed, and if the mode is none. It adds no entry and doesn't allocate. */
int mls_check(mls_monitor *m, uint16_t subject, uint16_t object, uint8_t mode);

/* What mls_submit would answer now. Nothing changes, and it doesn't allocate. MLS_ECLOSED,
 * MLS_EINVAL. */
int mls_decide(mls_monitor *m, const mls_request *request, mls_answer *answer);

/* The number of entries in the journal, forgotten ones included; 0 if the handle is closed. */
uint64_t mls_entries(mls_monitor *m);

/* Copies out entry n, counted from 0, unless it is forgotten. MLS_ECLOSED, MLS_ENOTFOUND. */
int mls_entry(mls_monitor *m, uint64_t n, mls_journal_entry *entry);

/* Copies out the line of entry n, counted from 0, with its newline and without a zero byte after
 * it: the lines of all entries, one after the other, are the journal's text. The length of the line
 * is written with MLS_OK and with MLS_ERANGE, which leaves the buffer unchanged. MLS_ECLOSED,
 * MLS_ENOTFOUND, MLS_ERANGE, MLS_ENOMEM. */
int mls_entry_text(mls_monitor *m, uint64_t n, char *buf, size_t cap, size_t *len);

/* Forgets the entries with numbers below n: mls_entry and mls_entry_text no longer find them. Their
 * place is used again once they are as many as those that are kept, and memory is given back if
 * much of it is unused. All else is unchanged, the state and the numbers of later entries too.
 * MLS_ECLOSED. */
int mls_forget(mls_monitor *m, uint64_t n);

/* How many of the first entries are forgotten, which is the number of the first that can be read; 0
 * if the handle is closed. */
uint64_t mls_forgotten(mls_monitor *m);

/* The number of a subject's or of an object's name in the start; objects that were made later have
 * no name. It doesn't allocate. MLS_ECLOSED, MLS_ENOTFOUND. */
int mls_subject(mls_monitor *m, const uint8_t *name, size_t len, uint16_t *subject);
int mls_object(mls_monitor *m, const uint8_t *name, size_t len, uint16_t *object);

/* Reads a label's text in the scheme of its kind. It doesn't allocate. MLS_ECLOSED, MLS_EINVAL. */
int mls_read_label(mls_monitor *m, int kind, const uint8_t *text, size_t len, mls_label *label);

/* Copies out a label's text in the scheme of its kind, as mls_entry_text does a line. MLS_ECLOSED,
 * MLS_EINVAL if the scheme has no such label, MLS_ERANGE, MLS_ENOMEM. */
int mls_write_label(mls_monitor *m, int kind, const mls_label *label, char *buf, size_t cap,
                    size_t *len);

/* Returns 1 if label a dominates label b; 0 if not, and if the level of one is above 15. It takes
 * no handle, and a and b may be the same label. */
int mls_dominates(const mls_label *a, const mls_label *b);

/* Decides an access of the subject in the mode to something that has these labels and isn't an
 * object, say a row or a file. The reply is MLS_YES; MLS_UNDEFINED if the subject is unknown or a
 * label is outside the bounds; or MLS_DENIED plus the reason of the first that fails of simple
 * security, star and integrity, as in the rule for a get. The matrix isn't asked, nothing is held
 * afterwards, no entry is added, and it doesn't allocate. MLS_ECLOSED, MLS_EINVAL.
 * The decision is for now only: a later level change doesn't see the access, as it would see one
 * that is held. docs/EMBEDDING.md says how to keep star over rows. */
int mls_decide_label(mls_monitor *m, uint16_t subject, uint8_t mode, const mls_label *security,
                     const mls_label *integrity, uint16_t *reply);

/* Decides n accesses of the subject in the mode, all in one state, the present one: reply k is what
 * mls_decide_label writes for the labels of row k. Nothing changes, and it doesn't allocate.
 * MLS_ECLOSED; MLS_EINVAL if mode is no mode or the numbers of a row are no labels: then each of
 * the n replies is MLS_UNDEFINED, and none is a grant. */
int mls_decide_labels(mls_monitor *m, uint16_t subject, uint8_t mode, const mls_labels *rows,
                      size_t n, uint16_t *replies);

/* Copy out a subject; an active object; which modes of a subject on an object are permitted and
 * held; and the counts. They don't allocate. MLS_ECLOSED; MLS_ENOTFOUND if there is no such subject
 * or the object isn't active. */
int mls_read_subject(mls_monitor *m, uint16_t subject, mls_subject_info *info);
int mls_read_object(mls_monitor *m, uint16_t object, mls_object_info *info);
int mls_read_pair(mls_monitor *m, uint16_t subject, uint16_t object, mls_pair_info *info);
int mls_count(mls_monitor *m, mls_counts *counts);

/* Returns the least child of an object with a number above another one. Called with 0 and then with
 * each child that it returned, it returns all children. It doesn't allocate. MLS_ECLOSED;
 * MLS_ENOTFOUND if the object isn't active or has no such child. */
int mls_next_child(mls_monitor *m, uint16_t object, uint16_t above, uint16_t *child);

/* Copy out the name that the start has for a subject's or an object's number, as mls_entry_text
 * does a line. They don't allocate. MLS_ECLOSED, MLS_ENOTFOUND if it has none, MLS_ERANGE. */
int mls_subject_name(mls_monitor *m, uint16_t subject, char *buf, size_t cap, size_t *len);
int mls_object_name(mls_monitor *m, uint16_t object, char *buf, size_t cap, size_t *len);

/* Copies out the conditions of a request, in the order of its rule, and the remedy, which only a
 * get has. cap is the number of rows. The number of conditions is written with MLS_OK and with
 * MLS_ERANGE, which writes nothing else. MLS_ECLOSED; MLS_EINVAL; MLS_ENOTFOUND if the reply is
 * MLS_UNDEFINED; MLS_ERANGE; MLS_ENOMEM. */
int mls_explain(mls_monitor *m, const mls_request *request, mls_condition *conditions, size_t cap,
                size_t *count, mls_remedy *remedy);

/* Copies out a start file of the present state, from which mls_open opens a handle that holds what
 * this one does. numbers has MLS_OBJECTS members: the call writes the number that each object has
 * in the file, MLS_OBJECTS if it isn't active. The objects of the file are numbered without gaps,
 * parents before their children; they keep their names, and one without gets a new one. The length
 * of the text is written with MLS_OK and with MLS_ERANGE, which writes nothing else. The text is
 * first read back and compared with the state. MLS_ECLOSED; MLS_ERANGE; MLS_ENOMEM; MLS_ESTART if
 * what was written differs, of which no case is known.
 * Use it to replace a handle whose journal has grown: docs/EMBEDDING.md shows it. */
int mls_state_start(mls_monitor *m, char *buf, size_t cap, size_t *len, uint16_t *numbers);

/* Copies out the text of the present state as mls_entry_text does a line: the text that mls state
 * prints (docs/FORMATS.md, "state"). mls_open_state goes on from it. MLS_ECLOSED, MLS_ERANGE,
 * MLS_ENOMEM. */
int mls_state_text(mls_monitor *m, char *buf, size_t cap, size_t *len);

/* Closes a handle and frees what it holds. A closed handle stays closed. */
void mls_close(mls_monitor *m);

/* Opens an office: the monitor of an open handle moves into it, and that handle is then closed. The
 * count handles of sessions, 1 to MLS_SESSIONS and all closed, are opened with a session each.
 * Session n has the number n, which is written into its entries. The handles of sessions may then
 * go to other threads. The calls for names and for texts of labels are made before or after.
 * MLS_EOPEN if the office or a session is open; MLS_ECLOSED if the monitor's handle is
 * closed; MLS_EINVAL; MLS_ENOMEM: then all is unchanged. */
int mls_office_open(mls_office *office, mls_monitor *m, mls_session *sessions, uint16_t count);

/* Closes an office. It is given all sessions of the office, in the order in which they were opened,
 * while no call works on one. The monitor's handle is opened again, with the one journal of all
 * sessions, and the handles of the sessions are closed. It needs no memory. MLS_EOPEN if the
 * monitor's handle is open; MLS_ECLOSED if the office is closed; MLS_EINVAL if one isn't this
 * office's session of that position; MLS_EBUSY if one was dropped: then all is unchanged. */
int mls_office_close(mls_office *office, mls_session *sessions, mls_monitor *m);

/* Frees an office that isn't closed, and its monitor once its last session is dropped: the journal
 * is lost. Calls may be at work on its sessions, and go on. A closed office stays closed. */
void mls_office_drop(mls_office *office);

/* Frees a session. Its office can then only be dropped, not closed. */
void mls_session_drop(mls_session *s);

/* Answers a request by the rules, changes the state as they say, and adds exactly its entry to the
 * one journal, with the session's number. It tries the lock once, and never waits. MLS_ECLOSED;
 * MLS_EINVAL; MLS_ENOMEM; MLS_EBUSY if another session is at the monitor: ask again, as
 * mls_wait_submit of mls_shared.h does. With these nothing is changed or written. */
int mls_session_submit(mls_session *s, const mls_request *request, mls_answer *answer);

/* Writes 1 if the subject holds an access to the object in the mode, else 0, as it was at some
 * moment between the session's last entry and its next. It reads one word and takes no lock. Only
 * if the word is blank, or there is none, it tries the lock once and fills the word. Words are
 * blank when the office opens, and those of an object after it is deleted. MLS_ECLOSED; MLS_EINVAL
 * if the mode is none; MLS_EBUSY: ask again, as mls_wait_check does. With these it writes 0. It
 * adds no entry and doesn't allocate. */
int mls_session_check(mls_session *s, uint16_t subject, uint16_t object, uint8_t mode, int *held);

/* What mls_session_submit would answer now, with the number that the entry would have if no other
 * session made one before. It tries the lock once. Nothing changes, and it doesn't allocate.
 * MLS_ECLOSED, MLS_EINVAL, MLS_EBUSY. */
int mls_session_decide(mls_session *s, const mls_request *request, mls_answer *answer);

/* Sees the journal as it is. With MLS_OK it has at least n entries, and each later call on this
 * session answers from a journal of at least n entries: if another thread told the number of its
 * entry, n is that number plus one. It tries the lock once. It adds no entry and doesn't allocate.
 * MLS_ECLOSED; MLS_EBUSY; MLS_EAGAIN if the journal has fewer entries yet. */
int mls_session_see(mls_session *s, uint64_t n);

/* Writes how many changes the session's history has since the office was opened: granted requests
 * that took an access or a permission away (release, rescind, delete) or changed a label. Each is
 * in the count before its mls_session_submit returns. The count of an office never falls. While it
 * is as before, no access or permission has gone, and no subject's label has changed: a cache keeps
 * a yes of a check of this session with the count that it read before it, and asks again once the
 * count is another. A no may have become a yes. A new office counts from 0: empty the cache. It
 * reads one word and takes no lock. It adds no entry and doesn't allocate. MLS_ECLOSED. */
int mls_session_changes(mls_session *s, uint64_t *count);

/* Gives two sessions of one office what either of them has seen: later calls on both answer from a
 * journal with all entries that either knew. No other call works on them. It takes no lock and
 * doesn't allocate. MLS_ECLOSED; MLS_EINVAL if they are of two offices, or the same. */
int mls_session_meet(mls_session *s, mls_session *other);

/* Copies out the lines of the journal's entries from number from on, while the office is open:
 * whole lines, as many as fit, none if there is no such entry yet. len is the length of the text,
 * and next the number of the entry after the last line: the texts of calls that begin with 0 and go
 * on at each call's next are the journal's text, whatever other sessions do meanwhile. After a
 * resume begin with mls_entries of the monitor's handle, called before the office is opened: later
 * it returns 0. It tries the lock once. MLS_ECLOSED; MLS_EBUSY; MLS_ENOTFOUND if entry from is
 * forgotten, or from is above the number of entries; MLS_ERANGE if there isn't room for one line,
 * which has less than 4096 bytes; MLS_ENOMEM: then nothing is written. docs/EMBEDDING.md has a
 * store that syncs it. */
int mls_session_entry_text(mls_session *s, uint64_t from, char *buf, size_t cap, size_t *len,
                           uint64_t *next);

/* Forgets the entries with numbers below n, as far as they are there: no session can read them any
 * more, and their memory is used again, as by mls_forget. All else stays: the state, and the
 * numbers of later entries. It tries the lock once, adds no entry, and can't fail for want of
 * memory.
 * MLS_ECLOSED; MLS_EBUSY: ask again, as mls_wait_forget does; nothing is then forgotten. */
int mls_session_forget(mls_session *s, uint64_t n);

/* As the calls of a monitor that have their names, of the state to which the journal leads that the
 * session sees. They try the lock once: MLS_EBUSY besides, and nothing is then written.
 * mls_session_decide_labels decides all rows in one such state, and holds the lock no longer than
 * mls_session_decide_label does: it decides the rows after that. */
int mls_session_decide_label(mls_session *s, uint16_t subject, uint8_t mode,
                             const mls_label *security, const mls_label *integrity,
                             uint16_t *reply);
int mls_session_decide_labels(mls_session *s, uint16_t subject, uint8_t mode,
                              const mls_labels *rows, size_t n, uint16_t *replies);
int mls_session_explain(mls_session *s, const mls_request *request, mls_condition *conditions,
                        size_t cap, size_t *count, mls_remedy *remedy);
int mls_session_read_subject(mls_session *s, uint16_t subject, mls_subject_info *info);
int mls_session_read_object(mls_session *s, uint16_t object, mls_object_info *info);
int mls_session_read_pair(mls_session *s, uint16_t subject, uint16_t object, mls_pair_info *info);
int mls_session_count(mls_session *s, mls_counts *counts);
int mls_session_next_child(mls_session *s, uint16_t object, uint16_t above, uint16_t *child);

/* Copies out the line that the program mls prints of a fault, given the status beside it, as
 * mls_entry_text does a line, but without a newline: "start 2 Members", say, or
 * "line 7: entry 1 BadForm", which counts lines from 1. With a status that has no fault it is the
 * name of the status, as of mls_status_word. It has at most MLS_FAULT_TEXT bytes. It takes no
 * handle. MLS_ERANGE. */
int mls_fault_text(int status, const mls_fault *fault, char *buf, size_t cap, size_t *len);

/* The version of the library, as MAJOR.MINOR. */
const char *mls_version(void);

/* The names of numbers, as the program mls writes them; "?" if a number has none. The word of a
 * denial is "no": mls_reason_word(mls_reason_of(reply)) has the reason. */
const char *mls_status_word(int status);
const char *mls_action_word(int action);
const char *mls_mode_word(int mode);
const char *mls_reply_word(int reply);
const char *mls_reason_word(int reason);

/* The eight actions: each makes its request and submits it, with the statuses of mls_submit. The
 * subject is the one that asks. These functions are not in the library, and not proved. */
#if defined(__cplusplus) || (defined(__STDC_VERSION__) && __STDC_VERSION__ >= 199901L)
#define MLS_INLINE static inline
#elif defined(__GNUC__)
#define MLS_INLINE static __inline__
#else
#define MLS_INLINE static
#endif

/* A request whose other subject and labels are 0. */
MLS_INLINE mls_request mls_request_of(uint8_t action, uint16_t subject, uint16_t object,
                                      uint8_t mode) {
    mls_request request = { 0, 0, 0, 0, 0, { 0, { 0, 0, 0, 0 } }, { 0, { 0, 0, 0, 0 } } };
    request.action = action;
    request.subject = subject;
    request.object = object;
    request.mode = mode;
    return request;
}

/* Asks for an access to an object. */
MLS_INLINE int mls_get(mls_monitor *m, uint32_t session, uint16_t subject, uint16_t object,
                       uint8_t mode, mls_answer *answer) {
    mls_request request = mls_request_of(MLS_GET, subject, object, mode);
    return mls_submit(m, session, &request, answer);
}

/* Ends an access. */
MLS_INLINE int mls_release(mls_monitor *m, uint32_t session, uint16_t subject, uint16_t object,
                           uint8_t mode, mls_answer *answer) {
    mls_request request = mls_request_of(MLS_RELEASE, subject, object, mode);
    return mls_submit(m, session, &request, answer);
}

/* Gives the other subject a permission on the object in the mode. */
MLS_INLINE int mls_give(mls_monitor *m, uint32_t session, uint16_t subject, uint16_t other,
                        uint16_t object, uint8_t mode, mls_answer *answer) {
    mls_request request = mls_request_of(MLS_GIVE, subject, object, mode);
    request.other = other;
    return mls_submit(m, session, &request, answer);
}

/* Ends a permission of the other subject. */
MLS_INLINE int mls_rescind(mls_monitor *m, uint32_t session, uint16_t subject, uint16_t other,
                           uint16_t object, uint8_t mode, mls_answer *answer) {
    mls_request request = mls_request_of(MLS_RESCIND, subject, object, mode);
    request.other = other;
    return mls_submit(m, session, &request, answer);
}

/* Makes an object below its parent; the answer has its number if the reply is MLS_CREATED. */
MLS_INLINE int mls_create(mls_monitor *m, uint32_t session, uint16_t subject, uint16_t parent,
                          const mls_label *security, const mls_label *integrity,
                          mls_answer *answer) {
    mls_request request = mls_request_of(MLS_CREATE, subject, parent, 0);
    request.security = *security;
    request.integrity = *integrity;
    return mls_submit(m, session, &request, answer);
}

/* Deletes an object and all below it. */
MLS_INLINE int mls_delete(mls_monitor *m, uint32_t session, uint16_t subject, uint16_t object,
                          mls_answer *answer) {
    mls_request request = mls_request_of(MLS_DELETE, subject, object, 0);
    return mls_submit(m, session, &request, answer);
}

/* Changes the subject's current label. */
MLS_INLINE int mls_level(mls_monitor *m, uint32_t session, uint16_t subject,
                         const mls_label *security, mls_answer *answer) {
    mls_request request = mls_request_of(MLS_SUBJECT_LEVEL, subject, 0, 0);
    request.security = *security;
    return mls_submit(m, session, &request, answer);
}

/* Changes an object's security label. */
MLS_INLINE int mls_relabel(mls_monitor *m, uint32_t session, uint16_t subject, uint16_t object,
                           const mls_label *security, mls_answer *answer) {
    mls_request request = mls_request_of(MLS_OBJECT_LEVEL, subject, object, 0);
    request.security = *security;
    return mls_submit(m, session, &request, answer);
}

/* Returns 1 if the reply of mls_decide_label is MLS_YES; 0 if not, if the handle is closed, and if
 * the numbers are no mode or no labels. */
MLS_INLINE int mls_may(mls_monitor *m, uint16_t subject, uint8_t mode, const mls_label *security,
                       const mls_label *integrity) {
    uint16_t reply = MLS_UNDEFINED;
    return mls_decide_label(m, subject, mode, security, integrity, &reply) == MLS_OK &&
           reply == MLS_YES;
}

/* The reason of a denial, 0 for any other reply: mls_reason_word has its name. */
MLS_INLINE int mls_reason_of(uint16_t reply) { return reply > MLS_DENIED ? reply - MLS_DENIED : 0; }

/* Returns 1 if an object is active, else 0. */
MLS_INLINE int mls_is_active(mls_monitor *m, uint16_t object) {
    mls_object_info info;
    return mls_read_object(m, object, &info) == MLS_OK;
}

/* The least child of an object above another number, 0 if there is none:
 * for (c = mls_child_after(m, o, 0); c; c = mls_child_after(m, o, c)) .. */
MLS_INLINE uint16_t mls_child_after(mls_monitor *m, uint16_t object, uint16_t above) {
    uint16_t child = 0;
    return mls_next_child(m, object, above, &child) == MLS_OK ? child : 0;
}

#ifdef __cplusplus
}
#endif

#endif
