/* mls_shared.h: a handle that threads share, behind a POSIX mutex, and sessions of an office that
 * ask until they are answered. It is this header alone: nothing of it is in the library, or proved.
 *
 * A mls_shared is made by MLS_SHARED_INIT, or by mls_shared_init, and neither copied nor moved
 * after that. Each call below takes the mutex, makes the call of mls.h that has its name, and gives
 * the mutex back; statuses and all else are as mls.h says. Between two calls another thread may
 * ask: what mls_shared_check returns was true at one moment of the call.
 *
 * A signal handler may not use the mutex. If a thread is cancelled within a call, the mutex isn't
 * given back; a call has no cancellation points except those of malloc and free.
 */
#ifndef MLS_SHARED_H
#define MLS_SHARED_H

#include "mls.h"

#include <pthread.h>
#include <sched.h>
#include <stdlib.h>

/* A handle with its mutex. Its fields are this header's. */
typedef struct {
    pthread_mutex_t mutex;
    mls_monitor monitor;
} mls_shared;

#define MLS_SHARED_INIT { PTHREAD_MUTEX_INITIALIZER, MLS_INIT }

/* Takes the mutex. If that fails, the handle was never made: no call may go on without it. */
MLS_INLINE mls_monitor *mls_shared_lock(mls_shared *s) {
    if (pthread_mutex_lock(&s->mutex)) abort();
    return &s->monitor;
}

/* Gives the mutex back. */
MLS_INLINE void mls_shared_unlock(mls_shared *s) {
    if (pthread_mutex_unlock(&s->mutex)) abort();
}

/* Makes a handle, which is closed: MLS_OK, or MLS_ENOMEM if the system has no mutex. */
MLS_INLINE int mls_shared_init(mls_shared *s) {
    mls_shared closed = MLS_SHARED_INIT;
    *s = closed;
    return pthread_mutex_init(&s->mutex, NULL) ? MLS_ENOMEM : MLS_OK;
}

MLS_INLINE int mls_shared_open(mls_shared *s, const uint8_t *start, size_t len, mls_fault *fault) {
    int status = mls_open(mls_shared_lock(s), start, len, fault);
    mls_shared_unlock(s);
    return status;
}

MLS_INLINE int mls_shared_resume(mls_shared *s, const uint8_t *start, size_t len,
                                 const uint8_t *journal, size_t journal_len, mls_fault *fault) {
    int status = mls_resume(mls_shared_lock(s), start, len, journal, journal_len, fault);
    mls_shared_unlock(s);
    return status;
}

MLS_INLINE int mls_shared_open_state(mls_shared *s, const uint8_t *start, size_t len,
                                     const uint8_t *state, size_t state_len, uint64_t number,
                                     mls_fault *fault) {
    int status = mls_open_state(mls_shared_lock(s), start, len, state, state_len, number, fault);
    mls_shared_unlock(s);
    return status;
}

MLS_INLINE int mls_shared_submit(mls_shared *s, uint32_t session, const mls_request *request,
                                 mls_answer *answer) {
    int status = mls_submit(mls_shared_lock(s), session, request, answer);
    mls_shared_unlock(s);
    return status;
}

MLS_INLINE int mls_shared_check(mls_shared *s, uint16_t subject, uint16_t object, uint8_t mode) {
    int is_held = mls_check(mls_shared_lock(s), subject, object, mode);
    mls_shared_unlock(s);
    return is_held;
}

MLS_INLINE int mls_shared_decide(mls_shared *s, const mls_request *request, mls_answer *answer) {
    int status = mls_decide(mls_shared_lock(s), request, answer);
    mls_shared_unlock(s);
    return status;
}

MLS_INLINE uint64_t mls_shared_entries(mls_shared *s) {
    uint64_t count = mls_entries(mls_shared_lock(s));
    mls_shared_unlock(s);
    return count;
}

MLS_INLINE int mls_shared_entry(mls_shared *s, uint64_t n, mls_journal_entry *entry) {
    int status = mls_entry(mls_shared_lock(s), n, entry);
    mls_shared_unlock(s);
    return status;
}

MLS_INLINE int mls_shared_entry_text(mls_shared *s, uint64_t n, char *buf, size_t cap,
                                     size_t *len) {
    int status = mls_entry_text(mls_shared_lock(s), n, buf, cap, len);
    mls_shared_unlock(s);
    return status;
}

MLS_INLINE int mls_shared_forget(mls_shared *s, uint64_t n) {
    int status = mls_forget(mls_shared_lock(s), n);
    mls_shared_unlock(s);
    return status;
}

MLS_INLINE uint64_t mls_shared_forgotten(mls_shared *s) {
    uint64_t count = mls_forgotten(mls_shared_lock(s));
    mls_shared_unlock(s);
    return count;
}

MLS_INLINE int mls_shared_subject(mls_shared *s, const uint8_t *name, size_t len,
                                  uint16_t *subject) {
    int status = mls_subject(mls_shared_lock(s), name, len, subject);
    mls_shared_unlock(s);
    return status;
}

MLS_INLINE int mls_shared_object(mls_shared *s, const uint8_t *name, size_t len, uint16_t *object) {
    int status = mls_object(mls_shared_lock(s), name, len, object);
    mls_shared_unlock(s);
    return status;
}

MLS_INLINE int mls_shared_read_label(mls_shared *s, int kind, const uint8_t *text, size_t len,
                                     mls_label *label) {
    int status = mls_read_label(mls_shared_lock(s), kind, text, len, label);
    mls_shared_unlock(s);
    return status;
}

MLS_INLINE int mls_shared_write_label(mls_shared *s, int kind, const mls_label *label, char *buf,
                                      size_t cap, size_t *len) {
    int status = mls_write_label(mls_shared_lock(s), kind, label, buf, cap, len);
    mls_shared_unlock(s);
    return status;
}

MLS_INLINE int mls_shared_decide_label(mls_shared *s, uint16_t subject, uint8_t mode,
                                       const mls_label *security, const mls_label *integrity,
                                       uint16_t *reply) {
    int status = mls_decide_label(mls_shared_lock(s), subject, mode, security, integrity, reply);
    mls_shared_unlock(s);
    return status;
}

MLS_INLINE int mls_shared_decide_labels(mls_shared *s, uint16_t subject, uint8_t mode,
                                        const mls_labels *rows, size_t n, uint16_t *replies) {
    int status = mls_decide_labels(mls_shared_lock(s), subject, mode, rows, n, replies);
    mls_shared_unlock(s);
    return status;
}

MLS_INLINE int mls_shared_explain(mls_shared *s, const mls_request *request,
                                  mls_condition *conditions, size_t cap, size_t *count,
                                  mls_remedy *remedy) {
    int status = mls_explain(mls_shared_lock(s), request, conditions, cap, count, remedy);
    mls_shared_unlock(s);
    return status;
}

MLS_INLINE int mls_shared_read_subject(mls_shared *s, uint16_t subject, mls_subject_info *info) {
    int status = mls_read_subject(mls_shared_lock(s), subject, info);
    mls_shared_unlock(s);
    return status;
}

MLS_INLINE int mls_shared_read_object(mls_shared *s, uint16_t object, mls_object_info *info) {
    int status = mls_read_object(mls_shared_lock(s), object, info);
    mls_shared_unlock(s);
    return status;
}

MLS_INLINE int mls_shared_read_pair(mls_shared *s, uint16_t subject, uint16_t object,
                                    mls_pair_info *info) {
    int status = mls_read_pair(mls_shared_lock(s), subject, object, info);
    mls_shared_unlock(s);
    return status;
}

MLS_INLINE int mls_shared_count(mls_shared *s, mls_counts *counts) {
    int status = mls_count(mls_shared_lock(s), counts);
    mls_shared_unlock(s);
    return status;
}

MLS_INLINE int mls_shared_next_child(mls_shared *s, uint16_t object, uint16_t above,
                                     uint16_t *child) {
    int status = mls_next_child(mls_shared_lock(s), object, above, child);
    mls_shared_unlock(s);
    return status;
}

MLS_INLINE int mls_shared_subject_name(mls_shared *s, uint16_t subject, char *buf, size_t cap,
                                       size_t *len) {
    int status = mls_subject_name(mls_shared_lock(s), subject, buf, cap, len);
    mls_shared_unlock(s);
    return status;
}

MLS_INLINE int mls_shared_object_name(mls_shared *s, uint16_t object, char *buf, size_t cap,
                                      size_t *len) {
    int status = mls_object_name(mls_shared_lock(s), object, buf, cap, len);
    mls_shared_unlock(s);
    return status;
}

MLS_INLINE int mls_shared_state_start(mls_shared *s, char *buf, size_t cap, size_t *len,
                                      uint16_t *numbers) {
    int status = mls_state_start(mls_shared_lock(s), buf, cap, len, numbers);
    mls_shared_unlock(s);
    return status;
}

MLS_INLINE int mls_shared_state_text(mls_shared *s, char *buf, size_t cap, size_t *len) {
    int status = mls_state_text(mls_shared_lock(s), buf, cap, len);
    mls_shared_unlock(s);
    return status;
}

/* Closes the handle, which may be opened again. */
MLS_INLINE void mls_shared_close(mls_shared *s) {
    mls_close(mls_shared_lock(s));
    mls_shared_unlock(s);
}

/* Closes the handle and ends its mutex, which no thread holds or waits for. */
MLS_INLINE void mls_shared_destroy(mls_shared *s) {
    mls_shared_close(s);
    if (pthread_mutex_destroy(&s->mutex)) abort();
}

/* How a session that got MLS_EBUSY pauses before it asks again: MLS_SHORTEST pause instructions, 1
 * to 4 microseconds, and twice as many each round up to round MLS_ROUNDS, 5 to 50 microseconds.
 * From round MLS_YIELDS on it first gives its time slice to other threads. Meanwhile the monitor
 * stays in the cache of the processor that has it: a thread that asks more often takes turns from
 * the others, and each turn costs more. */
enum { MLS_SHORTEST = 64, MLS_YIELDS = 1, MLS_ROUNDS = 4 };

MLS_INLINE void mls_pause(unsigned round) {
    unsigned left = MLS_SHORTEST;
    if (round >= MLS_YIELDS) sched_yield();
    if (round > MLS_ROUNDS) round = MLS_ROUNDS;
    for (left <<= round; left; left--) {
#if defined(__GNUC__) && (defined(__x86_64__) || defined(__i386__))
        __builtin_ia32_pause();
#elif defined(__GNUC__) && defined(__aarch64__)
        __asm__ __volatile__("yield");
#endif
    }
}

/* As the calls of mls.h that have their names, but they ask again while another session is at the
 * monitor: the status is never MLS_EBUSY. They don't sleep, and promise no order among threads. */
MLS_INLINE int mls_wait_submit(mls_session *s, const mls_request *request, mls_answer *answer) {
    unsigned round = 0;
    int status;
    while ((status = mls_session_submit(s, request, answer)) == MLS_EBUSY) mls_pause(round++);
    return status;
}

MLS_INLINE int mls_wait_decide(mls_session *s, const mls_request *request, mls_answer *answer) {
    unsigned round = 0;
    int status;
    while ((status = mls_session_decide(s, request, answer)) == MLS_EBUSY) mls_pause(round++);
    return status;
}

MLS_INLINE int mls_wait_check(mls_session *s, uint16_t subject, uint16_t object, uint8_t mode,
                              int *held) {
    unsigned round = 0;
    int status;
    while ((status = mls_session_check(s, subject, object, mode, held)) == MLS_EBUSY)
        mls_pause(round++);
    return status;
}

MLS_INLINE int mls_wait_see(mls_session *s, uint64_t n) {
    unsigned round = 0;
    int status;
    while ((status = mls_session_see(s, n)) == MLS_EBUSY) mls_pause(round++);
    return status;
}

MLS_INLINE int mls_wait_entry_text(mls_session *s, uint64_t from, char *buf, size_t cap,
                                   size_t *len, uint64_t *next) {
    unsigned round = 0;
    int status;
    while ((status = mls_session_entry_text(s, from, buf, cap, len, next)) == MLS_EBUSY)
        mls_pause(round++);
    return status;
}

MLS_INLINE int mls_wait_forget(mls_session *s, uint64_t n) {
    unsigned round = 0;
    int status;
    while ((status = mls_session_forget(s, n)) == MLS_EBUSY) mls_pause(round++);
    return status;
}

#endif
