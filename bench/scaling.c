/* How many times the calls of one thread several threads make: `scaling START THREADS ROUNDS`. Each thread has a
 * processor of its own. In a round each makes calls alone, one after the other, and then all make them at once, each
 * time for a millisecond or two; whoever doesn't call only waits, without sleeping. So what is compared was measured on
 * the same processors and within a tenth of a second, which a machine asks for whose processors others use too: there
 * one thread that is measured at one time and four at another say little. Prints a line for each kind of call: the
 * nanoseconds that a call takes alone and with all, the medians of all rounds, and how many times the calls of one all
 * make: the median, and the lower and the upper quarter. The kinds are check, by sessions of one office; own, by
 * sessions of an office each; apart, as check, but the handles have pages of their own; and loop, some 45 instructions
 * that share nothing. */
#define _GNU_SOURCE
#include "mls_shared.h"

#include <stdio.h>
#include <stdlib.h>
#include <string.h>
#include <time.h>

enum { THREADS = 64, ROUNDS = 10000, CALLS = 200000, PAGE = 4096 };

enum { CHECK, OWN, SPACED, LOOP, KINDS };

static const char *const names[KINDS] = {"check", "own", "apart", "loop"};

/* What a thread has, on pages that no other thread's is on. */
typedef struct {
    mls_session *sessions[KINDS];
    mls_session own, spaced;
    double alone[KINDS], together[KINDS];
} __attribute__((aligned(PAGE))) thread_data;

static thread_data data[THREADS];
static double alone[KINDS][ROUNDS], together[KINDS][ROUNDS], times[KINDS][ROUNDS];
static int threads, rounds;
static unsigned waiting __attribute__((aligned(PAGE))), turn __attribute__((aligned(PAGE)));

static double now(void) {
    struct timespec t;
    clock_gettime(CLOCK_MONOTONIC, &t);
    return (double)t.tv_sec * 1e9 + (double)t.tv_nsec;
}

/* Waits until all threads are here. */
static void meet(void) {
    unsigned mine = __atomic_load_n(&turn, __ATOMIC_SEQ_CST);
    if (__atomic_add_fetch(&waiting, 1, __ATOMIC_SEQ_CST) == (unsigned)threads) {
        __atomic_store_n(&waiting, 0, __ATOMIC_SEQ_CST);
        __atomic_store_n(&turn, mine + 1, __ATOMIC_SEQ_CST);
    } else {
        while (__atomic_load_n(&turn, __ATOMIC_SEQ_CST) == mine) __builtin_ia32_pause();
    }
}

static unsigned long __attribute__((noinline)) looped(unsigned long a, unsigned long b) {
    int n;
    for (n = 0; n < 5; n++) {
        a += b, b ^= a, a ^= 5, b += 7, a += 11, b ^= 13, a ^= 17;
        __asm__ volatile("" : "+r"(a), "+r"(b));
    }
    return a ^ b;
}

/* Nanoseconds of a call through a session, or of the loop where there is none. */
static double called(mls_session *s) {
    unsigned long sum = 0;
    double begun = now();
    int held;
    long n;
    if (s)
        for (n = 0; n < CALLS; n++) sum += mls_wait_check(s, n & 3, n >> 2 & 3, MLS_READ, &held) == MLS_OK && held;
    else
        for (n = 0; n < CALLS; n++) sum += looped(sum, (unsigned long)n);
    __asm__ volatile("" : : "r"(sum));
    return (now() - begun) / CALLS;
}

/* Notes what a round said. */
static void note(int kind, int round) {
    double one = 0, all = 0;
    int n;
    for (n = 0; n < threads; n++) one += 1 / data[n].alone[kind] / threads, all += 1 / data[n].together[kind];
    alone[kind][round] = 1 / one;
    together[kind][round] = 1 / all;
    times[kind][round] = all / one;
}

static void *work(void *given) {
    thread_data *mine = given;
    int me = (int)(mine - data), round, kind, n;
    cpu_set_t set;
    CPU_ZERO(&set);
    CPU_SET(me, &set);
    if (sched_setaffinity(0, sizeof set, &set)) exit(2);
    for (round = 0; round < rounds; round++) {
        for (kind = 0; kind < KINDS; kind++) {
            for (n = 0; n < threads; n++) {
                meet();
                if (n == me) mine->alone[kind] = called(mine->sessions[kind]);
            }
            meet();
            mine->together[kind] = called(mine->sessions[kind]);
            meet();
            if (!me) note(kind, round);
        }
    }
    return NULL;
}

static int by_size(const void *a, const void *b) {
    double x = *(const double *)a, y = *(const double *)b;
    return (x > y) - (x < y);
}

static double part(double *of, int quarter) {
    qsort(of, (size_t)rounds, sizeof *of, by_size);
    return of[(rounds - 1) * quarter / 4];
}

/* Opens an office of so many sessions. */
static void open_office(const uint8_t *start, size_t len, mls_session *sessions, int count) {
    static mls_office offices[THREADS + 2];
    static int used;
    mls_monitor m = MLS_INIT;
    mls_fault fault;
    if (mls_open(&m, start, len, &fault) || mls_office_open(&offices[used++], &m, sessions, (uint16_t)count)) exit(2);
}

int main(int argc, char **argv) {
    static uint8_t start[1 << 21];
    static mls_session beside[THREADS], moved[THREADS];
    pthread_t all[THREADS];
    FILE *file = argc == 4 ? fopen(argv[1], "rb") : NULL;
    size_t len = file ? fread(start, 1, sizeof start, file) : 0;
    int n, kind;
    threads = file ? atoi(argv[2]) : 0;
    rounds = file ? atoi(argv[3]) : 0;
    if (threads < 1 || threads > THREADS || rounds < 1 || rounds > ROUNDS) return 2;
    open_office(start, len, beside, threads);
    open_office(start, len, moved, threads);
    for (n = 0; n < threads; n++) {
        open_office(start, len, &data[n].own, 1);
        data[n].spaced = moved[n];
        data[n].sessions[CHECK] = &beside[n];
        data[n].sessions[OWN] = &data[n].own;
        data[n].sessions[SPACED] = &data[n].spaced;
    }
    for (n = 0; n < threads; n++)
        if (pthread_create(&all[n], NULL, work, &data[n])) return 2;
    for (n = 0; n < threads; n++) pthread_join(all[n], NULL);
    for (kind = 0; kind < KINDS; kind++) {
        double least = part(times[kind], 1), middle = part(times[kind], 2), most = part(times[kind], 3);
        printf("%s: %.2f ns alone, %.2f with %d, %.2f times (%.2f to %.2f)\n", names[kind], part(alone[kind], 2),
               part(together[kind], 2), threads, middle, least, most);
    }
    return 0;
}
