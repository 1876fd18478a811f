/*
 * Stands between a program and the system's calls on its files, by LD_PRELOAD. Counted are the calls of write, fsync,
 * fdatasync, ftruncate, rename and link, in their order, but for writes to standard output and standard error. Of a rename
 * and of a link the file is the one that has the new name. By the environment:
 *
 *   DISK_FAIL=N    the Nth of them fails, with the errno of DISK_ERRNO; where it is a write, the first DISK_FRONT bytes are
 *                  in the file all the same
 *   DISK_KILL=N    before the Nth of them the program is killed
 *   DISK_OF=FILE, DISK_CALL=CALL    no calls are counted but those on FILE (the last part of its name), and of CALL alone:
 *                  `write`, `sync`, `cut`, `rename` or `link`. A program with threads makes its calls in no order, but on each file in one.
 *   DISK_REFUSE=CALL    each `flock` (of DISK_OF, where that is given), or each `read` of DISK_JOURNAL, fails with the errno
 *                  of DISK_ERRNO
 *   DISK_PIECE=K   no write to a file takes more than K bytes
 *   DISK_SLOW=U    each sync begins with so many microseconds of waiting
 *   DISK_JOURNAL=FILE, DISK_COPY=COPY    after each sync of FILE that ended well, COPY has all that FILE has
 *   DISK_MARKS=FILE, DISK_MARKS_COPY=COPY    the same of a second file
 *   DISK_CLOCK=FILE    the clock says the seconds and the nanoseconds that stand in FILE; where they can't be read it fails
 *                  with the errno of DISK_ERRNO
 *   DISK_NOTES=NOTES    a line for each of them, and for each write to standard output: what was asked, of which file
 *                  (the last part of its name; `out` for standard output), how many bytes, and `ok` or `failed`. The bytes
 *                  of a sync and of a cut are those that the file then has.
 */
#define _GNU_SOURCE
#include <dlfcn.h>
#include <errno.h>
#include <fcntl.h>
#include <signal.h>
#include <stdio.h>
#include <stdlib.h>
#include <string.h>
#include <sys/file.h>
#include <sys/stat.h>
#include <sys/syscall.h>
#include <time.h>
#include <unistd.h>

static ssize_t (*true_write)(int, const void *, size_t);
static ssize_t (*true_read)(int, void *, size_t);
static int (*true_flock)(int, int);
static int (*true_fsync)(int);
static int (*true_fdatasync)(int);
static int (*true_ftruncate)(int, off_t);
static int (*true_rename)(const char *, const char *);
static int (*true_link)(const char *, const char *);
static int (*true_clock)(clockid_t, struct timespec *);
static long counted;

__attribute__((constructor)) static void find(void) {
    *(void **)&true_write = dlsym(RTLD_NEXT, "write");
    *(void **)&true_read = dlsym(RTLD_NEXT, "read");
    *(void **)&true_flock = dlsym(RTLD_NEXT, "flock");
    *(void **)&true_fsync = dlsym(RTLD_NEXT, "fsync");
    *(void **)&true_fdatasync = dlsym(RTLD_NEXT, "fdatasync");
    *(void **)&true_ftruncate = dlsym(RTLD_NEXT, "ftruncate");
    *(void **)&true_rename = dlsym(RTLD_NEXT, "rename");
    *(void **)&true_link = dlsym(RTLD_NEXT, "link");
    *(void **)&true_clock = dlsym(RTLD_NEXT, "clock_gettime");
}

/* The number that the environment has by a name, or -1. */
static long number(const char *name) {
    const char *text = getenv(name);
    return text ? atol(text) : -1;
}

/* Puts the whole name of an open file into `name`. */
static void name_of(int fd, char *name, size_t room) {
    char link[64];
    ssize_t count;
    snprintf(link, sizeof link, "/proc/self/fd/%d", fd);
    count = readlink(link, name, room - 1);
    name[count < 0 ? 0 : count] = 0;
}

static long size_of(int fd) {
    struct stat found;
    return fstat(fd, &found) ? -1 : (long)found.st_size;
}

static void note_name(const char *asked, const char *name, long bytes, int is_done) {
    char line[4200];
    const char *notes = getenv("DISK_NOTES"), *last = strrchr(name, '/');
    int error = errno, to, count;
    if (!notes) return;
    count = snprintf(line, sizeof line, "%s %s %ld %s\n", asked, last ? last + 1 : name, bytes, is_done ? "ok" : "failed");
    to = open(notes, O_WRONLY | O_APPEND | O_CREAT, 0600);
    if (to < 0 || true_write(to, line, count) != count) abort();
    close(to);
    errno = error;
}

static void note(const char *asked, int fd, long bytes, int is_done) {
    char name[4096];
    name_of(fd, name, sizeof name);
    note_name(asked, fd == 1 ? "out" : name, bytes, is_done);
}

/* Whether a name is the one of DISK_OF, or none is given. */
static int is_name_of(const char *name) {
    const char *of = getenv("DISK_OF"), *last = strrchr(name, '/');
    return !of || !strcmp(last ? last + 1 : name, of);
}

/* Whether an open file is the one of DISK_OF, or none is given. */
static int is_of(int fd) {
    char name[4096];
    name_of(fd, name, sizeof name);
    return is_name_of(name);
}

/* Counts one call more on a file of this name, where it is one that is counted. Says whether it is the one that is to
 * fail. */
static int is_failing_on(const char *call, const char *name) {
    const char *only = getenv("DISK_CALL");
    long place;
    if ((only && strcmp(only, call)) || !is_name_of(name)) return 0;
    place = __atomic_add_fetch(&counted, 1, __ATOMIC_SEQ_CST);
    if (place == number("DISK_KILL")) kill(getpid(), SIGKILL);
    if (place != number("DISK_FAIL")) return 0;
    errno = (int)number("DISK_ERRNO");
    return 1;
}

/* The same of an open file. */
static int is_failing(const char *call, int fd) {
    char name[4096];
    name_of(fd, name, sizeof name);
    return is_failing_on(call, name);
}

/* Whether an open file has the name that the environment has by this one. */
static int is_named(int fd, const char *by) {
    char name[4096];
    const char *wanted = getenv(by);
    if (!wanted) return 0;
    name_of(fd, name, sizeof name);
    return !strcmp(name, wanted);
}

/* Copies a file to the name that the environment has by this one, in one step. */
static void copy(int fd, const char *by) {
    char piece[65536], name[4096], new[4200];
    const char *copy = getenv(by);
    int from, to, error = errno;
    ssize_t count;
    if (!copy) return;
    name_of(fd, name, sizeof name);
    snprintf(new, sizeof new, "%s.new", copy);
    from = open(name, O_RDONLY);
    to = open(new, O_WRONLY | O_CREAT | O_TRUNC, 0600);
    if (from < 0 || to < 0) abort();
    while ((count = true_read(from, piece, sizeof piece)) > 0)
        if (true_write(to, piece, count) != count) abort();
    close(from);
    close(to);
    if (true_rename(new, copy)) abort();
    errno = error;
}

/* Whether this call is one of those that are refused. */
static int is_refused(const char *call) {
    const char *refused = getenv("DISK_REFUSE");
    if (!refused || strcmp(refused, call)) return 0;
    errno = (int)number("DISK_ERRNO");
    return 1;
}

ssize_t read(int fd, void *bytes, size_t count) {
    return is_named(fd, "DISK_JOURNAL") && is_refused("read") ? -1 : true_read(fd, bytes, count);
}

int flock(int fd, int how) { return is_of(fd) && is_refused("flock") ? -1 : true_flock(fd, how); }

int clock_gettime(clockid_t clock, struct timespec *time) {
    const char *told = getenv("DISK_CLOCK");
    long long seconds, nanoseconds;
    FILE *file;
    int count;
    // (a program may ask for the time before this file is made ready)
    if (!true_clock) return (int)syscall(SYS_clock_gettime, clock, time);
    if (!told || clock != CLOCK_REALTIME) return true_clock(clock, time);
    file = fopen(told, "r");
    count = file ? fscanf(file, "%lld %lld", &seconds, &nanoseconds) : 0;
    if (file) fclose(file);
    if (count == 2) {
        time->tv_sec = (time_t)seconds;
        time->tv_nsec = (long)nanoseconds;
        return 0;
    }
    errno = (int)number("DISK_ERRNO");
    return -1;
}

ssize_t write(int fd, const void *bytes, size_t count) {
    long piece = number("DISK_PIECE"), front = number("DISK_FRONT");
    ssize_t done;
    if (fd == 2) return true_write(fd, bytes, count);
    if (fd == 1) {
        done = true_write(fd, bytes, count);
        note("write", fd, done, done >= 0);
        return done;
    }
    if (is_failing("write", fd)) {
        int error = errno;
        if (front > 0) front = true_write(fd, bytes, (size_t)front < count ? (size_t)front : count);
        note("write", fd, front, 0);
        errno = error;
        return -1;
    }
    done = true_write(fd, bytes, piece > 0 && (size_t)piece < count ? (size_t)piece : count);
    note("write", fd, done, done >= 0);
    return done;
}

static int sync_by(int (*true_sync)(int), int fd) {
    int failed;
    if (number("DISK_SLOW") > 0) usleep((useconds_t)number("DISK_SLOW"));
    failed = is_failing("sync", fd) || true_sync(fd);
    note("sync", fd, size_of(fd), !failed);
    if (!failed && is_named(fd, "DISK_JOURNAL")) copy(fd, "DISK_COPY");
    if (!failed && is_named(fd, "DISK_MARKS")) copy(fd, "DISK_MARKS_COPY");
    return failed ? -1 : 0;
}

int fsync(int fd) { return sync_by(true_fsync, fd); }

int fdatasync(int fd) { return sync_by(true_fdatasync, fd); }

int ftruncate(int fd, off_t length) {
    int failed = is_failing("cut", fd) || true_ftruncate(fd, length);
    note("cut", fd, size_of(fd), !failed);
    return failed ? -1 : 0;
}

int ftruncate64(int fd, off_t length) { return ftruncate(fd, length); }

int rename(const char *from, const char *to) {
    int failed = is_failing_on("rename", to) || true_rename(from, to);
    note_name("rename", to, 0, !failed);
    return failed ? -1 : 0;
}

int link(const char *from, const char *to) {
    int failed = is_failing_on("link", to) || true_link(from, to);
    note_name("link", to, 0, !failed);
    return failed ? -1 : 0;
}
