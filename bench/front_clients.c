/*
 * Clients for bench/mlsd.sh: asks one line again and again, with one request in flight for each of N clients, for some
 * seconds, and prints requests a second and how long a request took: median and 99 of 100, in microseconds.
 *
 *   front_clients socket PATH N SECONDS LINE       N connections to mlsd
 *   front_clients pipe SECONDS LINE COMMAND ..     one client of a command that answers on its output, after `ready N`
 *   front_clients loop FILE SECONDS BYTES          no service: write and fdatasync of so many bytes
 */
#define _GNU_SOURCE
#include <fcntl.h>
#include <poll.h>
#include <stdio.h>
#include <stdlib.h>
#include <string.h>
#include <sys/socket.h>
#include <sys/un.h>
#include <time.h>
#include <unistd.h>

enum { CLIENTS = 1024, TAKEN = 1 << 22 };

static unsigned taken[TAKEN];
static long count;

static double now(void) {
    struct timespec time;
    clock_gettime(CLOCK_MONOTONIC, &time);
    return (double)time.tv_sec + (double)time.tv_nsec / 1e9;
}

static void fail(const char *what) {
    perror(what);
    exit(1);
}

static void took(double seconds) {
    taken[count++ % TAKEN] = (unsigned)(seconds * 1e6);
}

static int by_size(const void *one, const void *other) {
    unsigned a = *(const unsigned *)one, b = *(const unsigned *)other;
    return (a > b) - (a < b);
}

static void report(double seconds) {
    long many = count < TAKEN ? count : TAKEN;
    if (many == 0) exit(1);
    qsort(taken, (size_t)many, sizeof *taken, by_size);
    printf("%.0f %u %u %ld\n", (double)count / seconds, taken[many / 2], taken[many * 99 / 100], count);
}

static void put(int fd, const char *line) {
    size_t bytes = strlen(line);
    if (write(fd, line, bytes) != (ssize_t)bytes) fail("write");
}

/* Reads until a line has ended. */
static void take(int fd) {
    char answer[4096];
    ssize_t bytes;
    do {
        bytes = read(fd, answer, sizeof answer);
        if (bytes <= 0) fail("read");
    } while (answer[bytes - 1] != '\n');
}

static int connected(const char *path) {
    struct sockaddr_un name = {.sun_family = AF_UNIX};
    int fd = socket(AF_UNIX, SOCK_STREAM, 0);
    strncpy(name.sun_path, path, sizeof name.sun_path - 1);
    if (fd < 0 || connect(fd, (struct sockaddr *)&name, sizeof name)) fail("connect");
    take(fd);
    return fd;
}

static void ask_by_socket(const char *path, int clients, double seconds, const char *line) {
    static struct pollfd fds[CLIENTS];
    static double since[CLIENTS];
    int k;
    for (k = 0; k < clients; k++) fds[k] = (struct pollfd){.fd = connected(path), .events = POLLIN};
    double begun = now();
    for (k = 0; k < clients; k++) {
        since[k] = now();
        put(fds[k].fd, line);
    }
    while (now() - begun < seconds) {
        if (poll(fds, (nfds_t)clients, 1000) < 0) fail("poll");
        for (k = 0; k < clients; k++) {
            if (!fds[k].revents) continue;
            take(fds[k].fd);
            double time = now();
            took(time - since[k]);
            since[k] = time;
            put(fds[k].fd, line);
        }
    }
    report(now() - begun);
}

static void ask_by_pipe(double seconds, const char *line, char **command) {
    int in[2], out[2];
    if (pipe(in) || pipe(out)) fail("pipe");
    if (fork() == 0) {
        dup2(in[0], 0);
        dup2(out[1], 1);
        close(in[1]);
        close(out[0]);
        execvp(command[0], command);
        fail(command[0]);
    }
    take(out[0]);
    double begun = now(), since = begun;
    while (since - begun < seconds) {
        put(in[1], line);
        take(out[0]);
        double time = now();
        took(time - since);
        since = time;
    }
    report(since - begun);
}

static void write_and_sync(const char *path, double seconds, size_t bytes) {
    static char entry[4096];
    int fd = open(path, O_WRONLY | O_CREAT | O_APPEND, 0600);
    if (fd < 0 || bytes > sizeof entry) fail(path);
    memset(entry, 'x', bytes);
    double begun = now(), since = begun;
    while (since - begun < seconds) {
        if (write(fd, entry, bytes) != (ssize_t)bytes || fdatasync(fd)) fail(path);
        double time = now();
        took(time - since);
        since = time;
    }
    report(since - begun);
}

int main(int argc, char **argv) {
    char line[4096];
    const char *what = argc > 1 ? argv[1] : "";
    int place = strcmp(what, "socket") == 0 ? 5 : 3;
    if (argc > place) snprintf(line, sizeof line, "%s\n", argv[place]);
    if (strcmp(what, "socket") == 0 && argc == 6 && atoi(argv[3]) <= CLIENTS)
        ask_by_socket(argv[2], atoi(argv[3]), atof(argv[4]), line);
    else if (strcmp(what, "pipe") == 0 && argc > 4)
        ask_by_pipe(atof(argv[2]), line, argv + 4);
    else if (strcmp(what, "loop") == 0 && argc == 5)
        write_and_sync(argv[2], atof(argv[3]), (size_t)atol(argv[4]));
    else
        return 2;
    return 0;
}
