/*
 * In the place of labels.c, monitor.c, notes.c, wire.c and session.c: all is granted to everybody, and no label is read.
 * bench times mlsfs beside a program that has this.
 */
#include "../src/mlsfs.h"

static int take(void *session, enum mode mode, int container)
{
	(void)session, (void)mode, (void)container;
	return 0;
}

static void drop(void *session, enum mode mode, int container) { (void)session, (void)mode, (void)container; }

static int may_stand(void *session, int folder, int container)
{
	(void)session, (void)folder, (void)container;
	return 0;
}

const struct asker monitor = {take, drop, may_stand, NULL};

bool monitor_open(const char *socket, const char *subject) { return socket && subject; }
void monitor_start(void (*forget)(int container)) { (void)forget; }
void monitor_enter(void) { }
void monitor_leave(void) { }
int monitor_level(const char *label) { return label ? 0 : EINVAL; }
bool monitor_is_level(int container) { return container >= 0; }
void monitor_describe(char *text, size_t size) { snprintf(text, size, "undecided\n"); }
void monitor_note(const char *deed, int fd) { (void)deed, (void)fd; }
bool monitor_knows(const char *container) { return container; }
int label_number(const char *name) { return name ? 0 : CONTAINER_NONE; }
const char *label_name(int container) { return container == 0 ? "public_any" : "none"; }
int label_of(int fd) { return fd < 0 ? CONTAINER_NONE : 0; }
bool labels_open(void) { return true; }
int label_now(struct node *node) { return node ? 0 : CONTAINER_NONE; }
int label_change(int fd, int container) { return label_put(fd, container); }
int label_put(int fd, int container) { return fd < 0 || container < 0 ? EINVAL : 0; }
bool session_has(pid_t pid) { return pid >= 0; }
bool session_claim(void) { return true; }
void session_end(void) { }

const char *path_of(int fd, char path[PATH_BYTES])
{
	snprintf(path, PATH_BYTES, "/proc/self/fd/%d", fd);
	return path;
}

bool session_find(char *name, size_t size)
{
	snprintf(name, size, "nobody");
	return true;
}
