/* What the session holds. Reads are held to its end, so that its level never falls below what it read. */
#include "mlsfs.h"
#include <pthread.h>
#include <stdlib.h>
#include <time.h>
#include <unistd.h>

#define IDLE 1                  /* seconds for which an append that nobody uses is kept, and a denial believed */
#define PATIENCE 50             /* milliseconds for descriptors that are being closed */
#define LINE_BYTES 512

struct access {
	int users;
	bool is_held, is_denied;
	time_t used;
};

static struct access accesses[MODES][CONTAINERS];
static const char *const mode_names[MODES] = {"get-read", "get-append"};
static char subject[NAME_BYTES + 1];
static void (*forget_data)(int container);
static pthread_mutex_t lock = PTHREAD_MUTEX_INITIALIZER;
static pthread_rwlock_t under_way = PTHREAD_RWLOCK_INITIALIZER;

static time_t now(void)
{
	struct timespec found;
	clock_gettime(CLOCK_MONOTONIC_COARSE, &found);
	return found.tv_sec;
}

void monitor_enter(void) { pthread_rwlock_rdlock(&under_way); }
void monitor_leave(void) { pthread_rwlock_unlock(&under_way); }

static int error_of(const char *answer)
{
	return strcmp(answer, "yes") == 0 ? 0 : strcmp(answer, "busy") == 0 ? EBUSY : EACCES;
}

/* Asks for an access; the lock is held. */
static int get(struct access *access, enum mode mode, int container)
{
	char line[LINE_BYTES], answer[ANSWER_BYTES];
	snprintf(line, sizeof line, "%s %s %s\n", subject, mode_names[mode], label_name(container));
	if (!wire_ask(line, answer))
		return EIO;
	int error = error_of(answer);
	access->is_held = error == 0;
	access->is_denied = error == EACCES;
	access->used = now();
	return error;
}

static int take(void *session, enum mode mode, int container)
{
	struct access *access = &accesses[mode][container];
	int error = 0;
	(void)session;
	pthread_mutex_lock(&lock);
	if (wire_is_lost())
		error = EIO;
	else if (!access->is_held)
		error = access->is_denied && now() - access->used < IDLE ? EACCES : get(access, mode, container);
	access->users += error == 0;
	pthread_mutex_unlock(&lock);
	return error;
}

static void drop(void *session, enum mode mode, int container)
{
	struct access *access = &accesses[mode][container];
	(void)session;
	pthread_mutex_lock(&lock);
	access->users--;
	access->used = now();
	pthread_mutex_unlock(&lock);
}

/* Releases appends that nobody uses, all or those that are idle; the lock is held. */
static void release(time_t until)
{
	char line[LINE_BYTES], answer[ANSWER_BYTES];
	for (int container = 0; container < CONTAINERS; container++) {
		struct access *access = &accesses[APPEND][container];
		if (!access->is_held || access->users > 0 || access->used > until)
			continue;
		snprintf(line, sizeof line, "%s release append %s\n", subject, label_name(container));
		access->is_held = false;
		wire_ask(line, answer);
	}
}

static void *release_idle(void *unused)
{
	for (;;) {
		sleep(IDLE);
		pthread_mutex_lock(&lock);
		release(now() - IDLE);
		pthread_mutex_unlock(&lock);
	}
	return unused;
}

/* Compatibility by the monitor's own rule: could a child with the labels of the one container stand below the other? */
static int may_stand(void *session, int folder, int container)
{
	char line[LINE_BYTES], answer[ANSWER_BYTES], security[128], integrity[128];
	(void)session;
	snprintf(line, sizeof line, "labels object %s\n", label_name(container));
	if (!wire_ask(line, answer))
		return EIO;
	if (sscanf(answer, "security %127s integrity %127s", security, integrity) != 2)
		return EACCES;
	snprintf(line, sizeof line, "? %s create %s %s %s\n", subject, label_name(folder), security, integrity);
	if (!wire_ask(line, answer))
		return EIO;
	return strncmp(answer, "? created ", 10) == 0 ? 0 : EACCES;
}

const struct asker monitor = {take, drop, may_stand, NULL};

/* Was told that an access was taken away: waits until no operation relies on it, and drops what the kernel has. */
static void lost(const char *mode, const char *object)
{
	int container = label_number(object);
	if (container == CONTAINER_NONE)
		return;
	pthread_rwlock_wrlock(&under_way);
	pthread_mutex_lock(&lock);
	accesses[strcmp(mode, "append") == 0 ? APPEND : READ][container].is_held = false;
	pthread_mutex_unlock(&lock);
	pthread_rwlock_unlock(&under_way);
	forget_data(container);
}

const char *monitor_subject(void) { return subject; }

bool monitor_open(const char *socket, const char *name)
{
	snprintf(subject, sizeof subject, "%s", name);
	return wire_open(socket);
}

void monitor_start(void (*forget)(int container))
{
	char answer[ANSWER_BYTES];
	pthread_rwlockattr_t kind;
	pthread_t thread;
	pthread_rwlockattr_init(&kind);
	pthread_rwlockattr_setkind_np(&kind, PTHREAD_RWLOCK_PREFER_WRITER_NONRECURSIVE_NP);
	pthread_rwlock_init(&under_way, &kind);
	forget_data = forget;
	wire_start(lost);
	/* (without it nothing may be kept, so nothing is granted) */
	if (!wire_ask("watch ack\n", answer) || strcmp(answer, "yes") != 0 ||
	    pthread_create(&thread, NULL, release_idle, NULL) != 0)
		exit(1);
}

static bool appends(void)
{
	bool is_any = false;
	pthread_mutex_lock(&lock);
	for (int container = 0; container < CONTAINERS; container++)
		is_any |= accesses[APPEND][container].users > 0;
	pthread_mutex_unlock(&lock);
	return is_any;
}

/* Changes the level. The kernel tells of a closed descriptor after close has returned, so that is waited for. */
int monitor_level(const char *label)
{
	char line[LINE_BYTES], answer[ANSWER_BYTES];
	int error = EIO;
	for (int waited = 0; waited < PATIENCE && appends(); waited++)
		usleep(1000);
	pthread_mutex_lock(&lock);
	release(now());
	snprintf(line, sizeof line, "%s level %s\n", subject, label);
	if (wire_ask(line, answer))
		error = strncmp(answer, "bad", 3) == 0 ? EINVAL : error_of(answer);
	if (error == 0)
		level_changed();
	for (int k = 0; k < MODES * CONTAINERS; k++)
		accesses[k / CONTAINERS][k % CONTAINERS].is_denied = false;
	pthread_mutex_unlock(&lock);
	return error;
}
