/*
 * The login session that a mount is for: the audit session of the process that mounts it, and who logged in to it.
 * A process can't leave its audit session, whatever user it becomes; what has none is denied, root's too.
 */
#include "mlsfs.h"
#include <fcntl.h>
#include <pthread.h>
#include <pwd.h>
#include <stdlib.h>
#include <unistd.h>

#define NONE 4294967295u
#define PROCESSES 256

/* A process that asked, by a file below /proc that tells its session. */
struct process {
	pthread_mutex_t lock;
	pid_t pid;
	int fd;
};

static unsigned session;
static char claim[64];          /* a file for each session that has or had its mlsfs */
static struct process processes[PROCESSES] = {[0 ... PROCESSES - 1] = {PTHREAD_MUTEX_INITIALIZER, 0, -1}};

static int open_of(pid_t pid, const char *what)
{
	char path[64];
	snprintf(path, sizeof path, "/proc/%d/%s", pid, what);
	return open(path, O_RDONLY | O_CLOEXEC);
}

/* A number below /proc/PID now; NONE where there is none, or the process has ended, whoever has its PID since. */
static unsigned number_in(int fd)
{
	char text[32], *end;
	ssize_t length = pread(fd, text, sizeof text - 1, 0);
	text[length < 0 ? 0 : length] = 0;
	unsigned long found = strtoul(text, &end, 10);
	return end == text ? NONE : (unsigned)found;
}

static unsigned number_of(pid_t pid, const char *what)
{
	int fd = open_of(pid, what);
	unsigned found = number_in(fd);
	if (fd >= 0)
		close(fd);
	return found;
}

/* Finds the session of this process, and the name of who logged in to it. */
bool session_find(char *name, size_t size)
{
	session = number_of(getpid(), "sessionid");
	unsigned user = number_of(getpid(), "loginuid");
	struct passwd *found = session == NONE || user == NONE ? NULL : getpwuid(user);
	if (!found || strlen(found->pw_name) >= size)
		return false;
	strcpy(name, found->pw_name);
	return true;
}

/* Whether a process, or a thread, is of the session. It is read for each request: whoever logs in anew has another. */
bool session_has(pid_t pid)
{
	struct process *process = &processes[(unsigned)pid % PROCESSES];
	if (pid <= 0)
		return false;
	pthread_mutex_lock(&process->lock);
	unsigned found = process->pid == pid ? number_in(process->fd) : NONE;
	if (found == NONE) {
		if (process->fd >= 0)
			close(process->fd);
		process->pid = pid;
		process->fd = open_of(pid, "sessionid");
		found = number_in(process->fd);
	}
	pthread_mutex_unlock(&process->lock);
	return found == session;
}

/* Takes the session, once: a second mlsfs would have another level, and know nothing of what was read by the first. */
bool session_claim(void)
{
	snprintf(claim, sizeof claim, RUN_FOLDER "/%u", session);
	int fd = open(claim, O_CREAT | O_EXCL | O_WRONLY | O_CLOEXEC, 0600);
	if (fd >= 0)
		close(fd);
	return fd >= 0;
}

/* The session has ended, or never began. */
void session_end(void) { unlink(claim); }
