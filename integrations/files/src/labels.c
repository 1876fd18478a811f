/* The labels of files: each has the name of a container in an attribute that users neither see nor set. */
#include "mlsfs.h"
#include <ctype.h>
#include <fcntl.h>
#include <pthread.h>
#include <stdatomic.h>
#include <sys/file.h>
#include <sys/mman.h>
#include <sys/xattr.h>
#include <unistd.h>

#define CHANGES RUN_FOLDER "/changes"
#define KNOWN 1024              /* more than there are containers */

static char names[CONTAINERS][NAME_BYTES + 1];
static int count;
/* How often a label was changed, by any session's mlsfs: twice for each, so that it is odd while one is. */
static _Atomic uint64_t *changes;
static pthread_mutex_t lock = PTHREAD_MUTEX_INITIALIZER;

const char *path_of(int fd, char path[PATH_BYTES])
{
	snprintf(path, PATH_BYTES, "/proc/self/fd/%d", fd);
	return path;
}

const char *label_name(int container) { return container == CONTAINER_NONE ? "none" : names[container]; }

static bool is_name(const char *text)
{
	size_t length = strlen(text);
	for (const char *p = text; *p; p++)
		if (!isalnum((unsigned char)*p) && *p != '_' && *p != '-')
			return false;
	return length > 0 && length <= NAME_BYTES;
}

/* The number of a container in this process, or CONTAINER_NONE. Whether the monitor has it the first get tells. */
int label_number(const char *name)
{
	int found = 0;
	if (!is_name(name))
		return CONTAINER_NONE;
	pthread_mutex_lock(&lock);
	while (found < count && strcmp(names[found], name) != 0)
		found++;
	if (found == CONTAINERS)
		found = CONTAINER_NONE;
	else if (found == count)
		strcpy(names[count++], name);
	pthread_mutex_unlock(&lock);
	return found;
}

/* The label of a backing file, as it is on the disk now. */
int label_of(int fd)
{
	char path[PATH_BYTES], text[NAME_BYTES + 1];
	ssize_t length = getxattr(path_of(fd, path), LABEL, text, NAME_BYTES);
	if (length <= 0)
		return CONTAINER_NONE;
	text[length] = 0;
	return label_number(text);
}

/* Shares the count of changes with all other sessions' mlsfs. */
bool labels_open(void)
{
	mkdir(RUN_FOLDER, 0700);
	int fd = open(CHANGES, O_RDWR | O_CREAT | O_CLOEXEC, 0600);
	bool is_open = fd >= 0 && ftruncate(fd, sizeof *changes) == 0;
	void *shared = is_open ? mmap(NULL, sizeof *changes, PROT_READ | PROT_WRITE, MAP_SHARED, fd, 0) : MAP_FAILED;
	if (fd >= 0)
		close(fd);
	if (shared == MAP_FAILED)
		return false;
	changes = shared;
	return true;
}

/* The label of a file now: what was read of it last, unless a label has been changed since, or is being changed. */
int label_now(struct node *node)
{
	uint64_t before = atomic_load(changes), known = atomic_load(&node->label);
	if (known % KNOWN != 0 && known / KNOWN == before && before % 2 == 0)
		return (int)(known % KNOWN) - 2;
	int container = label_of(node->fd);
	if (before % 2 == 0 && atomic_load(changes) == before)
		atomic_store(&node->label, before * KNOWN + (uint64_t)(container + 2));
	return container;
}

/* Gives a file its label, on the disk; of a file that has no name yet nobody knows another. */
int label_put(int fd, int container)
{
	char path[PATH_BYTES];
	const char *text = label_name(container);
	if (container == CONTAINER_NONE)
		return EACCES;
	return setxattr(path_of(fd, path), LABEL, text, strlen(text), 0) == 0 ? 0 : errno;
}

/* Changes a label, and has all sessions read labels anew. Where this is killed they do so until the next change. */
int label_change(int fd, int container)
{
	int one = open(CHANGES, O_RDWR | O_CLOEXEC);
	if (one < 0 || flock(one, LOCK_EX) != 0) {
		if (one >= 0)
			close(one);
		return EIO;
	}
	atomic_store(changes, (atomic_load(changes) + 1) | 1);
	int error = label_put(fd, container);
	atomic_store(changes, atomic_load(changes) + 1);
	close(one);
	return error;
}
