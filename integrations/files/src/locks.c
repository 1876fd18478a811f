/*
 * Locks on files, between all sessions. Only who may write a file may lock it: a reader's lock would tell a writer
 * below. Each owner that the kernel names has a descriptor of its own.
 */
#include "mlsfs.h"
#include <fcntl.h>
#include <pthread.h>
#include <stdlib.h>
#include <sys/file.h>
#include <unistd.h>

#define PAUSE 5000              /* microseconds between two tries of a lock that is waited for */

struct wait {
	fuse_req_t req;
	int fd, whole;          /* a lock of the whole file, as flock has it; or 0 */
	struct flock part;
};

static pthread_mutex_t owners = PTHREAD_MUTEX_INITIALIZER;

void owners_end(struct node *node)
{
	while (node->owners) {
		struct owner *owner = node->owners;
		node->owners = owner->next;
		close(owner->fd);
		free(owner);
	}
}

/* The descriptor of an owner's locks; -1 where it has none, and none is to be made. */
static int owned(struct node *node, uint64_t number, bool is_made)
{
	char path[PATH_BYTES];
	struct owner *owner = node->owners;
	while (owner && owner->number != number)
		owner = owner->next;
	if (owner || !is_made)
		return owner ? owner->fd : -1;
	int fd = open(path_of(node->fd, path), O_RDWR | O_CLOEXEC | O_NOATIME);
	owner = fd < 0 ? NULL : calloc(1, sizeof *owner);
	if (!owner)
		return -1;
	*owner = (struct owner){.next = node->owners, .number = number, .fd = fd};
	node->owners = owner;
	return fd;
}

/* Ends what an owner has locked, and so what it still waits for. */
static void disown(struct node *node, uint64_t number)
{
	pthread_mutex_lock(&owners);
	for (struct owner **at = &node->owners; *at; at = &(*at)->next)
		if ((*at)->number == number) {
			struct owner *owner = *at;
			*at = owner->next;
			close(owner->fd);
			free(owner);
			break;
		}
	pthread_mutex_unlock(&owners);
}

static int try(int fd, int whole, struct flock *part)
{
	int tried = whole ? flock(fd, whole | LOCK_NB) : fcntl(fd, F_OFD_SETLK, part);
	return tried == 0 ? 0 : errno == EACCES ? EAGAIN : errno;
}

static void *wait_for(void *given)
{
	struct wait *wait = given;
	int error;
	while ((error = try(wait->fd, wait->whole, &wait->part)) == EAGAIN && !fuse_req_interrupted(wait->req))
		usleep(PAUSE);
	fuse_reply_err(wait->req, error == EAGAIN ? EINTR : error);
	close(wait->fd);
	free(wait);
	return NULL;
}

/* Has a thread wait, with a descriptor that stays open as long as it does. */
static int begin_wait(fuse_req_t req, int fd, int whole, const struct flock *part)
{
	struct wait *wait = calloc(1, sizeof *wait);
	pthread_t thread;
	if (!wait)
		return ENOMEM;
	*wait = (struct wait){.req = req, .fd = fcntl(fd, F_DUPFD_CLOEXEC, 0), .whole = whole};
	if (part)
		wait->part = *part;
	if (wait->fd < 0 || pthread_create(&thread, NULL, wait_for, wait) != 0) {
		free(wait);
		return ENOLCK;
	}
	pthread_detach(thread);
	return REPLIED;
}

static int may_lock(struct node *node)
{
	int container, error = file_begin(node, LOCK, &container);
	if (error == 0)
		file_end(LOCK, container);
	return error;
}

static int lock_part(fuse_req_t req, struct node *node, uint64_t number, struct flock *part, bool is_waiting)
{
	bool is_end = part->l_type == F_UNLCK;
	int error = is_end ? 0 : may_lock(node);
	if (error)
		return error;
	pthread_mutex_lock(&owners);
	int fd = owned(node, number, !is_end);
	part->l_pid = 0;
	error = fd < 0 ? (is_end ? 0 : ENOLCK) : try(fd, 0, part);
	if (error == EAGAIN && is_waiting)
		error = begin_wait(req, fd, 0, part);
	pthread_mutex_unlock(&owners);
	return error;
}

static int find_lock(fuse_req_t req, struct node *node, uint64_t number, struct flock *part)
{
	int error = may_lock(node);
	if (error)
		return error;
	pthread_mutex_lock(&owners);
	int fd = owned(node, number, true);
	part->l_pid = 0;
	error = fd < 0 ? ENOLCK : fcntl(fd, F_OFD_GETLK, part) == 0 ? 0 : errno;
	pthread_mutex_unlock(&owners);
	if (error)
		return error;
	part->l_pid = 0;
	fuse_reply_lock(req, part);
	return REPLIED;
}

static int lock_whole(fuse_req_t req, struct node *node, int fd, int how)
{
	int error = how & LOCK_UN ? 0 : may_lock(node);
	if (error == 0)
		error = try(fd, how & ~LOCK_NB, NULL);
	return error == EAGAIN && !(how & LOCK_NB) ? begin_wait(req, fd, how, NULL) : error;
}

static void on_getlk(fuse_req_t req, fuse_ino_t number, struct fuse_file_info *info, struct flock *part)
{
	SERVE(req, number == CONTROL_NODE ? EINVAL : find_lock(req, node_of(number), info->lock_owner, part));
}

static void on_setlk(fuse_req_t req, fuse_ino_t number, struct fuse_file_info *info, struct flock *part, int is_waiting)
{
	SERVE(req, number == CONTROL_NODE ? EINVAL : lock_part(req, node_of(number), info->lock_owner, part, is_waiting));
}

static void on_flock(fuse_req_t req, fuse_ino_t number, struct fuse_file_info *info, int how)
{
	SERVE(req, number == CONTROL_NODE ? EINVAL : lock_whole(req, node_of(number), handle_of(info)->fd, how));
}

static void on_flush(fuse_req_t req, fuse_ino_t number, struct fuse_file_info *info)
{
	if (number != CONTROL_NODE)
		disown(node_of(number), info->lock_owner);
	fuse_reply_err(req, 0);
}

void locks_serve(struct fuse_lowlevel_ops *ops)
{
	ops->getlk = on_getlk;
	ops->setlk = on_setlk;
	ops->flock = on_flock;
	ops->flush = on_flush;
}
