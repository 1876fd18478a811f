/* Sizes, times, owners and modes; where links lead; and how much room there is, which is the same for all. */
#include "mlsfs.h"
#include <fcntl.h>
#include <limits.h>
#include <sys/statvfs.h>
#include <unistd.h>

/* Shows a file's attributes, where it still has the label that was decided. */
static int show(fuse_req_t req, struct node *node)
{
	struct stat shown;
	int container, error = file_begin(node, SHOW, &container);
	if (error)
		return error;
	error = node_show(node, &shown);
	if (error == 0 && label_now(node) != container)
		error = EAGAIN;
	if (error == 0 && fuse_reply_attr(req, &shown, 0) >= 0)
		error = REPLIED;
	file_end(SHOW, container);
	return error;
}

static int show_control(fuse_req_t req)
{
	struct stat shown;
	control_show(&shown);
	fuse_reply_attr(req, &shown, 0);
	return REPLIED;
}

static struct timespec time_of(int now, int set, struct timespec time)
{
	return now ? (struct timespec){.tv_nsec = UTIME_NOW} : set ? time : (struct timespec){.tv_nsec = UTIME_OMIT};
}

static int set_times(struct node *node, const char *path, const struct stat *wanted, int set)
{
	struct timespec times[2] = {
		time_of(set & FUSE_SET_ATTR_ATIME_NOW, set & FUSE_SET_ATTR_ATIME, wanted->st_atim),
		time_of(set & FUSE_SET_ATTR_MTIME_NOW, set & FUSE_SET_ATTR_MTIME, wanted->st_mtim)};
	if (!(set & (FUSE_SET_ATTR_ATIME | FUSE_SET_ATTR_MTIME)))
		return 0;
	return S_ISLNK(node->type) ? utimensat(node->fd, "", times, AT_EMPTY_PATH) : utimensat(AT_FDCWD, path, times, 0);
}

static int set(struct node *node, const struct stat *wanted, int set)
{
	char path[PATH_BYTES];
	uid_t user = set & FUSE_SET_ATTR_UID ? wanted->st_uid : (uid_t)-1;
	gid_t group = set & FUSE_SET_ATTR_GID ? wanted->st_gid : (gid_t)-1;
	path_of(node->fd, path);
	if (set & FUSE_SET_ATTR_SIZE && truncate(path, wanted->st_size) != 0)
		return errno;
	if (set & (FUSE_SET_ATTR_UID | FUSE_SET_ATTR_GID) && fchownat(node->fd, "", user, group, AT_EMPTY_PATH) != 0)
		return errno;
	if (set & FUSE_SET_ATTR_MODE && chmod(path, wanted->st_mode & 07777) != 0)
		return errno;
	return set_times(node, path, wanted, set) == 0 ? 0 : errno;
}

static int change(fuse_req_t req, struct node *node, const struct stat *wanted, int fields)
{
	int container, error = file_begin(node, CHANGE, &container);
	if (error)
		return error;
	error = set(node, wanted, fields);
	file_end(CHANGE, container);
	return error ? error : show(req, node);
}

static int read_link(fuse_req_t req, struct node *node)
{
	char text[PATH_MAX + 1];
	int container, error = file_begin(node, READ_LINK, &container);
	if (error)
		return error;
	ssize_t length = readlinkat(node->fd, "", text, PATH_MAX);
	error = length < 0 ? errno : REPLIED;
	if (length >= 0) {
		text[length] = 0;
		fuse_reply_readlink(req, text);
	}
	file_end(READ_LINK, container);
	return error;
}

/* What is free tells what others write: half is always free. */
static int tell_room(fuse_req_t req)
{
	struct statvfs room;
	if (fstatvfs(nodes_staging(), &room) != 0)
		return errno;
	room.f_bfree = room.f_bavail = room.f_blocks / 2;
	room.f_ffree = room.f_favail = room.f_files / 2;
	fuse_reply_statfs(req, &room);
	return REPLIED;
}

static void on_getattr(fuse_req_t req, fuse_ino_t number, struct fuse_file_info *info)
{
	(void)info;
	SERVE(req, number == CONTROL_NODE ? show_control(req) : show(req, node_of(number)));
}

static void on_setattr(fuse_req_t req, fuse_ino_t number, struct stat *wanted, int fields, struct fuse_file_info *info)
{
	(void)info;
	SERVE(req, number == CONTROL_NODE ? show_control(req) : change(req, node_of(number), wanted, fields));
}

static void on_readlink(fuse_req_t req, fuse_ino_t number)
{
	SERVE(req, number == CONTROL_NODE ? EINVAL : read_link(req, node_of(number)));
}

static void on_statfs(fuse_req_t req, fuse_ino_t number)
{
	(void)number;
	SERVE(req, tell_room(req));
}

void attributes_serve(struct fuse_lowlevel_ops *ops)
{
	ops->getattr = on_getattr;
	ops->setattr = on_setattr;
	ops->readlink = on_readlink;
	ops->statfs = on_statfs;
}
