/* Extended attributes. One of them is shown as the label, and set to relabel; those of the system are not there. */
#include "mlsfs.h"
#include <dirent.h>
#include <fcntl.h>
#include <limits.h>
#include <stdlib.h>
#include <sys/xattr.h>
#include <unistd.h>

#define ATTRIBUTES_MAX 65536

static bool begins(const char *name, const char *with) { return strncmp(name, with, strlen(with)) == 0; }
static bool is_users(const char *name) { return begins(name, "user."); }

/* The label of the folder that a file stands in; none of a multilevel one, whose folders keep their labels. */
static int label_above(struct node *node)
{
	char path[PATH_BYTES], above[PATH_MAX], labels[MARK_BYTES];
	ssize_t length = readlink(path_of(node->fd, path), above, sizeof above - 1);
	if (length <= 0)
		return CONTAINER_NONE;
	above[length] = 0;
	*strrchr(above, '/') = 0;
	int fd = open(above, O_PATH | O_DIRECTORY | O_NOFOLLOW | O_CLOEXEC);
	int container = fd < 0 || levels_of(fd, labels) ? CONTAINER_NONE : label_of(fd);
	if (fd >= 0)
		close(fd);
	return container;
}

/* Whether a file has but one place, and nothing below it. */
static int is_single(struct node *node)
{
	struct stat file;
	if (fstat(node->fd, &file) != 0)
		return errno;
	if (S_ISREG(node->type))
		return file.st_nlink == 1 ? 0 : EPERM;
	if (!S_ISDIR(node->type) || node->number == FUSE_ROOT_ID)
		return EPERM;
	int fd = openat(node->fd, ".", O_RDONLY | O_DIRECTORY | O_CLOEXEC | O_NOATIME), entries = 0;
	DIR *listing = fd < 0 ? NULL : fdopendir(fd);
	while (listing && readdir(listing))
		entries++;
	if (listing)
		closedir(listing);
	return !listing ? EIO : entries > 2 ? ENOTEMPTY : 0;
}

/* Gives a file another label: what is in it moves from one container to the other. */
int relabel(struct node *node, const char *text, size_t size)
{
	char name[NAME_BYTES + 1], deed[2 * NAME_BYTES];
	if (size == 0 || size > NAME_BYTES)
		return EINVAL;
	snprintf(name, sizeof name, "%.*s", (int)size, text);
	int before = label_now(node);
	int touched[PLACES] = {[FILE_OF] = before, [FOLDER] = label_above(node), [NEW_LABEL] = label_number(name)};
	/* (what copies attributes sets it as it is) */
	enum operation operation = touched[NEW_LABEL] == before ? CHANGE : RELABEL;
	int error = rules_begin(operation, touched, &monitor);
	if (error)
		return error;
	if (operation == RELABEL && (error = is_single(node)) == 0) {
		snprintf(deed, sizeof deed, "relabel %s", name);
		monitor_note(deed, node->fd);
		error = label_change(node->fd, touched[NEW_LABEL]);
	}
	rules_end(operation, touched, &monitor);
	return error;
}

static int set_attribute(struct node *node, const char *name, const char *value, size_t size, int flags)
{
	char path[PATH_BYTES];
	if (strcmp(name, SHOWN_LABEL) == 0)
		return relabel(node, value, size);
	if (begins(name, "system."))
		return rules_begin(CHANGE_ACL, NULL, &monitor);
	if (!is_users(name) || begins(name, SHOWN_LABEL))
		return EPERM;
	int container, error = file_begin(node, CHANGE, &container);
	if (error)
		return error;
	error = setxattr(path_of(node->fd, path), name, value, size, flags) == 0 ? 0 : errno;
	file_end(CHANGE, container);
	return error;
}

static int remove_attribute(struct node *node, const char *name)
{
	char path[PATH_BYTES];
	if (!is_users(name) || begins(name, SHOWN_LABEL))
		return EPERM;
	int container, error = file_begin(node, CHANGE, &container);
	if (error)
		return error;
	error = removexattr(path_of(node->fd, path), name) == 0 ? 0 : errno;
	file_end(CHANGE, container);
	return error;
}

static int reply_bytes(fuse_req_t req, const char *bytes, size_t length, size_t size)
{
	if (size != 0 && length > size)
		return ERANGE;
	if (size == 0)
		fuse_reply_xattr(req, length);
	else
		fuse_reply_buf(req, bytes, length);
	return REPLIED;
}

static int get_attribute(fuse_req_t req, struct node *node, const char *name, size_t size)
{
	char path[PATH_BYTES], value[ATTRIBUTES_MAX];
	if (!is_users(name))
		return begins(name, "system.") ? EOPNOTSUPP : ENODATA;
	int container, error = file_begin(node, SHOW, &container);
	if (error)
		return error;
	bool is_label = strcmp(name, SHOWN_LABEL) == 0;
	ssize_t length = is_label ? snprintf(value, sizeof value, "%s", label_name(container))
		: getxattr(path_of(node->fd, path), name, value, sizeof value);
	error = length < 0 ? errno : label_now(node) != container ? EAGAIN : 0;
	file_end(SHOW, container);
	return error ? error : reply_bytes(req, value, (size_t)length, size);
}

static int list_attributes(fuse_req_t req, struct node *node, size_t size)
{
	char path[PATH_BYTES], found[ATTRIBUTES_MAX], shown[ATTRIBUTES_MAX + 16] = SHOWN_LABEL;
	size_t used = sizeof SHOWN_LABEL;
	int container, error = file_begin(node, SHOW, &container);
	if (error)
		return error;
	ssize_t length = listxattr(path_of(node->fd, path), found, sizeof found);
	for (char *at = found; at < found + length; at += strlen(at) + 1)
		if (is_users(at))
			used += (size_t)snprintf(shown + used, sizeof shown - used, "%s", at) + 1;
	error = length < 0 ? errno : label_now(node) != container ? EAGAIN : 0;
	file_end(SHOW, container);
	return error ? error : reply_bytes(req, shown, used, size);
}

static void on_setxattr(fuse_req_t req, fuse_ino_t number, const char *name, const char *value, size_t size, int flags)
{
	SERVE(req, number == CONTROL_NODE ? EPERM : set_attribute(node_of(number), name, value, size, flags));
}

static void on_removexattr(fuse_req_t req, fuse_ino_t number, const char *name)
{
	SERVE(req, number == CONTROL_NODE ? EPERM : remove_attribute(node_of(number), name));
}

static void on_getxattr(fuse_req_t req, fuse_ino_t number, const char *name, size_t size)
{
	SERVE(req, number == CONTROL_NODE ? ENODATA : get_attribute(req, node_of(number), name, size));
}

static void on_listxattr(fuse_req_t req, fuse_ino_t number, size_t size)
{
	SERVE(req, number == CONTROL_NODE ? ENODATA : list_attributes(req, node_of(number), size));
}

void extended_serve(struct fuse_lowlevel_ops *ops)
{
	ops->setxattr = on_setxattr;
	ops->removexattr = on_removexattr;
	ops->getxattr = on_getxattr;
	ops->listxattr = on_listxattr;
}
