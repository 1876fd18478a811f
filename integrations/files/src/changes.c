/* Names that go, change or are added. */
#include "mlsfs.h"
#include <fcntl.h>
#include <linux/fs.h>
#include <stdio.h>
#include <unistd.h>

/* The label of what has a name; the folder's own where nothing has. */
static int label_named(struct node *folder, const char *name, struct node **node)
{
	return label_now(node_find(folder, name, node) == 0 ? *node : folder);
}

static int take_away(fuse_ino_t parent, const char *name, int flag)
{
	struct node *folder = node_of(parent), *node;
	if (is_control(folder, name))
		return EPERM;
	int touched[PLACES] = {[FILE_OF] = label_named(folder, name, &node), [FOLDER] = label_now(folder)};
	int error = rules_begin(REMOVE, touched, &monitor);
	if (error == 0) {
		error = unlinkat(folder->fd, name, flag) == 0 ? 0 : errno;
		rules_end(REMOVE, touched, &monitor);
	}
	node_forget(node, 1);
	return error;
}

static int rename_entry(fuse_ino_t parent, const char *name, fuse_ino_t new_parent, const char *new_name,
	unsigned flags)
{
	struct node *folder = node_of(parent), *target = node_of(new_parent), *node, *replaced;
	if (flags & ~(unsigned)(RENAME_NOREPLACE | RENAME_EXCHANGE))
		return EINVAL;
	if (is_control(folder, name) || is_control(target, new_name))
		return EPERM;
	int touched[PLACES] = {[FILE_OF] = label_named(folder, name, &node), [FOLDER] = label_now(folder),
		[TARGET] = label_now(target), [REPLACED] = label_named(target, new_name, &replaced)};
	bool is_over = replaced && !(flags & RENAME_NOREPLACE);
	enum operation operation = flags & RENAME_EXCHANGE ? EXCHANGE : is_over ? RENAME_OVER : RENAME;
	int error = rules_begin(operation, touched, &monitor);
	if (error == 0) {
		/* (what was hidden, or came since, is not replaced) */
		unsigned how = operation == RENAME ? flags | RENAME_NOREPLACE : flags;
		error = renameat2(folder->fd, name, target->fd, new_name, how) == 0 ? 0 : errno;
		rules_end(operation, touched, &monitor);
	}
	node_forget(node, 1);
	node_forget(replaced, 1);
	return error;
}

static int link_entry(fuse_req_t req, fuse_ino_t number, fuse_ino_t parent, const char *name)
{
	struct node *node = node_of(number), *folder = node_of(parent), *made;
	char path[PATH_BYTES];
	if (is_control(folder, name))
		return EEXIST;
	int touched[PLACES] = {[FILE_OF] = label_now(node), [TARGET] = label_now(folder)};
	int error = rules_begin(LINK, touched, &monitor);
	if (error)
		return error;
	error = linkat(AT_FDCWD, path_of(node->fd, path), folder->fd, name, AT_SYMLINK_FOLLOW) == 0 ? 0 : errno;
	rules_end(LINK, touched, &monitor);
	if (error == 0)
		error = node_find(folder, name, &made);
	return error ? error : entry_reply(req, made, touched[FILE_OF], NULL);
}

static void on_unlink(fuse_req_t req, fuse_ino_t parent, const char *name) { SERVE(req, take_away(parent, name, 0)); }

static void on_rmdir(fuse_req_t req, fuse_ino_t parent, const char *name)
{
	SERVE(req, take_away(parent, name, AT_REMOVEDIR));
}

static void on_rename(fuse_req_t req, fuse_ino_t parent, const char *name, fuse_ino_t new_parent, const char *new_name,
	unsigned flags)
{
	SERVE(req, rename_entry(parent, name, new_parent, new_name, flags));
}

static void on_link(fuse_req_t req, fuse_ino_t number, fuse_ino_t parent, const char *name)
{
	SERVE(req, number == CONTROL_NODE ? EPERM : link_entry(req, number, parent, name));
}

void changes_serve(struct fuse_lowlevel_ops *ops)
{
	ops->unlink = on_unlink;
	ops->rmdir = on_rmdir;
	ops->rename = on_rename;
	ops->link = on_link;
}
