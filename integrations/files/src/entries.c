/* Names: what is looked up, and what is made. A new file has its folder's label, before it has its name. */
#include "mlsfs.h"
#include <fcntl.h>
#include <stdatomic.h>
#include <stdio.h>
#include <unistd.h>

/* Replies with a node, whose reference the kernel takes over, where it still has the label that was decided. Nothing is
   cached: whoever else gets to this mount would see it. */
int entry_reply(fuse_req_t req, struct node *node, int container, struct fuse_file_info *opened)
{
	struct fuse_entry_param entry = {.ino = node->number};
	int error = node_show(node, &entry.attr);
	if (error == 0 && label_now(node) != container)
		error = ENOENT;
	if (error || (opened ? fuse_reply_create(req, &entry, opened) : fuse_reply_entry(req, &entry)) != 0) {
		node_forget(node, 1);
		if (opened)
			handle_end(handle_of(opened));
	}
	return error ? error : REPLIED;
}

static int look_up_control(fuse_req_t req)
{
	struct fuse_entry_param entry = {.ino = CONTROL_NODE};
	control_show(&entry.attr);
	fuse_reply_entry(req, &entry);
	return REPLIED;
}

/* A name that isn't there is decided as one of the folder's own label: who may not read the folder is told nothing. */
static int look_up(fuse_req_t req, fuse_ino_t parent, const char *name)
{
	struct node *folder = node_of(parent), *node;
	if (is_control(folder, name))
		return look_up_control(req);
	int missing = node_find(folder, name, &node), within = label_now(folder);
	int touched[PLACES] = {[FOLDER] = within, [FILE_OF] = missing ? within : label_now(node)};
	int error = rules_begin(LOOK_UP, touched, &monitor);
	if (error == 0)
		rules_end(LOOK_UP, touched, &monitor);
	if (error == 0 && missing == 0)
		return entry_reply(req, node, touched[FILE_OF], NULL);
	node_forget(node, 1);
	return error ? error : missing;
}

/* Gives a file that has no name yet its label, and the owner and mode that it would have had in its folder. */
static int dress(fuse_req_t req, struct node *folder, int fd, int container, mode_t mode)
{
	const struct fuse_ctx *caller = fuse_req_ctx(req);
	struct stat above;
	char path[PATH_BYTES];
	int error = label_put(fd, container);
	if (error == 0 && fstat(folder->fd, &above) != 0)
		error = errno;
	if (error)
		return error;
	bool is_inherited = above.st_mode & S_ISGID;
	if (fchownat(fd, "", caller->uid, is_inherited ? above.st_gid : caller->gid, AT_EMPTY_PATH) != 0)
		return errno;
	if (S_ISDIR(mode) && is_inherited)
		mode |= S_ISGID;
	return S_ISLNK(mode) || chmod(path_of(fd, path), mode & 07777) == 0 ? 0 : errno;
}

static int make_file(fuse_req_t req, struct node *folder, const char *name, int container, mode_t mode)
{
	char path[PATH_BYTES];
	int fd = openat(folder->fd, ".", O_TMPFILE | O_RDWR | O_CLOEXEC, 0600);
	if (fd < 0)
		return errno;
	int error = dress(req, folder, fd, container, mode);
	if (error == 0 && linkat(AT_FDCWD, path_of(fd, path), folder->fd, name, AT_SYMLINK_FOLLOW) != 0)
		error = errno;
	close(fd);
	return error;
}

/* Folders and symbolic links are made in the staging folder, where nobody sees them, and renamed from there. */
static int make_staged(fuse_req_t req, struct node *folder, const char *name, int container, mode_t mode,
	const char *to)
{
	static atomic_ulong count;
	char staged[64];
	int staging = nodes_staging(), error = 0;
	snprintf(staged, sizeof staged, "%d-%lu", (int)getpid(), atomic_fetch_add(&count, 1));
	if ((to ? symlinkat(to, staging, staged) : mkdirat(staging, staged, 0700)) != 0)
		return errno;
	int fd = openat(staging, staged, O_PATH | O_NOFOLLOW | O_CLOEXEC);
	error = fd < 0 ? errno : dress(req, folder, fd, container, mode);
	if (error == 0 && renameat2(staging, staged, folder->fd, name, RENAME_NOREPLACE) != 0)
		error = errno;
	if (fd >= 0)
		close(fd);
	if (error)
		unlinkat(staging, staged, to ? 0 : AT_REMOVEDIR);
	return error;
}

/* Makes an entry, and finds its node. */
static int make(fuse_req_t req, struct node *folder, const char *name, mode_t mode, const char *to, struct node **node)
{
	int touched[PLACES] = {[FOLDER] = label_now(folder)};
	bool is_data = S_ISREG(mode) || S_ISDIR(mode) || S_ISLNK(mode);
	enum operation operation = is_data ? MAKE : MAKE_SPECIAL;
	if (is_control(folder, name))
		return EEXIST;
	int error = rules_begin(operation, touched, &monitor);
	if (error)
		return error;
	error = S_ISREG(mode) ? make_file(req, folder, name, touched[FOLDER], mode)
		: make_staged(req, folder, name, touched[FOLDER], mode, to);
	rules_end(operation, touched, &monitor);
	return error ? error : node_find(folder, name, node);
}

static int make_entry(fuse_req_t req, fuse_ino_t parent, const char *name, mode_t mode, const char *to)
{
	struct node *node;
	int error = make(req, node_of(parent), name, mode, to, &node);
	return error ? error : entry_reply(req, node, label_now(node_of(parent)), NULL);
}

/* The caller saw no such name: where there is one it is hidden from it. */
static int create(fuse_req_t req, fuse_ino_t parent, const char *name, mode_t mode, struct fuse_file_info *info)
{
	struct node *node;
	int error = make(req, node_of(parent), name, (mode & 07777) | S_IFREG, NULL, &node);
	if (error)
		return error == EEXIST && !(info->flags & O_EXCL) ? EACCES : error;
	struct handle *handle = handle_open(node, info->flags, handle_needs(info->flags), &error);
	if (!handle) {
		node_forget(node, 1);
		return error;
	}
	handle_note(node, handle);
	info->fh = (uintptr_t)handle;
	info->direct_io = 1;
	return entry_reply(req, node, handle->container, info);
}

static void on_lookup(fuse_req_t req, fuse_ino_t parent, const char *name) { SERVE(req, look_up(req, parent, name)); }

static void on_mknod(fuse_req_t req, fuse_ino_t parent, const char *name, mode_t mode, dev_t device)
{
	(void)device;
	SERVE(req, make_entry(req, parent, name, mode & S_IFMT ? mode : mode | S_IFREG, NULL));
}

static void on_mkdir(fuse_req_t req, fuse_ino_t parent, const char *name, mode_t mode)
{
	SERVE(req, make_entry(req, parent, name, (mode & 07777) | S_IFDIR, NULL));
}

static void on_symlink(fuse_req_t req, const char *to, fuse_ino_t parent, const char *name)
{
	SERVE(req, make_entry(req, parent, name, S_IFLNK | 0777, to));
}

static void on_create(fuse_req_t req, fuse_ino_t parent, const char *name, mode_t mode, struct fuse_file_info *info)
{
	SERVE(req, create(req, parent, name, mode, info));
}

static void on_forget(fuse_req_t req, fuse_ino_t number, uint64_t lookups)
{
	if (number != CONTROL_NODE)
		node_forget(node_of(number), lookups);
	fuse_reply_none(req);
}

static void on_forget_multi(fuse_req_t req, size_t count, struct fuse_forget_data *forgotten)
{
	for (size_t k = 0; k < count; k++)
		if (forgotten[k].ino != CONTROL_NODE)
			node_forget(node_of(forgotten[k].ino), forgotten[k].nlookup);
	fuse_reply_none(req);
}

void entries_serve(struct fuse_lowlevel_ops *ops)
{
	ops->lookup = on_lookup;
	ops->mknod = on_mknod;
	ops->mkdir = on_mkdir;
	ops->symlink = on_symlink;
	ops->create = on_create;
	ops->forget = on_forget;
	ops->forget_multi = on_forget_multi;
}
