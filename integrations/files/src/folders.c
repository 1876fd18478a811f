/* What is in folders: who may not read a file is not told of it. */
#include "mlsfs.h"
#include <dirent.h>
#include <fcntl.h>
#include <stdlib.h>
#include <unistd.h>

static int open_folder(fuse_req_t req, fuse_ino_t number, struct fuse_file_info *info)
{
	struct node *node = node_of(number);
	int container, error = file_begin(node, LIST_FOLDER, &container);
	if (error)
		return error;
	int fd = openat(node->fd, ".", O_RDONLY | O_DIRECTORY | O_CLOEXEC | O_NOATIME);
	DIR *listing = fd < 0 ? NULL : fdopendir(fd);
	struct handle *handle = listing ? handle_new(node, fd, container, LIST_FOLDER) : NULL;
	if (!handle) {
		error = errno;
		file_end(LIST_FOLDER, container);
		return error;
	}
	handle->listing = listing;
	info->fh = (uintptr_t)handle;
	if (fuse_reply_open(req, info) != 0)
		handle_end(handle);
	return REPLIED;
}

/* The label of an entry: of a file that the kernel knows of, or read from the disk. */
static int label_listed(int folder, const struct dirent *entry)
{
	struct stat file;
	struct node *node = node_known(entry->d_ino);
	int fd = node ? -1 : entry_open(folder, entry->d_name, &file);
	int container = node ? label_now(node) : fd < 0 ? CONTAINER_NONE : label_of(fd);
	node_forget(node, 1);
	if (fd >= 0)
		close(fd);
	return container;
}

/* Whether an entry may be seen; 0 or an errno, ENOENT where it isn't there for this session. */
static int is_seen(int folder, const struct dirent *entry)
{
	if (strcmp(entry->d_name, ".") == 0 || strcmp(entry->d_name, "..") == 0)
		return 0;
	int touched[PLACES] = {[FILE_OF] = label_listed(folder, entry)};
	int error = rules_begin(LIST, touched, &monitor);
	if (error == 0)
		rules_end(LIST, touched, &monitor);
	return error;
}

/* Fills a buffer with the entries that are seen, from where the listing stands; returns its length. */
static size_t fill(fuse_req_t req, DIR *listing, char *buffer, size_t size)
{
	size_t used = 0;
	for (;;) {
		long before = telldir(listing);
		struct dirent *entry = readdir(listing);
		if (!entry)
			return used;
		if (is_seen(dirfd(listing), entry) != 0)
			continue;
		struct stat shown = {.st_ino = number_shown(entry->d_ino), .st_mode = DTTOIF(entry->d_type)};
		size_t length = fuse_add_direntry(req, buffer + used, size - used, entry->d_name, &shown, telldir(listing));
		if (length > size - used) {
			seekdir(listing, before);
			return used;
		}
		used += length;
	}
}

static int list_folder(fuse_req_t req, struct handle *handle, size_t size, off_t offset)
{
	char *buffer = malloc(size);
	int container, error = buffer ? file_begin(handle->node, LIST_FOLDER, &container) : ENOMEM;
	if (error == 0) {
		seekdir(handle->listing, offset);
		size_t length = fill(req, handle->listing, buffer, size);
		if (label_now(handle->node) == container) {
			fuse_reply_buf(req, buffer, length);
			error = REPLIED;
		} else
			error = EAGAIN;
		file_end(LIST_FOLDER, container);
	}
	free(buffer);
	return error;
}

static void on_opendir(fuse_req_t req, fuse_ino_t number, struct fuse_file_info *info)
{
	SERVE(req, open_folder(req, number, info));
}

static void on_readdir(fuse_req_t req, fuse_ino_t number, size_t size, off_t offset, struct fuse_file_info *info)
{
	(void)number;
	SERVE(req, list_folder(req, handle_of(info), size, offset));
}

static void on_releasedir(fuse_req_t req, fuse_ino_t number, struct fuse_file_info *info)
{
	(void)number;
	handle_end(handle_of(info));
	fuse_reply_err(req, 0);
}

static void on_fsyncdir(fuse_req_t req, fuse_ino_t number, int only_data, struct fuse_file_info *info)
{
	(void)number, (void)only_data;
	fuse_reply_err(req, fsync(handle_of(info)->fd) == 0 ? 0 : errno);
}

void folders_serve(struct fuse_lowlevel_ops *ops)
{
	ops->opendir = on_opendir;
	ops->readdir = on_readdir;
	ops->releasedir = on_releasedir;
	ops->fsyncdir = on_fsyncdir;
}
