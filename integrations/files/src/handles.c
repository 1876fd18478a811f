/* Open descriptors. Each keeps the accesses of its last decision, and is decided again where its file has another label
   since. */
#include "mlsfs.h"
#include <dirent.h>
#include <fcntl.h>
#include <stdlib.h>
#include <unistd.h>

#define FOR_KERNEL 0x20         /* a flag of the kernel's own, of programs that are run */

struct handle *handle_of(const struct fuse_file_info *info) { return (struct handle *)(uintptr_t)info->fh; }

enum operation handle_needs(int flags)
{
	return (flags & O_ACCMODE) == O_RDONLY && !(flags & O_TRUNC) ? OPEN_TO_READ : OPEN_TO_WRITE;
}

/* A handle of a descriptor whose accesses are taken. */
struct handle *handle_new(struct node *node, int fd, int container, enum operation operation)
{
	struct handle *handle = calloc(1, sizeof *handle);
	if (handle)
		*handle = (struct handle){.node = node, .fd = fd, .container = container, .opened = operation};
	return handle;
}

static int opened(struct node *node, int flags)
{
	char path[PATH_BYTES];
	int wanted = (flags & ~(O_NOFOLLOW | O_CREAT | O_EXCL | FOR_KERNEL)) | O_CLOEXEC | O_NOATIME;
	return open(path_of(node->fd, path), wanted);
}

/* Opens a file, where that is granted for the label that it has once it is open. */
struct handle *handle_open(struct node *node, int flags, enum operation operation, int *error)
{
	int container = label_now(node), fd;
	struct handle *handle;
	if ((*error = rules_begin(operation, (int[PLACES]){container}, &monitor)) != 0)
		return NULL;
	fd = opened(node, flags & ~O_TRUNC);
	*error = fd < 0 ? errno : label_now(node) != container ? EACCES : 0;
	if (*error == 0 && flags & O_TRUNC && ftruncate(fd, 0) != 0)
		*error = errno;
	handle = *error ? NULL : handle_new(node, fd, container, operation);
	if (handle)
		return handle;
	if (fd >= 0)
		close(fd);
	file_end(operation, container);
	*error = *error ? *error : ENOMEM;
	return NULL;
}

/* Leaves a note that a file was opened, once for each label as long as the kernel knows the file. */
void handle_note(struct node *node, const struct handle *handle)
{
	enum mode mode = handle->opened == OPEN_TO_READ ? READ : APPEND;
	if (node->noted[mode] != handle->container + 1)
		monitor_note(mode == READ ? "read" : "write", handle->fd);
	node->noted[mode] = handle->container + 1;
}

void handle_end(struct handle *handle)
{
	file_end(handle->opened, handle->container);
	if (handle->listing)
		closedir(handle->listing);
	else
		close(handle->fd);
	free(handle);
}

/* Takes what an operation on a file needs of the label that it has now, which another session may have changed since it
   was opened or looked up. */
int file_begin(struct node *node, enum operation operation, int *container)
{
	*container = label_now(node);
	return rules_begin(operation, (int[PLACES]){*container}, &monitor);
}

void file_end(enum operation operation, int container) { rules_end(operation, (int[PLACES]){container}, &monitor); }
