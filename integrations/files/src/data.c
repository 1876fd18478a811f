/* What is in files: each read and write is decided, for the label that the file has then. */
#include "mlsfs.h"
#include <fcntl.h>
#include <stdlib.h>
#include <unistd.h>

static int open_file(fuse_req_t req, fuse_ino_t number, struct fuse_file_info *info)
{
	int error = 0;
	info->direct_io = 1;
	if (number != CONTROL_NODE) {
		struct node *node = node_of(number);
		enum operation operation = handle_needs(info->flags);
		struct handle *handle = S_ISREG(node->type) ? handle_open(node, info->flags, operation, &error) : NULL;
		if (!handle)
			return error ? error : EACCES;
		handle_note(node, handle);
		info->fh = (uintptr_t)handle;
	}
	if (fuse_reply_open(req, info) != 0 && number != CONTROL_NODE)
		handle_end(handle_of(info));
	return REPLIED;
}

/* Reads, and replies where the file still has the label that was decided: it may have risen since. */
static int read_data(fuse_req_t req, struct handle *handle, size_t size, off_t offset)
{
	int container, error = EIO;
	char *data = malloc(size);
	for (bool is_same = false; data && !is_same;) {
		if ((error = file_begin(handle->node, READ_DATA, &container)) != 0)
			break;
		ssize_t length = pread(handle->fd, data, size, offset);
		error = length < 0 ? errno : 0;
		is_same = label_now(handle->node) == container;
		if (is_same && error == 0) {
			fuse_reply_buf(req, data, (size_t)length);
			error = REPLIED;
		}
		file_end(READ_DATA, container);
	}
	free(data);
	return error;
}

/* What was written to mapped memory has its place; a descriptor that appends would put it at the end. */
static ssize_t write_page(int fd, const char *data, size_t size, off_t offset)
{
	char path[PATH_BYTES];
	int other = open(path_of(fd, path), O_WRONLY | O_CLOEXEC);
	ssize_t length = other < 0 ? -1 : pwrite(other, data, size, offset);
	int error = errno;
	if (other >= 0)
		close(other);
	errno = error;
	return length;
}

static int write_data(fuse_req_t req, const char *data, size_t size, off_t offset, struct fuse_file_info *info)
{
	struct handle *handle = handle_of(info);
	int container, error = file_begin(handle->node, WRITE_DATA, &container);
	if (error)
		return error;
	bool is_page = info->writepage && fcntl(handle->fd, F_GETFL) & O_APPEND;
	ssize_t length = is_page ? write_page(handle->fd, data, size, offset) : pwrite(handle->fd, data, size, offset);
	error = length < 0 ? errno : REPLIED;
	if (length >= 0)
		fuse_reply_write(req, (size_t)length);
	file_end(WRITE_DATA, container);
	return error;
}

static int allocate(struct handle *handle, int mode, off_t offset, off_t length)
{
	int container, error = file_begin(handle->node, WRITE_DATA, &container);
	if (error)
		return error;
	error = fallocate(handle->fd, mode, offset, length) == 0 ? 0 : errno;
	file_end(WRITE_DATA, container);
	return error;
}

static int seek(fuse_req_t req, struct handle *handle, off_t offset, int whence)
{
	int container, error = file_begin(handle->node, READ_DATA, &container);
	if (error)
		return error;
	off_t found = lseek(handle->fd, offset, whence);
	error = found < 0 ? errno : REPLIED;
	if (found >= 0)
		fuse_reply_lseek(req, found);
	file_end(READ_DATA, container);
	return error;
}

static void on_open(fuse_req_t req, fuse_ino_t number, struct fuse_file_info *info)
{
	SERVE(req, open_file(req, number, info));
}

static void on_read(fuse_req_t req, fuse_ino_t number, size_t size, off_t offset, struct fuse_file_info *info)
{
	SERVE(req, number == CONTROL_NODE ? control_read(req, size, offset) : read_data(req, handle_of(info), size, offset));
}

static void on_write(fuse_req_t req, fuse_ino_t number, const char *data, size_t size, off_t offset,
	struct fuse_file_info *info)
{
	SERVE_ALSO_KERNEL(req, number == CONTROL_NODE ? control_write(req, data, size)
		: write_data(req, data, size, offset, info), info->writepage);
}

static void on_fsync(fuse_req_t req, fuse_ino_t number, int only_data, struct fuse_file_info *info)
{
	int fd = number == CONTROL_NODE ? -1 : handle_of(info)->fd;
	fuse_reply_err(req, fd < 0 || (only_data ? fdatasync(fd) : fsync(fd)) == 0 ? 0 : errno);
}

static void on_fallocate(fuse_req_t req, fuse_ino_t number, int mode, off_t offset, off_t length,
	struct fuse_file_info *info)
{
	SERVE(req, number == CONTROL_NODE ? EINVAL : allocate(handle_of(info), mode, offset, length));
}

static void on_lseek(fuse_req_t req, fuse_ino_t number, off_t offset, int whence, struct fuse_file_info *info)
{
	SERVE(req, number == CONTROL_NODE ? EINVAL : seek(req, handle_of(info), offset, whence));
}

static void on_release(fuse_req_t req, fuse_ino_t number, struct fuse_file_info *info)
{
	if (number != CONTROL_NODE)
		handle_end(handle_of(info));
	fuse_reply_err(req, 0);
}

void data_serve(struct fuse_lowlevel_ops *ops)
{
	ops->open = on_open;
	ops->read = on_read;
	ops->write = on_write;
	ops->fsync = on_fsync;
	ops->fallocate = on_fallocate;
	ops->lseek = on_lseek;
	ops->release = on_release;
}
