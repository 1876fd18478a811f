/* The mount, and what libfuse 3.14 doesn't know of: that descriptors which read past the page cache can be mapped. */
#include "mlsfs.h"
#include <fcntl.h>
#include <linux/fuse.h>
#include <sched.h>
#include <sys/mount.h>
#include <sys/uio.h>
#include <unistd.h>

/* Of a newer linux/fuse.h: a second word of flags, and in it bit 36. */
#define MORE_FLAGS (1u << 30)
#define MAP_DIRECT (1u << 4)
#define MINOR 39                /* of the protocol that has it */

static uint64_t first_request;

static ssize_t take_request(int fd, void *buffer, size_t size, void *unused)
{
	ssize_t length = read(fd, buffer, size);
	const struct fuse_in_header *head = buffer;
	(void)unused;
	if (length >= (ssize_t)sizeof *head && head->opcode == FUSE_INIT)
		first_request = head->unique;
	return length;
}

static ssize_t put_reply(int fd, struct iovec *parts, int count, void *unused)
{
	const struct fuse_out_header *head = parts[0].iov_base;
	(void)unused;
	if (count == 2 && first_request != 0 && head->unique == first_request && head->error == 0 &&
	    parts[1].iov_len >= sizeof(struct fuse_init_out)) {
		struct fuse_init_out *init = parts[1].iov_base;
		if (init->minor < MINOR)
			init->minor = MINOR;
		init->flags |= MORE_FLAGS;
		init->flags2 |= MAP_DIRECT;
		first_request = 0;
	}
	return writev(fd, parts, count);
}

const struct fuse_custom_io mount_io = {.read = take_request, .writev = put_reply};

/* Takes a namespace of mounts of its own, without the mount: it ends with the session's, and ends this process. */
static bool leave_namespace(const char *folder)
{
	return unshare(CLONE_NEWNS) == 0 && mount(NULL, "/", NULL, MS_REC | MS_PRIVATE, NULL) == 0 &&
		umount2(folder, MNT_DETACH) == 0;
}

/* Mounts at a folder of the namespace that this process is in; returns the descriptor of the device, or -1. */
int mount_at(const char *folder)
{
	char text[128];
	int device = open("/dev/fuse", O_RDWR | O_CLOEXEC);
	snprintf(text, sizeof text, "fd=%d,rootmode=40000,user_id=0,group_id=0,allow_other,default_permissions", device);
	if (device < 0 || mount("mlsfs", folder, "fuse.mlsfs", MS_NOSUID | MS_NODEV | MS_NOATIME, text) != 0)
		return -1;
	return leave_namespace(folder) ? device : -1;
}
