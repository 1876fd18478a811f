/*
 * mlsfs: an operating system's folders that the monitor decides about. Mounts a folder for the login session that this
 * is run in, and serves it until the session ends.
 */
#include "mlsfs.h"
#include <fcntl.h>
#include <signal.h>
#include <stdlib.h>
#include <sys/resource.h>
#include <unistd.h>

static const char usage[] = "usage: mlsfs [--foreground] [--socket PATH] FOLDER MOUNT\n"
	"       mlsfs --make FOLDER CONTAINER\n"
	"       mlsfs --levels FOLDER CONTAINER ..\n"
	"       mlsfs --label FILE CONTAINER\n"
	"       mlsfs [--socket PATH] --check FOLDER\n";

enum { MOUNT_IT, MAKE_IT, DIVIDE_IT, LABEL_IT, CHECK_IT };

static const char *socket_path = "/run/mlsd/socket";
static struct fuse_session *served;

static int fail(const char *what)
{
	fprintf(stderr, "mlsfs: %s\n", what);
	return 1;
}

static void forget_pages(struct node *node) { fuse_lowlevel_notify_inval_inode(served, node->number, 0, 0); }

/* Has the kernel drop what it has of files with a label: the next touch of a mapped page is decided anew. */
static void forget_data(int container)
{
	if (served)
		nodes_each(container, forget_pages);
}

static void begin(void *unused, struct fuse_conn_info *kernel)
{
	(void)unused;
	kernel->want &= ~(unsigned)(FUSE_CAP_READDIRPLUS | FUSE_CAP_READDIRPLUS_AUTO | FUSE_CAP_WRITEBACK_CACHE);
	kernel->want |= kernel->capable & (FUSE_CAP_POSIX_LOCKS | FUSE_CAP_FLOCK_LOCKS);
}

/* Serves the mount until it is gone. */
static int serve(int device, bool is_foreground)
{
	struct fuse_lowlevel_ops ops = {.init = begin};
	char *words[] = {"mlsfs", NULL};
	struct fuse_args args = FUSE_ARGS_INIT(1, words);
	struct fuse_loop_config *config = fuse_loop_cfg_create();
	entries_serve(&ops);
	changes_serve(&ops);
	data_serve(&ops);
	folders_serve(&ops);
	attributes_serve(&ops);
	extended_serve(&ops);
	locks_serve(&ops);
	served = fuse_session_new(&args, &ops, sizeof ops, NULL);
	if (!served || fuse_session_custom_io(served, &mount_io, device) != 0 || fuse_daemonize(is_foreground) != 0)
		return fail("can't serve");
	/* (a service, or a login, that ends has all its processes told so: they may still write) */
	signal(SIGTERM, SIG_IGN);
	signal(SIGHUP, SIG_IGN);
	monitor_start(forget_data);
	return fuse_session_loop_mt(served, config) != 0;
}

static int serve_session(const char *folder, const char *mount, bool is_foreground)
{
	const struct rlimit files = {1 << 20, 1 << 20};
	char name[NAME_BYTES + 1];
	umask(0);
	setrlimit(RLIMIT_NOFILE, &files);
	if (!session_find(name, sizeof name))
		return fail("this is no login session: it has no audit session, or nobody logged in to it");
	if (!nodes_open(folder))
		return fail("the folder is not one that mlsfs --make made");
	if (!monitor_open(socket_path, name))
		return fail("mlsd is not there");
	if (!labels_open())
		return fail(RUN_FOLDER ": can't be used");
	if (!session_claim())
		return fail("this session has, or had, an mlsfs");
	int device = mount_at(mount);
	/* (again: the paths of what is open are those of the namespace that it was opened in) */
	if (device < 0 || !nodes_open(folder)) {
		fail(strerror(errno));
		session_end();
		return 1;
	}
	int status = serve(device, is_foreground);
	session_end();
	return status;
}

static int check(const char *folder)
{
	if (!monitor_open(socket_path, "nobody"))
		return fail("mlsd is not there");
	monitor_start(forget_data);
	return folder_check(folder);
}

static int set_label(const char *path, const char *container)
{
	int number = label_number(container), fd = open(path, O_PATH | O_NOFOLLOW | O_CLOEXEC), error = errno;
	if (number == CONTAINER_NONE)
		return fail("no name of a container");
	if (fd < 0 || !labels_open())
		return fail(fd < 0 ? strerror(error) : RUN_FOLDER ": can't be used");
	error = label_change(fd, number);
	return error ? fail(strerror(error)) : 0;
}

static int divide(const char *folder, char *const *containers, int count)
{
	int error = levels_make(folder, containers, count);
	return error ? fail(strerror(error)) : 0;
}

int main(int count, char **words)
{
	int what = MOUNT_IT;
	bool is_foreground = false;
	words++, count--;
	for (; count > 0 && strncmp(*words, "--", 2) == 0; words++, count--)
		if (strcmp(*words, "--foreground") == 0)
			is_foreground = true;
		else if (strcmp(*words, "--make") == 0)
			what = MAKE_IT;
		else if (strcmp(*words, "--levels") == 0)
			what = DIVIDE_IT;
		else if (strcmp(*words, "--label") == 0)
			what = LABEL_IT;
		else if (strcmp(*words, "--check") == 0)
			what = CHECK_IT;
		else if (strcmp(*words, "--socket") == 0 && count > 1)
			socket_path = *++words, count--;
		else
			count = -1;
	if (what == DIVIDE_IT ? count < 2 : count != (what == CHECK_IT ? 1 : 2)) {
		fputs(usage, stderr);
		return 2;
	}
	return what == MAKE_IT ? folder_make(words[0], words[1]) : what == LABEL_IT ? set_label(words[0], words[1])
		: what == DIVIDE_IT ? divide(words[0], words + 1, count - 1) : what == CHECK_IT ? check(words[0])
		: serve_session(words[0], words[1], is_foreground);
}
