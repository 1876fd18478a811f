/* A backing folder: how it is made, and what in it is no longer as mlsfs leaves it. */
#include "mlsfs.h"
#include <fcntl.h>
#include <ftw.h>
#include <sys/xattr.h>
#include <unistd.h>

#define DESCRIPTORS 64

static int faults, begins_at;

static int fault(const char *path, const char *what)
{
	printf("%s: %s\n", path + begins_at, what);
	faults++;
	return 0;
}

static int told(const char *path)
{
	fprintf(stderr, "mlsfs: %s: %s\n", path, strerror(errno));
	return 1;
}

/* Makes the folder, with files and a staging folder in it, the former with a label. */
int folder_make(const char *folder, const char *container)
{
	int number = label_number(container), top, files;
	if (number == CONTAINER_NONE) {
		fprintf(stderr, "mlsfs: %s is no name of a container\n", container);
		return 2;
	}
	if ((mkdir(folder, 0700) != 0 && errno != EEXIST) || (top = open(folder, O_RDONLY | O_DIRECTORY)) < 0)
		return told(folder);
	if (fchmod(top, 0700) != 0 || mkdirat(top, "staging", 0700) != 0 || mkdirat(top, "files", 0755) != 0)
		return told(folder);
	files = openat(top, "files", O_PATH | O_DIRECTORY | O_NOFOLLOW);
	if (files < 0 || (errno = label_put(files, number)) != 0 || !numbers_open(top))
		return told(folder);
	return 0;
}

/* Of a multilevel folder: whether it has the folders that its mark names. */
static int check_levels(const char *path, const struct stat *file)
{
	char labels[MARK_BYTES], *rest, what[64 + NAME_BYTES];
	int folder = S_ISDIR(file->st_mode) ? open(path, O_PATH | O_DIRECTORY | O_NOFOLLOW | O_CLOEXEC) : -1;
	if (folder >= 0 && levels_of(folder, labels))
		for (char *name = strtok_r(labels, " ", &rest); name; name = strtok_r(NULL, " ", &rest)) {
			int level = openat(folder, name, O_PATH | O_DIRECTORY | O_NOFOLLOW | O_CLOEXEC);
			snprintf(what, sizeof what, "has no folder with the label %.*s", NAME_BYTES, name);
			if (level < 0 || label_of(level) != label_number(name))
				fault(path, what);
			if (level >= 0)
				close(level);
		}
	if (folder >= 0)
		close(folder);
	return 0;
}

/* Of a file: whether it is of a kind that has a label, and has one that the monitor knows. */
static int check_file(const char *path, const struct stat *file, int kind, struct FTW *place)
{
	char label[NAME_BYTES + 1];
	(void)kind, (void)place;
	ssize_t length = lgetxattr(path, LABEL, label, NAME_BYTES);
	if (!S_ISREG(file->st_mode) && !S_ISDIR(file->st_mode) && !S_ISLNK(file->st_mode))
		return fault(path, "is no file, folder or symbolic link");
	if (length <= 0)
		return fault(path, "has no label");
	label[length] = 0;
	if (label_number(label) == CONTAINER_NONE || !monitor_knows(label))
		return fault(path, "has a label that the monitor has no container for");
	return check_levels(path, file);
}

static int check_staged(const char *path, const struct stat *file, int kind, struct FTW *place)
{
	(void)file, (void)kind;
	return place->level == 0 ? 0 : fault(path, "was being made, and can be removed");
}

/* Prints a line for each fault, and returns 1 where there is one. Nothing is changed. */
int folder_check(const char *folder)
{
	char files[4096], staging[4096];
	snprintf(files, sizeof files, "%s/files", folder);
	snprintf(staging, sizeof staging, "%s/staging", folder);
	begins_at = (int)strlen(folder) + 1;
	if (nftw(files, check_file, DESCRIPTORS, FTW_PHYS | FTW_MOUNT) != 0)
		return told(files);
	if (nftw(staging, check_staged, DESCRIPTORS, FTW_PHYS | FTW_MOUNT) != 0)
		return told(staging);
	return faults != 0;
}
