/*
 * Multilevel folders: one name, and behind it a folder for each of several labels, of which a session has the one of
 * its own level. A mark names these labels; the folders stand in the marked one, each by its label's name.
 */
#include "mlsfs.h"
#include <fcntl.h>
#include <stdlib.h>
#include <sys/xattr.h>
#include <unistd.h>

#define MARK "trusted.mls.levels"
#define FOLDER_ONLY (O_PATH | O_DIRECTORY | O_NOFOLLOW | O_CLOEXEC)

/* Whether a folder is a multilevel one, and the labels that it has folders for, with a space between two. */
bool levels_of(int folder, char labels[MARK_BYTES])
{
	char path[PATH_BYTES];
	ssize_t length = getxattr(path_of(folder, path), MARK, labels, MARK_BYTES - 1);
	labels[length < 0 ? 0 : length] = 0;
	return length >= 0;
}

/* Opens what a multilevel folder has for a label; or for the session's level, where there is no label. */
static int chosen(int folder, char *labels, const char *label)
{
	char *rest;
	for (char *name = strtok_r(labels, " ", &rest); name; name = strtok_r(NULL, " ", &rest))
		if (label ? strcmp(name, label) == 0 : monitor_is_level(label_number(name)))
			return openat(folder, name, FOLDER_ONLY);
	errno = ENOENT;
	return -1;
}

/* In the place of a multilevel folder, which is closed, what it has for a label or for the session's level. */
static int resolved(int folder, char *labels, const char *label)
{
	int found = chosen(folder, labels, label), error = errno;
	close(folder);
	errno = error;
	return found;
}

/* Opens NAME@LABEL, which is what the multilevel folder NAME has for a label. */
static int open_labelled(int folder, const char *name)
{
	char labels[MARK_BYTES];
	const char *at = strrchr(name, '@');
	char *multilevel = at ? strndup(name, (size_t)(at - name)) : NULL;
	bool is_name = multilevel && strcmp(multilevel, ".") != 0 && strcmp(multilevel, "..") != 0;
	int fd = is_name ? openat(folder, multilevel, FOLDER_ONLY) : -1;
	free(multilevel);
	if (fd >= 0 && levels_of(fd, labels))
		return resolved(fd, labels, at + 1);
	if (fd >= 0)
		close(fd);
	errno = ENOENT;
	return -1;
}

/* Opens the path of what a session has behind a name; -1 where that is nothing. */
int entry_open(int folder, const char *name, struct stat *file)
{
	char labels[MARK_BYTES];
	int fd = openat(folder, name, O_PATH | O_NOFOLLOW | O_CLOEXEC);
	if (fd < 0 && errno == ENOENT)
		fd = open_labelled(folder, name);
	*file = (struct stat){0};
	/* (the kernel knows of no multilevel folder, but of what is behind one) */
	if (fd >= 0 && fstat(fd, file) == 0 && S_ISDIR(file->st_mode) && !node_is_known(file->st_ino) &&
	    levels_of(fd, labels)) {
		fd = resolved(fd, labels, NULL);
		if (fd >= 0)
			fstat(fd, file);
	}
	return fd;
}

/* Makes the folder of a label, as the multilevel folder is else. */
static int make_level(int folder, const char *label)
{
	struct stat above;
	int number = label_number(label);
	if (number == CONTAINER_NONE)
		return EINVAL;
	if (fstat(folder, &above) != 0 || mkdirat(folder, label, 0700) != 0)
		return errno;
	int fd = openat(folder, label, O_RDONLY | O_DIRECTORY | O_NOFOLLOW | O_CLOEXEC);
	int error = fd < 0 ? errno : label_put(fd, number);
	if (error == 0 && (fchown(fd, above.st_uid, above.st_gid) != 0 || fchmod(fd, above.st_mode & 07777) != 0))
		error = errno;
	if (fd >= 0)
		close(fd);
	return error;
}

/* Makes a folder a multilevel one; a folder without a label gets the first. Returns 0 or an errno. */
int levels_make(const char *path, char *const *labels, int count)
{
	char mark[MARK_BYTES] = "", proc[PATH_BYTES];
	int folder = open(path, O_RDONLY | O_DIRECTORY | O_CLOEXEC), error = folder < 0 ? errno : 0;
	if (error == 0 && label_of(folder) == CONTAINER_NONE)
		error = label_put(folder, label_number(labels[0]));
	for (int k = 0; k < count && error == 0; k++) {
		size_t used = strlen(mark);
		error = make_level(folder, labels[k]);
		if (snprintf(mark + used, sizeof mark - used, "%s%s", used ? " " : "", labels[k]) >= (int)(sizeof mark - used))
			error = E2BIG;
	}
	if (error == 0 && setxattr(path_of(folder, proc), MARK, mark, strlen(mark), XATTR_CREATE) != 0)
		error = errno;
	if (folder >= 0)
		close(folder);
	return error;
}
