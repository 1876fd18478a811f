/* The file .mls below the mount tells who the session is, and its level. A label that is written to it is its level. */
#include "mlsfs.h"

#define LEVEL_BYTES 200

bool is_control(struct node *folder, const char *name)
{
	return folder->number == FUSE_ROOT_ID && strcmp(name, CONTROL_NAME) == 0;
}

void control_show(struct stat *shown)
{
	*shown = (struct stat){.st_ino = CONTROL_NODE, .st_mode = S_IFREG | 0666, .st_nlink = 1};
}

int control_read(fuse_req_t req, size_t size, off_t offset)
{
	char text[LEVEL_BYTES];
	monitor_describe(text, sizeof text);
	size_t length = strlen(text), from = (size_t)offset < length ? (size_t)offset : length;
	fuse_reply_buf(req, text + from, length - from < size ? length - from : size);
	return REPLIED;
}

int control_write(fuse_req_t req, const char *text, size_t size)
{
	char label[LEVEL_BYTES];
	if (size == 0 || size >= sizeof label)
		return EINVAL;
	memcpy(label, text, size);
	label[size] = 0;
	label[strcspn(label, "\n")] = 0;
	if (strpbrk(label, " \t#$;") || strlen(label) + 1 < size)
		return EINVAL;
	int error = monitor_level(label);
	if (error)
		return error;
	fuse_reply_write(req, size);
	return REPLIED;
}
