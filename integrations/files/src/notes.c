/* What mlsd is told, and asked, that is no access: what was opened or relabelled, and which containers there are. */
#include "mlsfs.h"
#include <unistd.h>

#define LINE_BYTES 512

/* Leaves a note of an open or a relabelling in mlsd's sessions file: what is done, and the file's path. */
void monitor_note(const char *deed, int fd)
{
	char path[PATH_BYTES], file[160], line[LINE_BYTES];
	ssize_t length = readlink(path_of(fd, path), file, sizeof file - 1);
	file[length < 0 ? 0 : length] = 0;
	for (char *p = file; *p; p++)
		if (*p < 32 || *p > 126)
			*p = '?';
	snprintf(line, sizeof line, "; %s %s\n", deed, file);
	wire_tell(line);
}

bool monitor_knows(const char *container)
{
	char line[LINE_BYTES], answer[ANSWER_BYTES];
	snprintf(line, sizeof line, "labels object %s\n", container);
	return wire_ask(line, answer) && strncmp(answer, "security ", 9) == 0;
}
