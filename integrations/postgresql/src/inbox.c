/*
 * What has come from mlsd and was not taken yet.
 */
#include "mls.h"
#include <sys/socket.h>

static char in[8192];
static size_t in_length = 0;

bool
inbox_has_line(void)
{
	return memchr(in, '\n', in_length) != NULL;
}

/* Takes one line, without its newline; false where there is none. */
bool
inbox_take(char *line)
{
	char	   *end = memchr(in, '\n', in_length);
	size_t		length;

	if (end == NULL)
		return false;
	length = Min((size_t) (end - in), ANSWER_MAX - 1);
	memcpy(line, in, length);
	line[length] = '\0';
	in_length -= (size_t) (end + 1 - in);
	memmove(in, end + 1, in_length);
	return true;
}

/* Whether a call on a socket failed for now alone. */
bool
inbox_may_retry(int error)
{
	return error == EAGAIN || error == EWOULDBLOCK || error == EINTR;
}

/* Reads what has come; false where the other end is gone, or says more than any answer. */
bool
inbox_read(int sock, int flags)
{
	ssize_t		n;

	if (in_length == sizeof in)
		return false;
	n = recv(sock, in + in_length, sizeof in - in_length, flags);
	if (n > 0)
		in_length += (size_t) n;
	return n > 0 || (n < 0 && inbox_may_retry(errno));
}

void
inbox_clear(void)
{
	in_length = 0;
}
