/*
 * The connection to mlsd. Each line has one answer, and answers come in the order of their lines; so an answer is
 * found by counting, also after a query that waited for one was cancelled.
 */
#include "mls.h"
#include "miscadmin.h"
#include "storage/latch.h"
#include "utils/wait_event.h"
#include <poll.h>
#include <sys/socket.h>
#include <sys/time.h>
#include <sys/un.h>
#include <unistd.h>

#define PIPELINE 32				/* lines without an answer: fewer than mlsd takes of one client before it reads on */
#define FIRST_WAIT 5000			/* microseconds; most answers take less, and a latch's set of events costs more */

uint64		wire_connection = 0;
int64		wire_session;

static uint64 connections = 0;	/* that were ever made */
static int	sock = -1;
static bool is_greeted = false;
static uint64 lines_sent;
static uint64 answers_read;

/* Ends the connection: mlsd lets go of what it held. It throws nothing. */
void
wire_end(void)
{
	if (sock >= 0)
		close(sock);
	sock = -1;
	is_greeted = false;
	wire_connection = 0;
	lines_sent = answers_read = 0;
	inbox_clear();
}

static void
fail(const char *what)
{
	wire_end();
	ereport(ERROR, (errcode(ERRCODE_CONNECTION_FAILURE),
					errmsg("mls: the monitor is not reached at %s: %s", mls_socket, what)));
}

/* Waits for a line. It may be interrupted; what was asked stays counted then. */
static void
wait_line(char *line)
{
	const int	events = WL_LATCH_SET | WL_SOCKET_READABLE | WL_TIMEOUT | WL_EXIT_ON_PM_DEATH;

	while (!inbox_take(line))
	{
		int			came;

		if (!inbox_read(sock, 0))
			fail("it closed the connection");
		if (inbox_has_line())
			continue;
		came = WaitLatchOrSocket(MyLatch, events, sock, mls_timeout, PG_WAIT_EXTENSION);
		if (came & WL_LATCH_SET)
		{
			ResetLatch(MyLatch);
			CHECK_FOR_INTERRUPTS();
		}
		else if (came & WL_TIMEOUT)
			fail("no answer in time");
	}
}

/* Sends whole lines, or ends the connection. It throws nothing, since the end of a transaction sends too. */
static bool
send_lines(const char *text)
{
	size_t		length = strlen(text);

	while (length > 0)
	{
		ssize_t		n = send(sock, text, length, MSG_DONTWAIT | MSG_NOSIGNAL);
		struct pollfd p = {.fd = sock, .events = POLLOUT};

		if (n >= 0)
		{
			text += n;
			length -= (size_t) n;
		}
		else if (!inbox_may_retry(errno) || (errno != EINTR && poll(&p, 1, mls_timeout) == 0))
		{
			wire_end();
			return false;
		}
	}
	lines_sent++;
	return true;
}

/* Tries to connect; false where mlsd has no room among those that wait for it. */
static bool
open_socket(void)
{
	struct sockaddr_un address = {.sun_family = AF_UNIX};
	struct timeval wait = {.tv_usec = FIRST_WAIT};

	strlcpy(address.sun_path, mls_socket, sizeof address.sun_path);
	sock = socket(AF_UNIX, SOCK_STREAM | SOCK_CLOEXEC, 0);
	if (sock < 0 || setsockopt(sock, SOL_SOCKET, SO_RCVTIMEO, &wait, sizeof wait) != 0 ||
		setsockopt(sock, SOL_SOCKET, SO_SNDTIMEO, &wait, sizeof wait) != 0)
		fail(strerror(errno));
	if (connect(sock, (struct sockaddr *) &address, sizeof address) == 0)
		return true;
	if (!inbox_may_retry(errno))
		fail(strerror(errno));
	wire_end();
	return false;
}

/* Connects where no connection is open, and reads the greeting: an interrupted one is still to come the next time. */
void
wire_connect(void)
{
	char		line[ANSWER_MAX];
	long		number;

	if (is_greeted)
		return;
	for (int tries = 0; sock < 0 && !open_socket(); tries++)
	{
		CHECK_FOR_INTERRUPTS();
		if (tries > mls_timeout / (FIRST_WAIT / 1000))
			fail("it takes no connection");
	}
	wait_line(line);
	if (sscanf(line, "session %ld", &number) != 1)
		fail(line);
	wire_session = number;
	is_greeted = true;
	wire_connection = ++connections;
}

/* Sends a line, which may have a note before it, and reads its answer: the one with its number. */
void
wire_ask(const char *text, char *answer)
{
	uint64		mine;

	if (!send_lines(text))
		fail("it closed the connection");
	mine = lines_sent;
	do
		wait_line(answer);
	while (++answers_read < mine);
}

/* Sends a line whose answer nobody needs. It throws nothing: where it can't send, mlsd lets go of all. */
void
wire_send_late(const char *text)
{
	char		line[ANSWER_MAX];

	while (is_greeted && lines_sent - answers_read >= PIPELINE)
	{
		struct pollfd p = {.fd = sock, .events = POLLIN};

		if (inbox_take(line))
			answers_read++;
		else if (poll(&p, 1, mls_timeout) == 0 || !inbox_read(sock, MSG_DONTWAIT))
			wire_end();
	}
	if (is_greeted)
		send_lines(text);
}
