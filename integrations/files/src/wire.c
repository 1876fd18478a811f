/*
 * The connection to mlsd: a line has one answer, and one line waits at a time. A thread reads, since what the session
 * lost is told at any time; a second one deals with that, as it may wait for operations that wait for an answer.
 */
#include "mlsfs.h"
#include <pthread.h>
#include <stdatomic.h>
#include <stdlib.h>
#include <sys/socket.h>
#include <sys/un.h>
#include <time.h>
#include <unistd.h>

#define PATIENCE 10             /* seconds for an answer */

struct loss {
	struct loss *next;
	char line[ANSWER_BYTES];
};

static int sock = -1;
static FILE *input;
static atomic_bool is_lost;
static bool has_answer;
static char last[ANSWER_BYTES];
static struct loss *losses, **losses_end = &losses;
static pthread_mutex_t lock = PTHREAD_MUTEX_INITIALIZER, asking = PTHREAD_MUTEX_INITIALIZER;
static pthread_cond_t came = PTHREAD_COND_INITIALIZER, lost_some = PTHREAD_COND_INITIALIZER;
static void (*when_lost)(const char *mode, const char *object);

bool wire_open(const char *path)
{
	struct sockaddr_un address = {.sun_family = AF_UNIX};
	char line[ANSWER_BYTES];
	snprintf(address.sun_path, sizeof address.sun_path, "%s", path);
	sock = socket(AF_UNIX, SOCK_STREAM | SOCK_CLOEXEC, 0);
	if (sock < 0 || connect(sock, (struct sockaddr *)&address, sizeof address) != 0 || !(input = fdopen(sock, "r")))
		return false;
	return fgets(line, sizeof line, input) && strncmp(line, "session ", 8) == 0;
}

/* The connection is at its end: all that it got is released, and nothing is a yes from now on. */
static void end(void)
{
	pthread_mutex_lock(&lock);
	is_lost = true;
	shutdown(sock, SHUT_RDWR);
	pthread_cond_broadcast(&came);
	pthread_mutex_unlock(&lock);
}

bool wire_is_lost(void) { return is_lost; }

static void put_line(const char *line)
{
	struct loss *loss = line[0] == '!' ? calloc(1, sizeof *loss) : NULL;
	pthread_mutex_lock(&lock);
	if (loss) {
		snprintf(loss->line, sizeof loss->line, "%s", line);
		*losses_end = loss;
		losses_end = &loss->next;
		pthread_cond_signal(&lost_some);
	} else {
		snprintf(last, sizeof last, "%s", line);
		has_answer = true;
		pthread_cond_signal(&came);
	}
	pthread_mutex_unlock(&lock);
}

static void *read_lines(void *unused)
{
	char line[ANSWER_BYTES];
	while (fgets(line, sizeof line, input) && strchr(line, '\n')) {
		line[strcspn(line, "\n")] = 0;
		put_line(line);
	}
	end();
	return unused;
}

static void *tell_losses(void *unused)
{
	char mode[16], object[NAME_BYTES + 1];
	for (;;) {
		pthread_mutex_lock(&lock);
		while (!losses)
			pthread_cond_wait(&lost_some, &lock);
		struct loss *loss = losses;
		losses = loss->next;
		if (!losses)
			losses_end = &losses;
		pthread_mutex_unlock(&lock);
		if (sscanf(loss->line, "! lost %*s %15s %32s", mode, object) == 2)
			when_lost(mode, object);
		wire_tell("ack\n");
		free(loss);
	}
	return unused;
}

void wire_start(void (*lost)(const char *mode, const char *object))
{
	pthread_t reader, teller;
	when_lost = lost;
	if (pthread_create(&reader, NULL, read_lines, NULL) != 0 || pthread_create(&teller, NULL, tell_losses, NULL) != 0)
		end();
}

/* Sends a line that has no answer: a note, or that a loss was dealt with. */
void wire_tell(const char *line)
{
	size_t length = strlen(line);
	if (send(sock, line, length, MSG_NOSIGNAL) != (ssize_t)length)
		end();
}

/* Asks, and waits for the answer; false where there is none, and never will be. */
bool wire_ask(const char *line, char answer[ANSWER_BYTES])
{
	struct timespec until;
	clock_gettime(CLOCK_REALTIME, &until);
	until.tv_sec += PATIENCE;
	pthread_mutex_lock(&asking);
	wire_tell(line);
	pthread_mutex_lock(&lock);
	int waited = 0;
	while (!has_answer && !is_lost && waited == 0)
		waited = pthread_cond_timedwait(&came, &lock, &until);
	bool is_answered = has_answer && !is_lost;
	if (is_answered)
		strcpy(answer, last);
	has_answer = false;
	pthread_mutex_unlock(&lock);
	if (!is_answered)
		end();
	pthread_mutex_unlock(&asking);
	return is_answered;
}
