/* The level that the session has, as mlsd tells it, and which containers are at it. */
#include "mlsfs.h"
#include <pthread.h>

#define LINE_BYTES 512
#define LABEL_BYTES 120

enum whether { UNASKED, AT_LEVEL, ELSEWHERE };

static char level[LABEL_BYTES], labels[2 * LABEL_BYTES + 32];   /* the latter as mlsd tells those of a container */
static enum whether places[CONTAINERS];
static pthread_mutex_t lock = PTHREAD_MUTEX_INITIALIZER;

/* The level has changed: what is known of it is asked anew. */
void level_changed(void)
{
	pthread_mutex_lock(&lock);
	level[0] = 0;
	memset(places, 0, sizeof places);
	pthread_mutex_unlock(&lock);
}

/* Asks for the session's labels, where they aren't known; the lock is held. */
static bool is_known(void)
{
	char line[LINE_BYTES], answer[ANSWER_BYTES], integrity[LABEL_BYTES];
	if (level[0])
		return true;
	snprintf(line, sizeof line, "labels subject %s\n", monitor_subject());
	if (!wire_ask(line, answer) || sscanf(answer, "maximum %*s current %119s integrity %119s", level, integrity) != 2) {
		level[0] = 0;
		return false;
	}
	snprintf(labels, sizeof labels, "security %s integrity %s", level, integrity);
	return true;
}

/* Whether a container has the labels that the session has now. */
bool monitor_is_level(int container)
{
	char line[LINE_BYTES], answer[ANSWER_BYTES];
	if (container == CONTAINER_NONE)
		return false;
	pthread_mutex_lock(&lock);
	snprintf(line, sizeof line, "labels object %s\n", label_name(container));
	if (places[container] == UNASKED && is_known() && wire_ask(line, answer))
		places[container] = strcmp(answer, labels) == 0 ? AT_LEVEL : ELSEWHERE;
	bool is_level = places[container] == AT_LEVEL;
	pthread_mutex_unlock(&lock);
	return is_level;
}

/* Who the session is, and its level. */
void monitor_describe(char *text, size_t size)
{
	pthread_mutex_lock(&lock);
	snprintf(text, size, "%s %s\n", monitor_subject(), is_known() ? level : "unknown");
	pthread_mutex_unlock(&lock);
}
