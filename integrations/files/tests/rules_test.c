/*
 * Each row of the table of operations, by askers at two levels and a trusted one over a monitor in miniature: what is
 * shown, that what is taken is let go, and that a fault is never a yes. Prints a line for each row.
 */
#include "../src/rules.h"
#include <errno.h>
#include <stdio.h>

enum { LOW, HIGH, CONTAINERS };
enum who { AT_LOW, AT_HIGH, TRUSTED, BROKEN, WHO };

struct session { enum who who; int held[MODES][CONTAINERS]; };

static int take(void *session, enum mode mode, int container)
{
	struct session *s = session;
	if (s->who == BROKEN)
		return EIO;
	int level = s->who == AT_LOW ? LOW : HIGH;
	bool is_right = s->who == TRUSTED || (mode == READ ? level >= container : level <= container);
	s->held[mode][container] += is_right;
	return is_right ? 0 : EACCES;
}

static void drop(void *session, enum mode mode, int container) { ((struct session *)session)->held[mode][container]--; }

static int may_stand(void *session, int folder, int container)
{
	return ((struct session *)session)->who == BROKEN ? EIO : container >= folder ? 0 : EACCES;
}

/* An operation over files of these labels, and what each asker is shown; NO is EACCES, GONE is ENOENT. */
#define NO EACCES
#define GONE ENOENT
struct row { enum operation operation; int container[PLACES]; int shown[3]; };
#define ON(file) {file, LOW, LOW, LOW, LOW}
#define X CONTAINER_NONE

static const struct row rows[] = {
	{LOOK_UP, {LOW, LOW}, {0, 0, 0}}, {LOOK_UP, {HIGH, LOW}, {GONE, 0, 0}}, {LOOK_UP, {HIGH, HIGH}, {NO, 0, 0}},
	{LOOK_UP, {X, LOW}, {GONE, GONE, GONE}}, {LOOK_UP, {LOW, X}, {NO, NO, NO}},
	{LIST, ON(LOW), {0, 0, 0}}, {LIST, ON(HIGH), {GONE, 0, 0}}, {LIST, ON(X), {GONE, GONE, GONE}},
	{SHOW, ON(LOW), {0, 0, 0}}, {SHOW, ON(HIGH), {NO, 0, 0}}, {SHOW, ON(X), {NO, NO, NO}},
	{READ_LINK, ON(LOW), {0, 0, 0}}, {READ_LINK, ON(HIGH), {NO, 0, 0}},
	{LIST_FOLDER, ON(LOW), {0, 0, 0}}, {LIST_FOLDER, ON(HIGH), {NO, 0, 0}},
	{OPEN_TO_READ, ON(LOW), {0, 0, 0}}, {OPEN_TO_READ, ON(HIGH), {NO, 0, 0}}, {OPEN_TO_READ, ON(X), {NO, NO, NO}},
	{OPEN_TO_WRITE, ON(LOW), {0, NO, 0}}, {OPEN_TO_WRITE, ON(HIGH), {NO, 0, 0}}, {OPEN_TO_WRITE, ON(X), {NO, NO, NO}},
	{READ_DATA, ON(LOW), {0, 0, 0}}, {READ_DATA, ON(HIGH), {NO, 0, 0}},
	{WRITE_DATA, ON(LOW), {0, NO, 0}}, {WRITE_DATA, ON(HIGH), {NO, 0, 0}},
	{CHANGE, ON(LOW), {0, NO, 0}}, {CHANGE, ON(HIGH), {NO, 0, 0}}, {CHANGE, ON(X), {NO, NO, NO}},
	{MAKE, {X, LOW}, {0, NO, 0}}, {MAKE, {X, HIGH}, {NO, 0, 0}}, {MAKE, {X, X}, {NO, NO, NO}},
	{REMOVE, {LOW, LOW}, {0, NO, 0}}, {REMOVE, {HIGH, LOW}, {GONE, NO, 0}}, {REMOVE, {HIGH, HIGH}, {NO, 0, 0}},
	{REMOVE, {X, LOW}, {GONE, NO, GONE}},
	{RENAME, {LOW, LOW, LOW}, {0, NO, 0}}, {RENAME, {HIGH, LOW, LOW}, {GONE, NO, 0}},
	{RENAME, {HIGH, HIGH, LOW}, {NO, NO, 0}}, {RENAME, {LOW, LOW, HIGH}, {NO, NO, NO}},
	{RENAME, {HIGH, HIGH, HIGH}, {NO, 0, 0}},
	{RENAME_OVER, {LOW, LOW, LOW, LOW}, {0, NO, 0}}, {RENAME_OVER, {LOW, LOW, LOW, HIGH}, {NO, NO, 0}},
	{RENAME_OVER, {HIGH, HIGH, HIGH, HIGH}, {NO, 0, 0}}, {RENAME_OVER, {LOW, LOW, LOW, X}, {NO, NO, NO}},
	{EXCHANGE, {LOW, LOW, LOW, LOW}, {0, NO, 0}}, {EXCHANGE, {HIGH, HIGH, HIGH, LOW}, {NO, NO, NO}},
	{EXCHANGE, {HIGH, HIGH, HIGH, HIGH}, {NO, 0, 0}}, {EXCHANGE, {HIGH, LOW, LOW, LOW}, {GONE, NO, 0}},
	{LINK, {LOW, X, LOW}, {0, NO, 0}}, {LINK, {HIGH, X, LOW}, {NO, NO, 0}}, {LINK, {LOW, X, HIGH}, {NO, NO, NO}},
	{LINK, {HIGH, X, HIGH}, {NO, 0, 0}},
	{LOCK, ON(LOW), {0, NO, 0}}, {LOCK, ON(HIGH), {NO, 0, 0}},
	{RELABEL, {LOW, LOW, X, X, HIGH}, {0, NO, 0}}, {RELABEL, {HIGH, LOW, X, X, LOW}, {NO, NO, 0}},
	{RELABEL, {HIGH, HIGH, X, X, LOW}, {NO, NO, NO}}, {RELABEL, {LOW, LOW, X, X, X}, {NO, NO, NO}},
	{MAKE_SPECIAL, {X, LOW}, {EPERM, EPERM, EPERM}}, {CHANGE_ACL, ON(LOW), {EOPNOTSUPP, EOPNOTSUPP, EOPNOTSUPP}},
	{ROOM, ON(X), {0, 0, 0}},
};

static bool is_empty(const struct session *s)
{
	for (int k = 0; k < MODES * CONTAINERS; k++)
		if (s->held[k / CONTAINERS][k % CONTAINERS] != 0)
			return false;
	return true;
}

/* What an asker is shown; -1 where accesses are left that nothing holds. */
static int shown_to(enum who who, const struct row *row)
{
	struct session s = {.who = who};
	const struct asker asker = {take, drop, may_stand, &s};
	int error = rules_begin(row->operation, row->container, &asker);
	if (error == 0)
		rules_end(row->operation, row->container, &asker);
	return is_empty(&s) ? error : -1;
}

static bool is_fit(const struct row *row)
{
	for (enum who who = AT_LOW; who <= TRUSTED; who++)
		if (shown_to(who, row) != row->shown[who])
			return false;
	int broken = shown_to(BROKEN, row);
	return broken != 0 || row->operation == ROOM;
}

int main(void)
{
	int failed = 0, tried[OPERATIONS] = {0};
	const int count = sizeof rows / sizeof *rows;
	for (int k = 0; k < count; k++) {
		bool is_right = is_fit(&rows[k]);
		tried[rows[k].operation]++;
		failed += !is_right;
		if (!is_right)
			printf("rules: row %d, %s: FAILED: %d %d %d\n", k, rules_name(rows[k].operation),
				shown_to(AT_LOW, &rows[k]), shown_to(AT_HIGH, &rows[k]), shown_to(TRUSTED, &rows[k]));
	}
	for (int k = 0; k < OPERATIONS; k++) {
		bool keeps = k == OPEN_TO_READ || k == OPEN_TO_WRITE;
		enum descriptors wanted = keeps ? KEEP : k == RELABEL ? DECIDED_ANEW : STAY;
		bool is_right = tried[k] > 0 && rules_descriptors(k) == wanted;
		failed += !is_right;
		printf("rules: %s: %s\n", rules_name(k), is_right ? "ok" : "FAILED");
	}
	printf("%d rows\n", count);
	return failed != 0;
}
