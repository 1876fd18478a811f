/*
 * The session with the monitor: one connection in a transaction, the level at which the subject works, and the end of a
 * transaction, at which its accesses are released. Nothing throws there.
 */
#include "mls.h"
#include "access/xact.h"
#include "utils/fmgrprotos.h"
#include "utils/guc.h"
#include "utils/guc_tables.h"

static uint64 asked_over = 0;	/* the connection over which this transaction asked */
static bool is_level_set = false;	/* by this session, at some time */
static bool is_level_lost = false;	/* with a connection: another one may begin at another level */

/* Whether what this transaction was answered is still held. */
bool
session_holds(void)
{
	return wire_connection != 0 && wire_connection == asked_over;
}

/* Makes sure that there is a connection, and the same in the whole transaction. */
void
session_reach(void)
{
	if (containers_touched() != NULL && !session_holds())
		ereport(ERROR, (errcode(ERRCODE_CONNECTION_FAILURE),
						errmsg("mls: the monitor was lost in this transaction")));
	if (wire_connection == 0)
		is_level_lost |= is_level_set;
	wire_connect();
	asked_over = wire_connection;
}

/* Errors where the session asked for a level, and now works at one that it doesn't know. */
void
session_needs_level(void)
{
	if (is_level_lost)
		ereport(ERROR, (errcode(ERRCODE_CONNECTION_FAILURE),
						errmsg("mls: the monitor was lost, and the session's level with it"),
						errhint("Ask for a level again, with mls.level.")));
}

static void
release(Container *c, AccessMode mode)
{
	char		line[LINE_MAX_BYTES];

	snprintf(line, sizeof line, "%s release %s %.*s\n", subject_held(), mode_name[mode], NAME_BYTES, c->name);
	wire_send_late(line);
}

/* Before a change of level: what is not of this transaction is let go. */
static void
let_go_kept(Container *c)
{
	container_keep(c, false);
	if (!c->is_touched || c->known[MODE_READ] == KNOWN_NOTHING)
		release(c, MODE_READ);
}

/* Changes the current level of the subject, or errors. What was denied before may be granted after it. */
void
session_level(const char *label)
{
	char		line[LINE_MAX_BYTES];
	char		answer[ANSWER_MAX];
	const char *subject = subject_name();

	if (isolation_is_set() && guard_is_on())
		ereport(ERROR, (errcode(ERRCODE_INVALID_TRANSACTION_STATE),
						errmsg("mls: the level stays while transactions are SERIALIZABLE by default"),
						errhint("SET default_transaction_isolation first.")));
	session_reach();
	containers_each_kept(let_go_kept);
	for (Container *c = containers_touched(); c != NULL; c = c->next_touched)
	{
		c->is_readable = false;
		for (int mode = 0; mode < MODES; mode++)
			if (c->known[mode] == KNOWN_NO)
				c->known[mode] = KNOWN_NOTHING;
	}
	snprintf(line, sizeof line, "%s%s level %s\n", subject_note(), subject, label);
	wire_ask(line, answer);
	if (strcmp(answer, "yes") != 0)
		ereport(ERROR, (errcode(ERRCODE_INSUFFICIENT_PRIVILEGE),
						errmsg("mls: %s may not work at %s: %s", subject, label, answer)));
	is_level_set = true;
	is_level_lost = false;
}

/* The session has no level of its own, and holds nothing. It throws nothing. */
void
session_begin_anew(void)
{
	wire_end();
	is_level_set = is_level_lost = false;
}

/* Whether the session made a setting of its own: its name outlives RESET ALL. */
static bool
has_made_setting(void)
{
	int			count;
	struct config_generic **all = all_settings(&count);

	for (int k = 0; k < count; k++)
		if ((all[k]->flags & GUC_CUSTOM_PLACEHOLDER) != 0 && all[k]->reset_source == PGC_S_DEFAULT)
			return true;
	return false;
}

/* After DISCARD ALL it is as a new one, and remembers nothing, unless by names of settings: that leaves them, and the
 * seed of random(). */
void
session_discarded(void)
{
	uint32		seed;

	session_begin_anew();
	if (has_made_setting() || !pg_strong_random(&seed, sizeof seed))
		return;
	DirectFunctionCall1(setseed, Float8GetDatum((double) seed / PG_UINT32_MAX));
	containers_forget();
}

/* The end of a transaction for one container: what it holds is kept or released. */
static void
end_of(Container *c)
{
	c->is_readable = false;
	for (int mode = 0; mode < MODES; mode++)
	{
		Known		was = c->known[mode];

		c->known[mode] = KNOWN_NOTHING;
		if (was == KNOWN_NO || was == KNOWN_NOTHING || !session_holds())
			continue;
		if (mode == MODE_READ)
			container_keep(c, mls_keep && was == KNOWN_YES);
		if (mode != MODE_READ || !container_is_kept(c))
			release(c, mode);
	}
}

static void
at_end(XactEvent event, void *arg)
{
	if (event != XACT_EVENT_COMMIT && event != XACT_EVENT_ABORT && event != XACT_EVENT_PREPARE)
		return;
	for (Container *c = containers_touched(); c != NULL; c = c->next_touched)
		end_of(c);
	containers_untouch();
	subject_ended();
}

void
session_start(void)
{
	RegisterXactCallback(at_end, NULL);
}
