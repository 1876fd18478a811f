/*
 * The monitor's answers. The first touch of a container in a mode asks for the access; the answer holds for the
 * transaction, and at its end the access is released. Whatever goes wrong is an error, never a yes.
 */
#include "mls.h"
#include "access/parallel.h"
#include "access/xact.h"
#include "utils/timestamp.h"

const char *const mode_name[MODES] = {"read", "append", "write"};

/* Asks a line on a container, and reads the answer. Before it stands a note, where it makes an entry. */
static void
ask_about(const Container *c, const char *before, const char *deed, AccessMode mode, char *answer)
{
	char		line[LINE_MAX_BYTES];

	snprintf(line, sizeof line, "%s%s %s%s %.*s\n", before, subject_held(), deed, mode_name[mode], NAME_BYTES,
			 c->name);
	wire_ask(line, answer);
}

static bool
is_denial(const char *answer)
{
	return strncmp(answer, "no ", 3) == 0 || strcmp(answer, "undefined") == 0;
}

static Known
denied(Container *c, AccessMode mode, const char *answer)
{
	container_touch(c);
	strlcpy(c->reason[mode], answer, sizeof c->reason[mode]);
	return c->known[mode] = KNOWN_NO;
}

static bool
is_of_question(const char *answer)
{
	return strncmp(answer, "? ", 2) == 0;
}

/* Whatever else the monitor answers to a get, or to the question of one: it is told without the mark of a question. */
static void
no_answer(const char *answer)
{
	if (is_of_question(answer))
		answer += 2;
	ereport(ERROR, (errcode(ERRCODE_INSUFFICIENT_PRIVILEGE),
					errmsg("mls: the monitor says %s to %s", answer, subject_held())));
}

/* Whether the session could read a container: that question has no entry and no sync. */
static bool
is_readable_now(const Container *c)
{
	char		answer[ANSWER_MAX];

	ask_about(c, "? ", "get-", MODE_READ, answer);
	if (strcmp(answer, "? yes") == 0)
		return true;
	if (!is_of_question(answer) || !is_denial(answer + 2))
		no_answer(answer);
	return false;
}

static bool
is_seen(const Container *c)
{
	return c->known[MODE_READ] == KNOWN_YES || c->known[MODE_WRITE] == KNOWN_YES;
}

/* The same of one that it may append to, asked once a transaction. */
bool
access_may_read(Container *c)
{
	if (is_seen(c) || c->is_readable)
		return true;
	return c->is_readable = is_readable_now(c);
}

static const Container *into;	/* what is written */

/* Errors where the session may remember a container that it could not read now, since its level fell. What is held in
 * this transaction was decided about, and what goes into the container itself doesn't leave it. */
static void
must_be_readable(Container *c)
{
	if (c == into || (session_holds() && is_seen(c)) || is_readable_now(c))
		return;
	ereport(ERROR, (errcode(ERRCODE_INSUFFICIENT_PRIVILEGE),
					errmsg("mls: %s may not write %.*s: this session worked with %.*s, above its level now",
						   subject_held(), NAME_BYTES, into->name, NAME_BYTES, c->name),
					errhint("Connect anew, or DISCARD ALL, where the session made no setting of a new name.")));
}

/* Nothing that a session remembers is written below it. The access is held already, so the level can't rise again. */
static void
must_not_carry(const Container *c)
{
	into = c;
	containers_each_remembered(must_be_readable);
}

/* Gets an access. It counts as asked for before its line is sent: a cancel must still release it. */
static Known
get(Container *c, AccessMode mode)
{
	char		answer[ANSWER_MAX];

	container_touch(c);
	c->known[mode] = KNOWN_ASKED;
	ask_about(c, subject_note(), "get-", mode, answer);
	if (is_denial(answer))
		return denied(c, mode, answer);
	if (strcmp(answer, "yes") != 0)
		no_answer(answer);
	c->checked = GetCurrentStatementStartTimestamp();
	if (mode != MODE_READ)
		must_not_carry(c);
	if (mode != MODE_APPEND || (!c->is_remembered && access_may_read(c)))
		container_remember(c);
	return c->known[mode] = KNOWN_YES;
}

/* Whether the monitor would deny it: that question has no entry and no sync. */
static bool
is_foreseen(Container *c, AccessMode mode)
{
	char		answer[ANSWER_MAX];

	ask_about(c, "? ", "get-", mode, answer);
	if (strcmp(answer, "? yes") == 0)
		return false;
	if (!is_of_question(answer) || !is_denial(answer + 2))
		no_answer(answer);
	denied(c, mode, answer + 2);
	return true;
}

/* Whether a read is held since an earlier transaction. */
static bool
is_still_kept(Container *c)
{
	TimestampTz now = GetCurrentStatementStartTimestamp();
	char		answer[ANSWER_MAX];

	if (!container_is_kept(c))
		return false;
	if (mls_recheck > 0 && !TimestampDifferenceExceeds(c->checked, now, mls_recheck))
		return true;
	ask_about(c, "", "check ", MODE_READ, answer);
	if (strcmp(answer, "held") != 0)
	{
		container_keep(c, false);
		return false;
	}
	c->checked = now;
	return true;
}

/* What the monitor says to an access, asked at most once a transaction. A filter may only hide a row. */
Known
access_ask(AccessMode mode, Container *c, bool is_filter)
{
	Known		known = c->known[mode];

	if (IsParallelWorker())
		ereport(ERROR, (errcode(ERRCODE_INVALID_TRANSACTION_STATE),
						errmsg("mls: the worker of a parallel query asks nothing"),
						errhint("Is a function PARALLEL SAFE that isn't?")));
	if (guard_is_with_owner())
		ereport(ERROR, (errcode(ERRCODE_INSUFFICIENT_PRIVILEGE),
						errmsg("mls: an owner's function asks nothing where the server runs it")));
	subject_name();
	if (known == KNOWN_NO || (known == KNOWN_YES && session_holds()))
		return known;
	session_reach();
	session_needs_level();
	if (mode == MODE_READ && is_still_kept(c))
	{
		container_touch(c);
		container_remember(c);
		return c->known[mode] = KNOWN_YES;
	}
	if (is_filter && mls_preview && known != KNOWN_ASKED && is_foreseen(c, mode))
		return KNOWN_NO;
	return get(c, mode);
}
