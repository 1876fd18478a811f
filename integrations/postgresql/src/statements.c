/*
 * Statements other than queries. Those that leave nothing for others to see are named here; any other needs append on
 * the catalog's container.
 */
#include "mls.h"
#include "catalog/namespace.h"
#include "catalog/pg_class.h"
#include "commands/defrem.h"
#include "nodes/parsenodes.h"
#include "storage/lockdefs.h"
#include "tcop/cmdtag.h"
#include "tcop/utility.h"
#include "utils/lsyscache.h"

static ProcessUtility_hook_type next_utility = NULL;
static bool is_copying = false;
static bool is_explaining = false;

/* Whether a query runs whose rows outlive its transaction without a label. */
bool
statement_is_copying(void)
{
	return is_copying;
}

/* Sets that, and returns what it was. */
bool
statement_copies(bool is_so)
{
	bool		was = is_copying;

	is_copying = is_so;
	return was;
}

bool
statement_is_explaining(void)
{
	return is_explaining;
}

static Node *
explained(Node *statement)
{
	Node	   *query = ((ExplainStmt *) statement)->query;

	return IsA(query, Query) ? ((Query *) query)->utilityStmt : NULL;
}

static bool
copies(Node *statement)
{
	if (statement == NULL)
		return false;
	switch (nodeTag(statement))
	{
		case T_CreateTableAsStmt:
		case T_RefreshMatViewStmt:
			return true;
		case T_DeclareCursorStmt:
			return (((DeclareCursorStmt *) statement)->options & CURSOR_OPT_HOLD) != 0;
		case T_ExplainStmt:
			return copies(explained(statement));
		default:
			return false;
	}
}

static bool
sets_application_name(VariableSetStmt *set)
{
	return set->name != NULL && strcmp(set->name, "application_name") == 0;
}

static bool
leaves_nothing(Node *statement)
{
	switch (nodeTag(statement))
	{
		case T_TransactionStmt:
			{
				TransactionStmtKind kind = ((TransactionStmt *) statement)->kind;

				return kind != TRANS_STMT_PREPARE && kind != TRANS_STMT_COMMIT_PREPARED &&
					kind != TRANS_STMT_ROLLBACK_PREPARED;
			}
		case T_VariableSetStmt:
			return !sets_application_name((VariableSetStmt *) statement);
		case T_CopyStmt:
			return !((CopyStmt *) statement)->is_from && ((CopyStmt *) statement)->filename == NULL;
		case T_ExplainStmt:
			return explained(statement) == NULL || leaves_nothing(explained(statement));
		case T_LockStmt:
			return ((LockStmt *) statement)->mode == AccessShareLock;
		case T_CallStmt:
		case T_ClosePortalStmt:
		case T_ConstraintsSetStmt:
		case T_DeallocateStmt:
		case T_DeclareCursorStmt:
		case T_DiscardStmt:
		case T_DoStmt:
		case T_ExecuteStmt:
		case T_FetchStmt:
		case T_ListenStmt:
		case T_PrepareStmt:
		case T_UnlistenStmt:
		case T_VariableShowStmt:
			return true;
		default:
			return false;
	}
}

static bool
discards_all(Node *statement)
{
	return IsA(statement, DiscardStmt) && ((DiscardStmt *) statement)->target == DISCARD_ALL;
}

/* Whether an option of a statement is on; where it isn't named, what it is then. */
bool
option_is_on(List *options, const char *name, bool otherwise)
{
	ListCell   *cell;

	foreach(cell, options)
		if (strcmp(((DefElem *) lfirst(cell))->defname, name) == 0)
			otherwise = defGetBoolean(lfirst(cell));
	return otherwise;
}

/* How many pages of any table a plan found in the cache, or put into the log whole, tells which ones others read. */
static void
look_at_explained(ExplainStmt *explain)
{
	bool		counts = PG_VERSION_NUM >= 180000 && option_is_on(explain->options, "analyze", false);
	bool		buffers = option_is_on(explain->options, "buffers", counts);

	if ((buffers || option_is_on(explain->options, "wal", false)) && !mls_explain && guard_is_on())
		ereport(ERROR, (errcode(ERRCODE_INSUFFICIENT_PRIVILEGE),
						errmsg("mls: EXPLAIN (%s) would tell what other sessions read", buffers ? "BUFFERS" : "WAL"),
						errhint("A superuser may set mls.explain.")));
}

static bool
is_temporary(RangeVar *table)
{
	Oid			found = RangeVarGetRelid(table, NoLock, true);

	return OidIsValid(found) && get_rel_persistence(found) == RELPERSISTENCE_TEMP;
}

static bool
drops_temporary(DropStmt *drop)
{
	ListCell   *cell;

	if (drop->removeType != OBJECT_TABLE)
		return false;
	foreach(cell, drop->objects)
		if (!is_temporary(makeRangeVarFromNameList(lfirst(cell))))
			return false;
	return true;
}

/* Whether it is what REFRESH .. CONCURRENTLY does by statements of its own, to tables that are the session's alone. */
static bool
is_of_refresh(Node *statement)
{
	return IsA(statement, VacuumStmt) || (IsA(statement, DropStmt) && drops_temporary((DropStmt *) statement)) ||
		(IsA(statement, AlterTableStmt) && is_temporary(((AlterTableStmt *) statement)->relation));
}

static void
look_at(Node *statement)
{
	if (IsA(statement, ExplainStmt))
		look_at_explained((ExplainStmt *) statement);
	if (leaves_nothing(statement))
		return;
	if (guard_is_with_owner() && !is_of_refresh(statement))
		ereport(ERROR, (errcode(ERRCODE_INSUFFICIENT_PRIVILEGE),
						errmsg("mls: no %s where the server runs an owner's function",
							   GetCommandTagName(CreateCommandTag(statement)))));
	if (!guard_is_on())
		return;
	guard_must_append(GetCommandTagName(CreateCommandTag(statement)));
	protection_stays(statement);
}

static void
on_utility(PlannedStmt *statement, const char *text, bool is_read_only, ProcessUtilityContext context,
		   ParamListInfo params, QueryEnvironment *environment, DestReceiver *dest, QueryCompletion *done)
{
	ProcessUtility_hook_type next = next_utility != NULL ? next_utility : standard_ProcessUtility;
	bool		was_copying = is_copying;
	bool		was_explaining = is_explaining;

	look_at(statement->utilityStmt);
	if (!copies(statement->utilityStmt) && !IsA(statement->utilityStmt, ExplainStmt))
	{
		next(statement, text, is_read_only, context, params, environment, dest, done);
		if (discards_all(statement->utilityStmt))
			session_discarded();
		return;
	}
	is_copying |= copies(statement->utilityStmt);
	is_explaining |= IsA(statement->utilityStmt, ExplainStmt);
	PG_TRY();
	{
		next(statement, text, is_read_only, context, params, environment, dest, done);
	}
	PG_FINALLY();
	{
		is_copying = was_copying;
		is_explaining = was_explaining;
	}
	PG_END_TRY();
}

void
statements_start(void)
{
	next_utility = ProcessUtility_hook;
	ProcessUtility_hook = on_utility;
}
