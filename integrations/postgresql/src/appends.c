/*
 * Appends to a container that the session may not read. Where a table has a unique or exclusion constraint or a foreign
 * key, such an append would tell of hidden rows, by going well or not; so it is refused, unless mls.append_up is on.
 */
#include "mls.h"
#include "executor/executor.h"
#include "nodes/execnodes.h"
#include "tcop/pquery.h"
#include "utils/rel.h"

/* The queries that run, each inside the one before it: policies belong to the innermost. */
typedef struct Run
{
	QueryDesc  *query;
	struct Run *outer;
} Run;

static Run *innermost = NULL;
static ExecutorRun_hook_type next_run = NULL;
static ExecutorFinish_hook_type next_finish = NULL;

static bool
tells(ResultRelInfo *table)
{
	for (int k = 0; k < table->ri_NumIndices; k++)
		if (table->ri_IndexRelationInfo[k]->ii_Unique || table->ri_IndexRelationInfo[k]->ii_ExclusionOps != NULL)
			return true;
	return RelationGetFKeyList(table->ri_RelationDesc) != NIL;
}

static bool
any_tells(List *tables)
{
	ListCell   *cell;

	foreach(cell, tables)
		if (tells(lfirst(cell)))
			return true;
	return false;
}

/* Whether a row that is added now may meet rows that are there. */
bool
append_meets_keys(void)
{
	EState	   *state = innermost == NULL ? NULL : innermost->query->estate;

	return state != NULL &&
		(any_tells(state->es_opened_result_relations) || any_tells(state->es_tuple_routing_result_relations));
}

/* Of a cursor WITH HOLD, whose rows outlive the transaction, also when they are taken at its end. */
static bool
is_held(const QueryDesc *query)
{
	return ActivePortal != NULL && (ActivePortal->cursorOptions & CURSOR_OPT_HOLD) != 0 &&
		ActivePortal->queryDesc == query;
}

static void
on_run(QueryDesc *query, ScanDirection direction, uint64 count, bool is_once)
{
	Run			run = {query, innermost};
	bool		was_copying = statement_copies(statement_is_copying() || is_held(query));
	int			context = key_query_begins();

	innermost = &run;
	PG_TRY();
	{
		if (next_run != NULL)
			next_run(query, direction, count, is_once);
		else
			standard_ExecutorRun(query, direction, count, is_once);
	}
	PG_FINALLY();
	{
		innermost = run.outer;
		statement_copies(was_copying);
	}
	PG_END_TRY();
	key_query_ends(context);
}

/* A query WITH an INSERT that nothing reads runs it here. */
static void
on_finish(QueryDesc *query)
{
	Run			run = {query, innermost};

	innermost = &run;
	PG_TRY();
	{
		if (next_finish != NULL)
			next_finish(query);
		else
			standard_ExecutorFinish(query);
	}
	PG_FINALLY();
	{
		innermost = run.outer;
	}
	PG_END_TRY();
}

void
appends_start(void)
{
	next_run = ExecutorRun_hook;
	ExecutorRun_hook = on_run;
	next_finish = ExecutorFinish_hook;
	ExecutorFinish_hook = on_finish;
}
