/*
 * Queries and tables: a table without protection counts as the catalog's container where it is written or its rows are
 * locked, and rows of a protected table are not copied to where they have no label, nor counted by EXPLAIN.
 */
#include "mls.h"
#include "access/parallel.h"
#include "access/xact.h"
#include "executor/executor.h"
#include "nodes/nodeFuncs.h"
#include "nodes/plannodes.h"
#include "optimizer/planner.h"
#include "parser/parsetree.h"
#include "tcop/tcopprot.h"
#include "utils/guc.h"
#include "utils/lsyscache.h"

static ExecutorStart_hook_type next_start = NULL;
static planner_hook_type next_planner = NULL;

static void
look_at_written(PlannedStmt *plan)
{
	ListCell   *cell;

	foreach(cell, plan->resultRelations)
	{
		RangeTblEntry *entry = rt_fetch(lfirst_int(cell), plan->rtable);

		if (!is_protected_oid(entry->relid))
			guard_must_append("write a table without protection");
	}
}

/* A lock stays in the row, for all to see. Rows of a protected table are filtered by its policy for UPDATE. */
static void
look_at_locked(PlannedStmt *plan)
{
	ListCell   *cell;

	foreach(cell, plan->rowMarks)
	{
		PlanRowMark *mark = lfirst(cell);
		RangeTblEntry *entry = rt_fetch(mark->rti, plan->rtable);

		if (RowMarkRequiresRowShareLock(mark->markType) && entry->rtekind == RTE_RELATION &&
			!is_protected_oid(entry->relid))
			guard_must_append("lock rows of a table without protection");
	}
}

/* The first protected table of a plan, or none. */
static Oid
protected_of(PlannedStmt *plan)
{
	ListCell   *cell;

	foreach(cell, plan->rtable)
	{
		RangeTblEntry *entry = lfirst(cell);

		if (entry->rtekind == RTE_RELATION && is_protected_oid(entry->relid))
			return entry->relid;
	}
	return InvalidOid;
}

static void
look_at_copied(PlannedStmt *plan)
{
	Oid			table = protected_of(plan);

	if (OidIsValid(table))
		ereport(ERROR, (errcode(ERRCODE_INSUFFICIENT_PRIVILEGE),
						errmsg("mls: rows of %s would be copied without their labels", get_rel_name(table)),
						errhint("Create a table, CALL mls.protect on it, and then INSERT INTO it.")));
}

/* Estimates and counts of rows are made of hidden rows too. */
static void
look_at_explained(PlannedStmt *plan)
{
	Oid			table = protected_of(plan);

	if (OidIsValid(table))
		ereport(ERROR, (errcode(ERRCODE_INSUFFICIENT_PRIVILEGE),
						errmsg("mls: a plan over %s would tell of hidden rows", get_rel_name(table)),
						errhint("A superuser may set mls.explain.")));
}

/* ON CONFLICT DO UPDATE locks the row that is there, whatever its label, before a policy is asked. */
static void
look_at_conflicts(Plan *plan)
{
	ListCell   *cell;

	if (!IsA(plan, ModifyTable) || ((ModifyTable *) plan)->onConflictAction != ONCONFLICT_UPDATE)
		return;
	foreach(cell, ((ModifyTable *) plan)->arbiterIndexes)
		if (!key_has_label(lfirst_oid(cell)))
			guard_must_append("update on a conflict of a key without label");
}

static bool
takes_next(Node *node, void *context)
{
	return node != NULL && (IsA(node, NextValueExpr) || expression_tree_walker(node, takes_next, context));
}

/* Whether a plan takes the next value of an identity column, which calls no function. */
static bool
plan_takes_next(Plan *plan)
{
	ListCell   *cell;

	if (plan == NULL)
		return false;
	if (takes_next((Node *) plan->targetlist, NULL))
		return true;
	if (IsA(plan, ModifyTable) && (takes_next((Node *) ((ModifyTable *) plan)->mergeActionLists, NULL) ||
								   takes_next((Node *) ((ModifyTable *) plan)->onConflictSet, NULL)))
		return true;
	if (IsA(plan, ValuesScan) && takes_next((Node *) ((ValuesScan *) plan)->values_lists, NULL))
		return true;
	if (IsA(plan, SubqueryScan) && plan_takes_next(((SubqueryScan *) plan)->subplan))
		return true;
	if (IsA(plan, Append))
		foreach(cell, ((Append *) plan)->appendplans)
			if (plan_takes_next(lfirst(cell)))
				return true;
	return plan_takes_next(plan->lefttree) || plan_takes_next(plan->righttree);
}

static void
look_at_counted(PlannedStmt *plan)
{
	bool		takes = plan_takes_next(plan->planTree);
	ListCell   *cell;

	foreach(cell, plan->subplans)
		takes |= plan_takes_next(lfirst(cell));
	if (takes)
		guard_must_append("take the next number of a sequence");
}

static void
look_at_run(PlannedStmt *plan)
{
	ListCell   *cell;

	look_at_written(plan);
	look_at_conflicts(plan->planTree);
	foreach(cell, plan->subplans)
		if (lfirst(cell) != NULL)
			look_at_conflicts(lfirst(cell));
	look_at_locked(plan);
	if (plan->resultRelations != NIL && !mls_nextval_up)
		look_at_counted(plan);
	if (statement_is_copying())
		look_at_copied(plan);
	/* what it reads may have a transaction below it fail */
	if (IsolationIsSerializable())
		guard_must_append("run a SERIALIZABLE transaction");
}

static void
on_start(QueryDesc *query, int flags)
{
	PlannedStmt *plan = query->plannedstmt;
	/* (what is run in a worker was looked at in the session) */
	bool		is_run = (flags & EXEC_FLAG_EXPLAIN_ONLY) == 0 && !IsParallelWorker();
	bool		is_told = statement_is_explaining() && !mls_explain;
	bool		leaves = plan->resultRelations != NIL || plan->rowMarks != NIL || statement_is_copying() ||
	IsolationIsSerializable();

	if (is_run && leaves && guard_is_on())
		look_at_run(plan);
	if (is_told && guard_is_on())
		look_at_explained(plan);
	if (next_start != NULL)
		next_start(query, flags);
	else
		standard_ExecutorStart(query, flags);
}

/* No worker is used, and no plan is printed with its estimates, as a user may ask. */
static PlannedStmt *
on_plan(Query *query, const char *text, int options, ParamListInfo params)
{
	planner_hook_type next = next_planner != NULL ? next_planner : standard_planner;
	PlannedStmt *plan;
	int			context = key_query_begins();

	/* (how many workers are free tells what others do) */
	if (!mls_parallel && (options & CURSOR_OPT_PARALLEL_OK) != 0 && guard_is_on())
		options &= ~CURSOR_OPT_PARALLEL_OK;
	plan = next(query, text, options, params);
	key_query_ends(context);
	if (Debug_print_plan && !mls_explain && guard_is_on())
		look_at_explained(plan);
	return plan;
}

void
tables_start(void)
{
	next_start = ExecutorStart_hook;
	ExecutorStart_hook = on_start;
	next_planner = planner_hook;
	planner_hook = on_plan;
}
