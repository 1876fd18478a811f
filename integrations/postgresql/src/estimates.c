/*
 * What plans are made of. The statistics of a protected table are those of its hidden rows too, and the order of rows
 * and counters show which plan was made, without EXPLAIN. So a user's plans have none, unless mls.statistics is on.
 */
#include "mls.h"
#include "catalog/index.h"
#include "nodes/parsenodes.h"
#include "optimizer/plancat.h"
#include "utils/lsyscache.h"
#include "utils/selfuncs.h"

static get_relation_stats_hook_type next_statistics = NULL;
static get_index_stats_hook_type next_of_index = NULL;
static get_attavgwidth_hook_type next_width = NULL;
static get_relation_info_hook_type next_info = NULL;

static bool
is_hidden(Oid table)
{
	return !mls_statistics && OidIsValid(table) && guard_is_on() && is_protected_oid(table);
}

/* There is no row of statistics. */
static bool
none(VariableStatData *found)
{
	found->statsTuple = NULL;
	found->freefunc = NULL;
	return true;
}

static bool
on_statistics(PlannerInfo *root, RangeTblEntry *entry, AttrNumber column, VariableStatData *found)
{
	if (entry->rtekind == RTE_RELATION && is_hidden(entry->relid))
		return none(found);
	return next_statistics != NULL && next_statistics(root, entry, column, found);
}

static bool
on_index(PlannerInfo *root, Oid index, AttrNumber column, VariableStatData *found)
{
	if (is_hidden(IndexGetRelation(index, true)))
		return none(found);
	return next_of_index != NULL && next_of_index(root, index, column, found);
}

/* How many bytes a value has: of a hidden table, what its type says. */
static int32
on_width(Oid table, AttrNumber column)
{
	Oid			type;
	int32		modifier;
	Oid			collation;

	if (!is_hidden(table))
		return next_width == NULL ? 0 : next_width(table, column);
	get_atttypetypmodcoll(table, column, &type, &modifier, &collation);
	return get_typavgwidth(type, modifier);
}

/* Statistics of several columns, and of expressions. */
static void
on_info(PlannerInfo *root, Oid table, bool is_parent, RelOptInfo *relation)
{
	if (relation->statlist != NIL && is_hidden(table))
		relation->statlist = NIL;
	if (next_info != NULL)
		next_info(root, table, is_parent, relation);
}

void
estimates_start(void)
{
	next_statistics = get_relation_stats_hook;
	get_relation_stats_hook = on_statistics;
	next_of_index = get_index_stats_hook;
	get_index_stats_hook = on_index;
	next_width = get_attavgwidth_hook;
	get_attavgwidth_hook = on_width;
	next_info = get_relation_info_hook;
	get_relation_info_hook = on_info;
}
