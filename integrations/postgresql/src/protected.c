/*
 * Which tables are protected: row security is on and forced, and restrictive policies for all roles call the
 * functions of the extension on the column `label`. A policy's name says nothing, since anybody may choose it.
 */
#include "mls.h"
#include "access/relation.h"
#include "catalog/pg_type.h"
#include "nodes/primnodes.h"
#include "parser/parse_func.h"
#include "rewrite/rowsecurity.h"
#include "utils/acl.h"
#include "utils/array.h"
#include "utils/inval.h"
#include "utils/lsyscache.h"
#include "utils/rel.h"
#include "utils/syscache.h"

typedef enum Function
{
	NO_FUNCTION,
	MAY_READ,
	MAY_WRITE,
	MUST_APPEND,
	MUST_WRITE,
	FUNCTIONS
} Function;

static const char *const function_name[FUNCTIONS] = {NULL, "may_read", "may_write", "must_append", "must_write"};
static Oid	functions[FUNCTIONS];	/* of this database */
static bool is_looked_up = false;

/* A command, and what its policy calls. */
static const struct
{
	char		command;
	Function	using;
	Function	check;
}			due[] = {
	{ACL_SELECT_CHR, MAY_READ, NO_FUNCTION},
	{ACL_INSERT_CHR, NO_FUNCTION, MUST_APPEND},
	{ACL_UPDATE_CHR, MAY_WRITE, MUST_WRITE},
	{ACL_DELETE_CHR, MAY_WRITE, NO_FUNCTION},
};

static void
forget(Datum arg, int cache, uint32 hash)
{
	is_looked_up = false;
}

static void
look_up(void)
{
	static bool is_told = false;
	Oid			argument = TEXTOID;

	if (!is_told)
	{
		CacheRegisterSyscacheCallback(PROCOID, forget, (Datum) 0);
		CacheRegisterSyscacheCallback(NAMESPACEOID, forget, (Datum) 0);
		is_told = true;
	}
	for (int k = MAY_READ; k < FUNCTIONS; k++)
	{
		List	   *name = list_make2(makeString("mls"), makeString(pstrdup(function_name[k])));

		functions[k] = LookupFuncName(name, 1, &argument, true);
	}
	is_looked_up = true;
}

/* Whether the extension is in this database. */
bool
is_created(void)
{
	if (!is_looked_up)
		look_up();
	return OidIsValid(functions[MAY_READ]);
}

/* Whether an expression is the call of a function on a column, and nothing else. */
static bool
calls(Expr *expr, Function function, AttrNumber column)
{
	FuncExpr   *call = (FuncExpr *) expr;
	Node	   *argument;

	if (function == NO_FUNCTION)
		return true;
	if (expr == NULL || !IsA(expr, FuncExpr) || call->funcid != functions[function])
		return false;
	argument = linitial(call->args);
	if (IsA(argument, RelabelType))
		argument = (Node *) ((RelabelType *) argument)->arg;
	return IsA(argument, Var) && ((Var *) argument)->varattno == column;
}

static bool
is_for_all(const RowSecurityPolicy *policy)
{
	Oid		   *roles = (Oid *) ((char *) policy->roles + ARR_OVERHEAD_NONULLS(1));

	return ARR_DIMS(policy->roles)[0] == 1 && roles[0] == ACL_ID_PUBLIC;
}

static bool
has_policy(Relation rel, int k, AttrNumber column)
{
	ListCell   *cell;

	foreach(cell, rel->rd_rsdesc->policies)
	{
		RowSecurityPolicy *policy = lfirst(cell);

		if (policy->polcmd == due[k].command && !policy->permissive && is_for_all(policy) &&
			calls(policy->qual, due[k].using, column) && calls(policy->with_check_qual, due[k].check, column))
			return true;
	}
	return false;
}

/* Whether two labels are equal only where they are the same text, in keys too. */
static bool
tells_labels_apart(Relation rel, AttrNumber column)
{
	Oid			collation = TupleDescAttr(RelationGetDescr(rel), column - 1)->attcollation;

	return !OidIsValid(collation) || get_collation_isdeterministic(collation);
}

bool
is_protected(Relation rel)
{
	AttrNumber	column;

	if (!is_created() || !rel->rd_rel->relrowsecurity || !rel->rd_rel->relforcerowsecurity || rel->rd_rsdesc == NULL)
		return false;
	column = get_attnum(RelationGetRelid(rel), "label");
	for (size_t k = 0; k < lengthof(due); k++)
		if (column == InvalidAttrNumber || !has_policy(rel, (int) k, column))
			return false;
	return tells_labels_apart(rel, column);
}

/* The same of a table that may not be open, nor be there. */
bool
is_protected_oid(Oid table)
{
	Relation	rel = try_relation_open(table, AccessShareLock);
	bool		is_so;

	if (rel == NULL)
		return false;
	is_so = is_protected(rel);
	relation_close(rel, AccessShareLock);
	return is_so;
}
