/*
 * Statements that name a protected table. Nobody but a superuser changes it: takes the protection off, puts a table
 * without protection below or above it, or has a function run over its rows. GRANT and REVOKE stay the owner's.
 */
#include "mls.h"
#include "catalog/index.h"
#include "catalog/namespace.h"
#include "catalog/pg_class.h"
#include "nodes/parsenodes.h"
#include "utils/lsyscache.h"

/* The table of a name, or of an index; or none. */
static Oid
named(RangeVar *name)
{
	Oid			found = name == NULL ? InvalidOid : RangeVarGetRelid(name, NoLock, true);
	char		kind = OidIsValid(found) ? get_rel_relkind(found) : '\0';

	if (kind == RELKIND_INDEX || kind == RELKIND_PARTITIONED_INDEX)
		return IndexGetRelation(found, true);
	return found;
}

static void
must_stay(RangeVar *table)
{
	table_must_stay(named(table));
}

static void
must_stand_below(RangeVar *parent)
{
	Oid			table = named(parent);

	if (OidIsValid(table) && is_protected_oid(table))
		ereport(ERROR, (errcode(ERRCODE_INSUFFICIENT_PRIVILEGE),
						errmsg("mls: table %s is protected, and what stands below it must be too", parent->relname),
						errhint("Create a table, CALL mls.protect on it, and let a superuser attach it.")));
}

static void
look_at_altered(AlterTableStmt *alter)
{
	ListCell   *cell;

	must_stay(alter->relation);
	foreach(cell, alter->cmds)
	{
		AlterTableCmd *command = lfirst(cell);

		if (command->subtype == AT_AttachPartition || command->subtype == AT_DetachPartition)
			must_stay(((PartitionCmd *) command->def)->name);
		else if (command->subtype == AT_AddInherit || command->subtype == AT_DropInherit)
			must_stay((RangeVar *) command->def);
	}
}

/* All of a list of names, of tables to be created below or of tables. */
static void
each(List *names, void (*look) (RangeVar *))
{
	ListCell   *cell;

	foreach(cell, names)
		if (IsA(lfirst(cell), RangeVar))
			look(lfirst(cell));
}

static void
must_name_tables(bool does)
{
	if (!does)
		ereport(ERROR, (errcode(ERRCODE_INSUFFICIENT_PRIVILEGE),
						errmsg("mls: only a superuser vacuums, clusters or reindexes all tables")));
}

/* VACUUM and ANALYZE say how many rows there are; and with VERBOSE, which pages were in the cache. */
static void
look_at_vacuumed(VacuumStmt *vacuum)
{
	ListCell   *cell;

	must_name_tables(vacuum->rels != NIL);
	foreach(cell, vacuum->rels)
		must_stay(((VacuumRelation *) lfirst(cell))->relation);
	if (option_is_on(vacuum->options, "verbose", false))
		ereport(ERROR, (errcode(ERRCODE_INSUFFICIENT_PRIVILEGE),
						errmsg("mls: VERBOSE would tell what other sessions read")));
}

/* A constraint of a domain looks at all rows of all tables. */
static void
look_at_domain(AlterDomainStmt *alter)
{
	if (strchr("COV", alter->subtype) != NULL)
		ereport(ERROR, (errcode(ERRCODE_INSUFFICIENT_PRIVILEGE),
						errmsg("mls: only a superuser adds a constraint to a domain: it looks at hidden rows")));
}

/* A trusted extension is made of functions in C, which leave what they like without being asked. */
static void
refuse_extension(void)
{
	ereport(ERROR, (errcode(ERRCODE_INSUFFICIENT_PRIVILEGE),
					errmsg("mls: only a superuser creates an extension: its functions are not asked about")));
}

void
protection_stays(Node *statement)
{
	switch (nodeTag(statement))
	{
		case T_AlterTableStmt:
			look_at_altered((AlterTableStmt *) statement);
			break;
		case T_RenameStmt:
			must_stay(((RenameStmt *) statement)->relation);
			break;
		case T_AlterObjectSchemaStmt:
			must_stay(((AlterObjectSchemaStmt *) statement)->relation);
			break;
		case T_AlterObjectDependsStmt:
			must_stay(((AlterObjectDependsStmt *) statement)->relation);
			break;
		case T_IndexStmt:
			must_stay(((IndexStmt *) statement)->relation);
			break;
		case T_CreateStatsStmt:
			each(((CreateStatsStmt *) statement)->relations, must_stay);
			break;
		case T_CreateTrigStmt:
			must_stay(((CreateTrigStmt *) statement)->relation);
			break;
		case T_RuleStmt:
			must_stay(((RuleStmt *) statement)->relation);
			break;
		case T_CreatePolicyStmt:
			must_stay(((CreatePolicyStmt *) statement)->table);
			break;
		case T_AlterPolicyStmt:
			must_stay(((AlterPolicyStmt *) statement)->table);
			break;
		case T_ClusterStmt:
			must_name_tables(((ClusterStmt *) statement)->relation != NULL);
			must_stay(((ClusterStmt *) statement)->relation);
			break;
		case T_ReindexStmt:
			must_name_tables(((ReindexStmt *) statement)->relation != NULL);
			must_stay(((ReindexStmt *) statement)->relation);
			break;
		case T_VacuumStmt:
			look_at_vacuumed((VacuumStmt *) statement);
			break;
		case T_CreateStmt:
			each(((CreateStmt *) statement)->inhRelations, must_stand_below);
			break;
		case T_CreateForeignTableStmt:
			each(((CreateForeignTableStmt *) statement)->base.inhRelations, must_stand_below);
			break;
		case T_CreateExtensionStmt:
		case T_AlterExtensionStmt:
			refuse_extension();
			break;
		case T_AlterDomainStmt:
			look_at_domain((AlterDomainStmt *) statement);
			break;
		default:
			break;
	}
}
