/*
 * What is made, changed or dropped of a protected table, by whatever statement, and by dependency too: only a superuser
 * does that. Statements that name the table are looked at before they run (protection.c).
 */
#include "mls.h"
#include "access/genam.h"
#include "access/table.h"
#include "catalog/index.h"
#include "catalog/indexing.h"
#include "catalog/objectaccess.h"
#include "catalog/pg_attrdef.h"
#include "catalog/pg_class.h"
#include "catalog/pg_constraint.h"
#include "catalog/pg_index.h"
#include "catalog/pg_policy.h"
#include "catalog/pg_rewrite.h"
#include "catalog/pg_statistic_ext.h"
#include "catalog/pg_trigger.h"
#include "utils/fmgroids.h"
#include "utils/lsyscache.h"
#include "utils/rel.h"
#include "utils/snapmgr.h"

/* Of the parts of a table: where the table stands in the catalog. */
static const struct Part
{
	Oid			class;
	Oid			catalog;
	Oid			index;
	AttrNumber	key;
	AttrNumber	table;
}			parts[] = {
	{RelationRelationId, IndexRelationId, IndexRelidIndexId, Anum_pg_index_indexrelid, Anum_pg_index_indrelid},
	{ConstraintRelationId, ConstraintRelationId, ConstraintOidIndexId, Anum_pg_constraint_oid,
	Anum_pg_constraint_conrelid},
	{PolicyRelationId, PolicyRelationId, PolicyOidIndexId, Anum_pg_policy_oid, Anum_pg_policy_polrelid},
	{TriggerRelationId, TriggerRelationId, TriggerOidIndexId, Anum_pg_trigger_oid, Anum_pg_trigger_tgrelid},
	{RewriteRelationId, RewriteRelationId, RewriteOidIndexId, Anum_pg_rewrite_oid, Anum_pg_rewrite_ev_class},
	{StatisticExtRelationId, StatisticExtRelationId, StatisticExtOidIndexId, Anum_pg_statistic_ext_oid,
	Anum_pg_statistic_ext_stxrelid},
	{AttrDefaultRelationId, AttrDefaultRelationId, AttrDefaultOidIndexId, Anum_pg_attrdef_oid, Anum_pg_attrdef_adrelid},
};

/* The table of a part, which may be new in this very command; or none. */
static Oid
table_of(const struct Part *part, Oid object)
{
	Relation	catalog = table_open(part->catalog, AccessShareLock);
	Oid			table = InvalidOid;
	ScanKeyData is_it;
	SysScanDesc scan;
	HeapTuple	tuple;
	bool		is_null;

	ScanKeyInit(&is_it, part->key, BTEqualStrategyNumber, F_OIDEQ, ObjectIdGetDatum(object));
	scan = systable_beginscan(catalog, part->index, true, SnapshotSelf, 1, &is_it);
	tuple = systable_getnext(scan);
	if (HeapTupleIsValid(tuple))
		table = DatumGetObjectId(heap_getattr(tuple, part->table, RelationGetDescr(catalog), &is_null));
	systable_endscan(scan);
	table_close(catalog, AccessShareLock);
	return table;
}

/* Errors where a table is protected, and not of this session alone. It may become so by what is done to it now. */
void
table_must_stay(Oid table)
{
	if (!OidIsValid(table) || get_rel_persistence(table) == RELPERSISTENCE_TEMP)
		return;
	if (is_protected_oid(table))
		ereport(ERROR, (errcode(ERRCODE_INSUFFICIENT_PRIVILEGE),
						errmsg("mls: table %s is protected: only a superuser changes that", get_rel_name(table))));
	faults_wait(table);
}

static void
must_stay(Oid class, Oid object, bool is_new)
{
	for (size_t k = 0; k < lengthof(parts); k++)
		if (parts[k].class == class)
			table_must_stay(table_of(&parts[k], object));
	if (class == RelationRelationId && !is_new)
		table_must_stay(object);
}

/* A column of a table is an object of the table's class, with a number. */
void
objects_stay(ObjectAccessType access, Oid class, Oid object, int part)
{
	if (access == OAT_POST_CREATE && class == ConstraintRelationId && is_created())
		key_must_be_kept(object);
	if ((access == OAT_POST_CREATE || access == OAT_POST_ALTER || access == OAT_DROP) && guard_is_on())
		must_stay(class, object, access == OAT_POST_CREATE && part == 0);
}
