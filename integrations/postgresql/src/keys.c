/*
 * Foreign keys. A check of one reads and locks the row that is referred to, beside the policies; so one that has to do
 * with a protected table must go from its label to the label of a protected table: then the row that is written and
 * the row that is locked have the same container.
 */
#include "mls.h"
#include "access/genam.h"
#include "access/table.h"
#include "catalog/indexing.h"
#include "catalog/pg_constraint.h"
#include "catalog/pg_index.h"
#include "miscadmin.h"
#include "nodes/parsenodes.h"
#include "utils/fmgroids.h"
#include "utils/lsyscache.h"
#include "utils/snapmgr.h"
#include "utils/syscache.h"

typedef struct ForeignKey
{
	Oid			from;			/* the table that refers; invalid where the constraint is no foreign key */
	Oid			to;
	bool		is_of_labels;	/* label refers to label, and no action sets another */
} ForeignKey;

static bool
sets(char action)
{
	return action == FKCONSTR_ACTION_SETNULL || action == FKCONSTR_ACTION_SETDEFAULT;
}

/* Whether a deletion or a change of the row that is referred to gives the other one a new label. */
static bool
sets_label(Form_pg_constraint row, const AttrNumber *on_delete, int count, AttrNumber label)
{
	if (sets(row->confupdtype))
		return true;
	if (!sets(row->confdeltype))
		return false;
	for (int k = 0; k < count; k++)
		if (on_delete[k] == label)
			return true;
	return count == 0;
}

static void
read_row(HeapTuple tuple, ForeignKey *key)
{
	Form_pg_constraint row = (Form_pg_constraint) GETSTRUCT(tuple);
	AttrNumber	from[INDEX_MAX_KEYS];
	AttrNumber	to[INDEX_MAX_KEYS];
	AttrNumber	on_delete[INDEX_MAX_KEYS];
	Oid			operators[3][INDEX_MAX_KEYS];
	AttrNumber	label = get_attnum(row->conrelid, "label");
	AttrNumber	their_label = get_attnum(row->confrelid, "label");
	int			count;
	int			deleted = 0;

	if (row->contype != CONSTRAINT_FOREIGN)
		return;
	DeconstructFkConstraintRow(tuple, &count, from, to, operators[0], operators[1], operators[2], &deleted, on_delete);
	key->from = row->conrelid;
	key->to = row->confrelid;
	for (int k = 0; k < count; k++)
		if (label != InvalidAttrNumber && from[k] == label && to[k] == their_label)
			key->is_of_labels = !sets_label(row, on_delete, deleted, label);
}

/* Whether the column label is one that an index compares, or the index's table is without protection. */
bool
key_has_label(Oid index)
{
	HeapTuple	tuple = SearchSysCache1(INDEXRELID, ObjectIdGetDatum(index));
	Form_pg_index row = HeapTupleIsValid(tuple) ? (Form_pg_index) GETSTRUCT(tuple) : NULL;
	AttrNumber	label = row == NULL ? InvalidAttrNumber : get_attnum(row->indrelid, "label");
	bool		has = row != NULL && !is_protected_oid(row->indrelid);

	for (int k = 0; row != NULL && label != InvalidAttrNumber && k < row->indnkeyatts; k++)
		has |= row->indkey.values[k] == label;
	if (row != NULL)
		ReleaseSysCache(tuple);
	return has;
}

/* A foreign key's own query runs as the owner of a table, past its policies. What that calls does not: a trigger of the
 * row that it deletes, a cast. So while it is planned and runs this is taken back; what it was is returned. */
int
key_query_begins(void)
{
	Oid			user;
	int			context;

	GetUserIdAndSecContext(&user, &context);
	if ((context & SECURITY_NOFORCE_RLS) != 0 && guard_is_on())
		SetUserIdAndSecContext(user, context & ~SECURITY_NOFORCE_RLS);
	return context;
}

void
key_query_ends(int context)
{
	Oid			user;
	int			now;

	if ((context & SECURITY_NOFORCE_RLS) == 0)
		return;
	GetUserIdAndSecContext(&user, &now);
	SetUserIdAndSecContext(user, now | SECURITY_NOFORCE_RLS);
}

/* A constraint that may be new in this very command. */
static ForeignKey
find_key(Oid constraint)
{
	ForeignKey	key = {InvalidOid, InvalidOid, false};
	Relation	catalog = table_open(ConstraintRelationId, AccessShareLock);
	ScanKeyData is_it;
	SysScanDesc scan;
	HeapTuple	tuple;

	ScanKeyInit(&is_it, Anum_pg_constraint_oid, BTEqualStrategyNumber, F_OIDEQ, ObjectIdGetDatum(constraint));
	scan = systable_beginscan(catalog, ConstraintOidIndexId, true, SnapshotSelf, 1, &is_it);
	tuple = systable_getnext(scan);
	if (HeapTupleIsValid(tuple))
		read_row(tuple, &key);
	systable_endscan(scan);
	table_close(catalog, AccessShareLock);
	return key;
}

/* Whether a constraint is no foreign key of a protected table, or goes from label to label between two such. */
bool
key_is_kept(Oid constraint)
{
	ForeignKey	key = find_key(constraint);
	bool		from = OidIsValid(key.from) && is_protected_oid(key.from);
	bool		to = OidIsValid(key.to) && is_protected_oid(key.to);

	return (!from && !to) || (from && to && key.is_of_labels);
}

/* Errors where a new constraint isn't so. A superuser may be restoring a dump: then the two tables that a key of labels
 * joins become protected one after the other. */
void
key_must_be_kept(Oid constraint)
{
	ForeignKey	key;

	if (key_is_kept(constraint))
		return;
	key = find_key(constraint);
	if (key.is_of_labels && superuser_arg(GetSessionUserId()))
		return;
	ereport(ERROR, (errcode(ERRCODE_INSUFFICIENT_PRIVILEGE),
					errmsg("mls: a foreign key from %s to %s would lock rows of another label", get_rel_name(key.from),
						   get_rel_name(key.to)),
					errhint("Protect both tables, and let the key have the column label of both.")));
}
