/*
 * Tables that a session protects. Whoever owns a table may protect it by policies of his own hand, without mls.protect.
 * So each table that was changed is looked at before the transaction commits: where it is protected now, nothing of it
 * may read or lock rows beside its policies.
 */
#include "mls.h"
#include "access/xact.h"
#include "catalog/pg_type.h"
#include "executor/spi.h"
#include "utils/memutils.h"
#include "utils/snapmgr.h"

static List *waiting = NIL;		/* tables that were changed in this transaction */

/* From now on the end of the transaction looks at it. */
void
faults_wait(Oid table)
{
	MemoryContext was = MemoryContextSwitchTo(TopTransactionContext);

	waiting = list_append_unique_oid(waiting, table);
	MemoryContextSwitchTo(was);
}

/* (no operator and no type is named, since the session's search_path may find others) */
static void
must_have_none(Oid table)
{
	Oid			types[] = {REGCLASSOID};
	Datum		values[] = {ObjectIdGetDatum(table)};
	HeapTuple	row;

	SPI_connect();
	PushActiveSnapshot(GetTransactionSnapshot());
	SPI_execute_with_args("SELECT finding, name, remedy FROM mls.faults($1)", 1, types, values, NULL, false, 1);
	if (SPI_processed > 0)
	{
		row = SPI_tuptable->vals[0];
		ereport(ERROR, (errcode(ERRCODE_INSUFFICIENT_PRIVILEGE),
						errmsg("mls: %s: %s", SPI_getvalue(row, SPI_tuptable->tupdesc, 1),
							   SPI_getvalue(row, SPI_tuptable->tupdesc, 2)),
						errhint("%s", SPI_getvalue(row, SPI_tuptable->tupdesc, 3))));
	}
	PopActiveSnapshot();
	SPI_finish();
}

static void
at_end(XactEvent event, void *arg)
{
	ListCell   *cell;

	if (event == XACT_EVENT_PRE_COMMIT || event == XACT_EVENT_PRE_PREPARE)
	{
		foreach(cell, waiting)
			if (is_protected_oid(lfirst_oid(cell)))
				must_have_none(lfirst_oid(cell));
	}
	else
		waiting = NIL;
}

void
faults_start(void)
{
	RegisterXactCallback(at_end, NULL);
}
