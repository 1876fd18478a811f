/*
 * SERIALIZABLE transactions. Another one waits for such a transaction, or fails by what it reads, and its snapshot is
 * taken before any query runs. So the level of isolation itself needs append on the catalog's container.
 */
#include "mls.h"
#include "access/parallel.h"
#include "access/xact.h"
#include "utils/guc.h"
#include "utils/guc_tables.h"

static GucEnumCheckHook next_check = NULL;
static GucEnumCheckHook next_default = NULL;

static void
look_at(int level, GucSource source)
{
	if (level == XACT_SERIALIZABLE && source >= PGC_S_CLIENT && IsTransactionState() && !InitializingParallelWorker &&
		guard_is_on())
		guard_must_append("run a SERIALIZABLE transaction");
}

static bool
on_isolation(int *level, void **extra, GucSource source)
{
	look_at(*level, source);
	return next_check == NULL || next_check(level, extra, source);
}

static bool
on_default(int *level, void **extra, GucSource source)
{
	look_at(*level, source);
	return next_default == NULL || next_default(level, extra, source);
}

/* Whether the session's transactions are so without being asked to. */
bool
isolation_is_set(void)
{
	return DefaultXactIsoLevel == XACT_SERIALIZABLE;
}

void
isolation_start(void)
{
	struct config_enum *isolation = (struct config_enum *) find_setting("transaction_isolation");
	struct config_enum *by_default = (struct config_enum *) find_setting("default_transaction_isolation");

	next_check = isolation->check_hook;
	isolation->check_hook = on_isolation;
	next_default = by_default->check_hook;
	by_default->check_hook = on_default;
}
