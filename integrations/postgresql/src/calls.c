/*
 * What functions leave for others to see: notifications, large objects, sequences that are set or go on, advisory
 * locks, snapshots, cancelled queries; and the setting application_name, by whichever way it is set. They need append
 * on the catalog's container, as statements do.
 */
#include "mls.h"
#include "access/parallel.h"
#include "access/xact.h"
#include "catalog/objectaccess.h"
#include "utils/fmgroids.h"
#include "utils/guc.h"
#include "utils/guc_tables.h"
#include "utils/lsyscache.h"

static object_access_hook_type next_access = NULL;
static GucStringCheckHook next_check = NULL;
static GucBoolCheckHook next_scans = NULL;

static const Oid leaving[] = {
	F_PG_NOTIFY, F_SETVAL_REGCLASS_INT8, F_SETVAL_REGCLASS_INT8_BOOL, F_PG_EXPORT_SNAPSHOT,
	F_PG_CANCEL_BACKEND, F_PG_TERMINATE_BACKEND,
	F_PG_LOGICAL_EMIT_MESSAGE_BOOL_TEXT_TEXT, F_PG_LOGICAL_EMIT_MESSAGE_BOOL_TEXT_BYTEA,
	F_LO_CREATE, F_LO_CREAT, F_LO_IMPORT_TEXT, F_LO_IMPORT_TEXT_OID, F_LO_FROM_BYTEA, F_LO_PUT, F_LOWRITE,
	F_LO_TRUNCATE, F_LO_TRUNCATE64, F_LO_UNLINK, F_LO_EXPORT,
	F_PG_ADVISORY_LOCK_INT8, F_PG_ADVISORY_LOCK_SHARED_INT8, F_PG_TRY_ADVISORY_LOCK_INT8,
	F_PG_TRY_ADVISORY_LOCK_SHARED_INT8, F_PG_ADVISORY_LOCK_INT4_INT4, F_PG_ADVISORY_LOCK_SHARED_INT4_INT4,
	F_PG_TRY_ADVISORY_LOCK_INT4_INT4, F_PG_TRY_ADVISORY_LOCK_SHARED_INT4_INT4, F_PG_ADVISORY_XACT_LOCK_INT8,
	F_PG_ADVISORY_XACT_LOCK_SHARED_INT8, F_PG_TRY_ADVISORY_XACT_LOCK_INT8, F_PG_TRY_ADVISORY_XACT_LOCK_SHARED_INT8,
	F_PG_ADVISORY_XACT_LOCK_INT4_INT4, F_PG_ADVISORY_XACT_LOCK_SHARED_INT4_INT4, F_PG_ADVISORY_UNLOCK_INT8,
	F_PG_ADVISORY_UNLOCK_SHARED_INT8, F_PG_ADVISORY_UNLOCK_INT4_INT4, F_PG_ADVISORY_UNLOCK_SHARED_INT4_INT4,
	F_PG_ADVISORY_UNLOCK_ALL,
	F_PG_TRY_ADVISORY_XACT_LOCK_INT4_INT4, F_PG_TRY_ADVISORY_XACT_LOCK_SHARED_INT4_INT4,
	F_BRIN_SUMMARIZE_NEW_VALUES, F_BRIN_SUMMARIZE_RANGE, F_BRIN_DESUMMARIZE_RANGE, F_GIN_CLEAN_PENDING_LIST,
};

static bool
is_leaving(Oid function)
{
	if (function == F_NEXTVAL)
		return !mls_nextval_up;
	for (size_t k = 0; k < lengthof(leaving); k++)
		if (leaving[k] == function)
			return true;
	return false;
}

static void
on_access(ObjectAccessType access, Oid class, Oid object, int part, void *arg)
{
	char		deed[NAMEDATALEN + 8];

	if (next_access != NULL)
		next_access(access, class, object, part, arg);
	if (access == OAT_FUNCTION_EXECUTE && is_leaving(object) && guard_is_on())
	{
		snprintf(deed, sizeof deed, "call %s", get_func_name(object));
		guard_must_append(deed);
	}
	else if (access == OAT_POST_CREATE || access == OAT_POST_ALTER || access == OAT_DROP)
		objects_stay(access, class, object, part);
	else if (access == OAT_TRUNCATE && guard_is_on() && is_protected_oid(object))
		ereport(ERROR, (errcode(ERRCODE_INSUFFICIENT_PRIVILEGE),
						errmsg("mls: table %s is protected: only a superuser truncates it", get_rel_name(object))));
}

/* Of a session that sets the name, by SET, by a function or by a function's own settings. */
static bool
on_name(char **value, void **extra, GucSource source)
{
	if (source == PGC_S_SESSION && IsTransactionState() && !InitializingParallelWorker && guard_is_on() &&
		!guard_may_append())
	{
		GUC_check_errcode(ERRCODE_INSUFFICIENT_PRIVILEGE);
		GUC_check_errmsg("mls: %s may not set application_name", subject_held());
		return false;
	}
	return next_check == NULL || next_check(value, extra, source);
}

/* A scan that begins where another one is tells where that is: so a user may only switch that off. */
static bool
on_scans(bool *value, void **extra, GucSource source)
{
	if (*value && source >= PGC_S_CLIENT && IsTransactionState() && !InitializingParallelWorker && guard_is_on())
	{
		GUC_check_errcode(ERRCODE_INSUFFICIENT_PRIVILEGE);
		GUC_check_errmsg("mls: only a superuser switches synchronize_seqscans on");
		return false;
	}
	return next_scans == NULL || next_scans(value, extra, source);
}

struct config_generic **
all_settings(int *count)
{
#if PG_VERSION_NUM >= 160000
	return get_guc_variables(count);
#else
	*count = GetNumConfigOptions();
	return get_guc_variables();
#endif
}

struct config_generic *
find_setting(const char *name)
{
	int			count;
	struct config_generic **all = all_settings(&count);

	for (int k = 0; k < count; k++)
		if (strcmp(all[k]->name, name) == 0)
			return all[k];
	ereport(ERROR, (errmsg("mls: there is no setting %s", name)));
}

void
calls_start(void)
{
	struct config_string *name = (struct config_string *) find_setting("application_name");

	struct config_bool *scans = (struct config_bool *) find_setting("synchronize_seqscans");

	next_scans = scans->check_hook;
	scans->check_hook = on_scans;
	next_check = name->check_hook;
	name->check_hook = on_name;
	next_access = object_access_hook;
	object_access_hook = on_access;
}
