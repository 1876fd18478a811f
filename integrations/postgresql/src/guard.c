/*
 * What has no label: catalogs, settings, notifications, large objects and tables without protection. All of it counts
 * as one container, which the setting mls.catalog names, and whoever leaves something there needs append on it. As it
 * has the lowest label, whoever works above that may not.
 */
#include "mls.h"
#include "access/xact.h"
#include "miscadmin.h"

/* Whether this session is bound: its user is no superuser, and the extension is in this database. */
bool
guard_is_on(void)
{
	return IsTransactionState() && !superuser_arg(GetSessionUserId()) && is_created();
}

/* Whether the server runs what a table's owner wrote, for a superuser or by itself: functions of an index in ANALYZE,
 * as autovacuum does it, or in REINDEX. It does so as that owner, but the session's user is a superuser. */
bool
guard_is_with_owner(void)
{
	return InSecurityRestrictedOperation() && !superuser_arg(GetUserId()) && superuser_arg(GetSessionUserId()) &&
		is_created();
}

static Container *
catalog(void)
{
	if (mls_catalog[0] == '\0')
		ereport(ERROR, (errcode(ERRCODE_INSUFFICIENT_PRIVILEGE),
						errmsg("mls: the setting mls.catalog names no container")));
	return container_find(mls_catalog, strlen(mls_catalog));
}

bool
guard_may_append(void)
{
	return access_ask(MODE_APPEND, catalog(), false) == KNOWN_YES;
}

/* Errors where the session may not leave anything that others see. */
void
guard_must_append(const char *deed)
{
	if (!guard_may_append())
		ereport(ERROR, (errcode(ERRCODE_INSUFFICIENT_PRIVILEGE),
						errmsg("mls: %s may not %s: %s", subject_held(), deed, catalog()->reason[MODE_APPEND]),
						errdetail("What has no label counts as the container %s.", mls_catalog)));
}
