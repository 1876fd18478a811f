/*
 * The settings, and the beginning. None is for a user to set: whoever names the monitor decides.
 */
#include "mls.h"
#include "fmgr.h"
#include "miscadmin.h"
#include "utils/guc.h"

PG_MODULE_MAGIC;

char	   *mls_socket;
char	   *mls_subjects;
char	   *mls_catalog;
int			mls_timeout;
int			mls_recheck;
bool		mls_notes;
bool		mls_keep;
bool		mls_preview;
bool		mls_append_up;
bool		mls_nextval_up;
bool		mls_explain;
bool		mls_statistics;
bool		mls_parallel;

static void
define_text(const char *name, const char *what, char **value, const char *start)
{
	DefineCustomStringVariable(name, what, NULL, value, start, PGC_SIGHUP, 0, NULL, NULL, NULL);
}

static void
define_time(const char *name, const char *what, int *value, int start, int least)
{
	DefineCustomIntVariable(name, what, NULL, value, start, least, 3600000, PGC_SIGHUP, GUC_UNIT_MS, NULL, NULL, NULL);
}

static void
define_switch(const char *name, const char *what, bool *value, bool start)
{
	DefineCustomBoolVariable(name, what, NULL, value, start, PGC_SIGHUP, 0, NULL, NULL, NULL);
}

/* Of what tells of hidden rows, or signals to sessions below: a superuser may open it, for a role or a database too. */
static void
define_opening(const char *name, const char *what, bool *value)
{
	DefineCustomBoolVariable(name, what, NULL, value, false, PGC_SUSET, 0, NULL, NULL, NULL);
}

void		_PG_init(void);

void
_PG_init(void)
{
	if (!process_shared_preload_libraries_in_progress)
		ereport(ERROR, (errcode(ERRCODE_OBJECT_NOT_IN_PREREQUISITE_STATE),
						errmsg("mls must be in shared_preload_libraries")));
	define_text("mls.socket", "The socket of mlsd.", &mls_socket, "/run/mlsd/socket");
	define_text("mls.subjects", "ROLE=SUBJECT, ..; a role that is not here has the subject of its name.",
				&mls_subjects, "");
	define_text("mls.catalog", "The container of all that has no label: catalogs, settings, notifications.",
				&mls_catalog, "");
	define_time("mls.timeout", "How long an answer of the monitor may take.", &mls_timeout, 10000, 1);
	define_time("mls.recheck", "How long a kept read is not asked about again; with 0 each transaction asks.",
				&mls_recheck, 0, 0);
	define_switch("mls.notes", "A note of each transaction in the sessions file.", &mls_notes, true);
	define_switch("mls.keep", "Reads are held until the session ends or changes its level.", &mls_keep, false);
	define_switch("mls.preview", "Filters ask first what the answer would be: a denial of a row is then no entry.",
				  &mls_preview, false);
	define_opening("mls.append_up", "Rows may be added above one's level also where a key would tell of hidden rows.",
				   &mls_append_up);
	define_opening("mls.nextval_up", "Sequences may be advanced above the level of the catalog.", &mls_nextval_up);
	define_opening("mls.explain", "Plans over protected tables are shown, with what they tell of hidden rows.",
				   &mls_explain);
	define_opening("mls.statistics", "Plans over protected tables are made of the statistics of hidden rows too.",
				   &mls_statistics);
	define_opening("mls.parallel", "Queries use the parallel workers, of which there are only so many for all sessions.",
				   &mls_parallel);
	MarkGUCPrefixReserved("mls");
	session_start();
	statements_start();
	tables_start();
	calls_start();
	appends_start();
	estimates_start();
	isolation_start();
	faults_start();
}
