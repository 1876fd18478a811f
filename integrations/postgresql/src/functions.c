/*
 * What SQL calls. The policies call the first four: `may_` answers and so hides a row, `must_` answers yes or errors
 * with the monitor's reason.
 */
#include "mls.h"
#include "fmgr.h"
#include "lib/stringinfo.h"
#include "utils/builtins.h"

#define LABEL_BYTES 900			/* of a level's text */

static Container *
argument(FunctionCallInfo fcinfo)
{
	text	   *name = PG_GETARG_TEXT_PP(0);

	return container_find(VARDATA_ANY(name), VARSIZE_ANY_EXHDR(name));
}

PG_FUNCTION_INFO_V1(mls_may_read);
Datum
mls_may_read(PG_FUNCTION_ARGS)
{
	PG_RETURN_BOOL(access_ask(MODE_READ, argument(fcinfo), true) == KNOWN_YES);
}

PG_FUNCTION_INFO_V1(mls_may_write);
Datum
mls_may_write(PG_FUNCTION_ARGS)
{
	PG_RETURN_BOOL(access_ask(MODE_WRITE, argument(fcinfo), true) == KNOWN_YES);
}

static Datum
must(FunctionCallInfo fcinfo, AccessMode mode)
{
	Container  *c = argument(fcinfo);

	if (access_ask(mode, c, false) != KNOWN_YES)
		ereport(ERROR, (errcode(ERRCODE_INSUFFICIENT_PRIVILEGE),
						errmsg("mls: %s may not %s container %.*s: %s", subject_held(), mode_name[mode], NAME_BYTES,
							   c->name, c->reason[mode])));
	if (mode == MODE_APPEND && !mls_append_up && append_meets_keys() && !access_may_read(c))
		ereport(ERROR, (errcode(ERRCODE_INSUFFICIENT_PRIVILEGE),
						errmsg("mls: %s may not append container %.*s where a key would tell of hidden rows", subject_held(),
							   NAME_BYTES, c->name),
						errhint("A superuser may set mls.append_up, or drop the table's keys.")));
	PG_RETURN_BOOL(true);
}

PG_FUNCTION_INFO_V1(mls_must_append);
Datum
mls_must_append(PG_FUNCTION_ARGS)
{
	return must(fcinfo, MODE_APPEND);
}

PG_FUNCTION_INFO_V1(mls_must_write);
Datum
mls_must_write(PG_FUNCTION_ARGS)
{
	return must(fcinfo, MODE_WRITE);
}

/* Another current level of the session's subject. */
PG_FUNCTION_INFO_V1(mls_level);
Datum
mls_level(PG_FUNCTION_ARGS)
{
	char	   *label = text_to_cstring(PG_GETARG_TEXT_PP(0));
	size_t		length = strlen(label);
	size_t		k;

	for (k = 0; k < length; k++)
		if (!is_letter(label[k]) && strchr("-_:,", label[k]) == NULL)
			break;
	if (length == 0 || length > LABEL_BYTES || k < length)
		ereport(ERROR, (errcode(ERRCODE_INVALID_PARAMETER_VALUE), errmsg("mls: not a label")));
	session_level(label);
	PG_RETURN_TEXT_P(cstring_to_text(label));
}

/* What this transaction holds. */
PG_FUNCTION_INFO_V1(mls_held);
Datum
mls_held(PG_FUNCTION_ARGS)
{
	StringInfoData s;

	initStringInfo(&s);
	for (Container *c = containers_touched(); c != NULL; c = c->next_touched)
		for (int mode = 0; mode < MODES; mode++)
			if (c->known[mode] == KNOWN_YES)
				appendStringInfo(&s, "%s%s %.*s", s.len > 0 ? ", " : "", mode_name[mode], NAME_BYTES, c->name);
	PG_RETURN_TEXT_P(cstring_to_text(s.data));
}

PG_FUNCTION_INFO_V1(mls_subject);
Datum
mls_subject(PG_FUNCTION_ARGS)
{
	PG_RETURN_TEXT_P(cstring_to_text(subject_name()));
}

/* The number of the session at mlsd. */
PG_FUNCTION_INFO_V1(mls_session);
Datum
mls_session(PG_FUNCTION_ARGS)
{
	session_reach();
	PG_RETURN_INT64(wire_session);
}

PG_FUNCTION_INFO_V1(mls_is_protected);
Datum
mls_is_protected(PG_FUNCTION_ARGS)
{
	PG_RETURN_BOOL(is_protected_oid(PG_GETARG_OID(0)));
}

PG_FUNCTION_INFO_V1(mls_is_kept_key);
Datum
mls_is_kept_key(PG_FUNCTION_ARGS)
{
	PG_RETURN_BOOL(key_is_kept(PG_GETARG_OID(0)));
}
