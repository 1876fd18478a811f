/*
 * Who asks: the subject of the role that logged in. Neither SET ROLE nor a function's owner changes it.
 */
#include "mls.h"
#include "miscadmin.h"
#include "storage/proc.h"
#include "utils/builtins.h"

static Oid	subject_of = InvalidOid;
static char subject[NAMEDATALEN];
static bool is_noted = false;	/* this transaction */

/* Of ASCII alone, whatever the locale: or a digit. */
bool
is_letter(char c)
{
	return (c >= 'a' && c <= 'z') || (c >= 'A' && c <= 'Z') || (c >= '0' && c <= '9');
}

/* Whether it is a name of the monitor's. */
bool
is_name(const char *text, size_t length)
{
	for (size_t k = 0; k < length; k++)
		if (!is_letter(text[k]) && text[k] != '-' && text[k] != '_')
			return false;
	return length > 0 && length <= NAME_BYTES;
}

/* Sets the subject to that of a role: the one of its name, where the setting has no other. */
static void
look_up(const char *role)
{
	char	   *rest;
	char	   *pair = strtok_r(pstrdup(mls_subjects), " ,", &rest);

	strlcpy(subject, role, sizeof subject);
	for (; pair != NULL; pair = strtok_r(NULL, " ,", &rest))
	{
		char	   *equals = strchr(pair, '=');

		if (equals == NULL)
			continue;
		*equals = '\0';
		if (strcmp(role, pair) == 0)
			strlcpy(subject, equals + 1, sizeof subject);
	}
}

const char *
subject_name(void)
{
	Oid			user = GetSessionUserId();
	char	   *role;

	if (user == subject_of)
		return subject;
	if (containers_touched() != NULL)
		ereport(ERROR, (errcode(ERRCODE_INSUFFICIENT_PRIVILEGE),
						errmsg("mls: the session's user changed while it holds accesses")));
	if (OidIsValid(subject_of))
		session_begin_anew();
	role = GetUserNameFromId(user, false);
	subject_of = InvalidOid;
	look_up(role);
	if (!is_name(subject, strlen(subject)))
		ereport(ERROR, (errcode(ERRCODE_INSUFFICIENT_PRIVILEGE), errmsg("mls: role %s has no subject", role)));
	subject_of = user;
	return subject;
}

/* The subject that holds what is held: the end of a transaction asks for it, so it throws nothing. */
const char *
subject_held(void)
{
	return subject;
}

/* The note that stands before a transaction's first line, for the sessions file; then no text. */
const char *
subject_note(void)
{
	static char note[128];
#if PG_VERSION_NUM >= 170000
	int			backend = MyProcNumber;
	LocalTransactionId transaction = MyProc->vxid.lxid;
#else
	int			backend = MyBackendId;
	LocalTransactionId transaction = MyProc->lxid;
#endif

	if (is_noted || !mls_notes)
		return "";
	is_noted = true;
	snprintf(note, sizeof note, "; tx %d/%u pid %d db %u role %u\n", backend, transaction, MyProcPid, MyDatabaseId,
			 subject_of);
	return note;
}

void
subject_ended(void)
{
	is_noted = false;
}
