/*
 * What the files of the extension share: rows carry the name of a container, an object of the monitor, and the
 * monitor is asked through mlsd before a row is shown or changed.
 */
#ifndef MLS_H
#define MLS_H

#include "postgres.h"
#include "catalog/objectaccess.h"
#include "datatype/timestamp.h"
#include "nodes/nodes.h"
#include "nodes/pg_list.h"
#include "utils/relcache.h"

#define ANSWER_MAX 64			/* bytes of an answer of mlsd, and the byte that ends it */
#define LINE_MAX_BYTES 1280		/* of a line for mlsd, and of a note before it */
#define NAME_BYTES 32			/* no name of the monitor is longer */

typedef enum AccessMode
{
	MODE_READ,
	MODE_APPEND,
	MODE_WRITE
} AccessMode;

#define MODES 3

/* What this transaction knows of a container in a mode. KNOWN_ASKED: perhaps held, its answer was not read. */
typedef enum Known
{
	KNOWN_NOTHING = 0,
	KNOWN_YES,
	KNOWN_ASKED,
	KNOWN_NO
} Known;

typedef struct Container
{
	char		name[NAME_BYTES];	/* the key: filled up with zeros, and not ended by one where it has 32 bytes */
	Known		known[MODES];
	char		reason[MODES][16];	/* of KNOWN_NO: what the monitor said */
	uint64		kept_over;		/* the connection over which its read is held from transaction to transaction, or 0 */
	TimestampTz checked;		/* when that was last asked about */
	bool		is_touched;		/* by this transaction */
	bool		is_readable;	/* the monitor said so, in this transaction and at this level */
	bool		is_remembered;	/* the session may know what it holds: it could read it when it touched it */
	struct Container *next_touched;
} Container;

/* settings.c */
extern char *mls_socket;
extern char *mls_subjects;
extern char *mls_catalog;
extern int	mls_timeout;
extern int	mls_recheck;
extern bool mls_notes;
extern bool mls_keep;
extern bool mls_preview;
extern bool mls_append_up;
extern bool mls_nextval_up;
extern bool mls_explain;
extern bool mls_statistics;
extern bool mls_parallel;

/* inbox.c: what has come from mlsd */
extern bool inbox_has_line(void);
extern bool inbox_take(char *line);
extern bool inbox_may_retry(int error);
extern bool inbox_read(int sock, int flags);
extern void inbox_clear(void);

/* wire.c: the connection to mlsd */
extern uint64 wire_connection;	/* the number of the connection that is open, or 0 */
extern int64 wire_session;		/* its number at mlsd */
extern void wire_connect(void);
extern void wire_ask(const char *text, char *answer);
extern void wire_send_late(const char *text);
extern void wire_end(void);

/* subject.c: who asks */
extern const char *subject_name(void);
extern const char *subject_held(void);
extern const char *subject_note(void);
extern void subject_ended(void);
extern bool is_letter(char c);
extern bool is_name(const char *text, size_t length);

/* containers.c: what is known of containers */
extern Container *container_find(const char *name, size_t length);
extern void container_touch(Container *c);
extern Container *containers_touched(void);
extern void containers_untouch(void);
extern void container_keep(Container *c, bool keeps);
extern bool container_is_kept(const Container *c);
extern bool containers_any_kept(void);
extern void containers_each_kept(void (*deed) (Container *));
extern void container_remember(Container *c);
extern void containers_each_remembered(void (*deed) (Container *));
extern void containers_forget(void);

/* access.c: the monitor's answers, once a transaction */
extern Known access_ask(AccessMode mode, Container *c, bool is_filter);
extern bool access_may_read(Container *c);
extern const char *const mode_name[MODES];

/* session.c: from the first ask to the end of a transaction, and the level */
extern bool session_holds(void);
extern void session_reach(void);
extern void session_needs_level(void);
extern void session_level(const char *label);
extern void session_begin_anew(void);
extern void session_discarded(void);
extern void session_start(void);

/* protected.c: which tables are protected */
extern bool is_created(void);
extern bool is_protected(Relation rel);
extern bool is_protected_oid(Oid table);

/* guard.c: what has no label counts as the catalog's container */
extern bool guard_is_on(void);
extern bool guard_is_with_owner(void);
extern void guard_must_append(const char *deed);
extern bool guard_may_append(void);

/* keys.c: foreign keys, and keys without a label */
extern bool key_has_label(Oid index);
extern bool key_is_kept(Oid constraint);
extern void key_must_be_kept(Oid constraint);
extern int	key_query_begins(void);
extern void key_query_ends(int context);

/* protection.c, objects.c: it stays on */
extern void protection_stays(Node *statement);
extern void table_must_stay(Oid table);
extern void objects_stay(ObjectAccessType access, Oid class, Oid object, int part);

/* faults.c: what a session protects is looked at before it commits */
extern void faults_wait(Oid table);
extern void faults_start(void);

/* appends.c: appends that would tell of hidden rows */
extern bool append_meets_keys(void);
extern void appends_start(void);

/* statements.c, tables.c, calls.c: the server's hooks */
extern bool statement_is_copying(void);
extern bool statement_copies(bool is_so);
extern bool statement_is_explaining(void);
extern bool option_is_on(List *options, const char *name, bool otherwise);
extern void statements_start(void);
extern void tables_start(void);
extern void calls_start(void);
extern struct config_generic **all_settings(int *count);
extern struct config_generic *find_setting(const char *name);

/* estimates.c: what plans are made of */
extern void estimates_start(void);

/* isolation.c: SERIALIZABLE transactions */
extern void isolation_start(void);
extern bool isolation_is_set(void);

#endif
