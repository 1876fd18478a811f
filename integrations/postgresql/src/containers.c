/*
 * What this backend knows of containers, by their names. Knowledge of a transaction ends with it; a read that is kept
 * is held as long as its connection, and what the session may remember is known as long as it lasts.
 */
#include "mls.h"
#include "utils/hsearch.h"
#include "utils/memutils.h"

#define CONTAINERS 4096			/* a start has no more; beyond them stand names that the monitor doesn't know */

static HTAB *containers = NULL;
static Container *last = NULL;	/* that was found */
static Container *touched = NULL;
static int	kept = 0;			/* how many reads are kept over the connection `kept_over` */
static uint64 kept_over = 0;
static int	remembered = 0;		/* how many the session may remember */

static void
make_table(void)
{
	HASHCTL		how = {.keysize = NAME_BYTES, .entrysize = sizeof(Container), .hcxt = TopMemoryContext};

	last = NULL;
	containers = hash_create("mls containers", 64, &how, HASH_ELEM | HASH_BLOBS | HASH_CONTEXT);
}

/* Forgets all names once there are too many, where nothing is held. */
static void
make_room(void)
{
	if (hash_get_num_entries(containers) < CONTAINERS || touched != NULL || containers_any_kept() || remembered > 0)
		return;
	hash_destroy(containers);
	containers = NULL;
	make_table();
}

/* The container of a name. Errors where no container could have it. */
Container *
container_find(const char *name, size_t length)
{
	char		key[NAME_BYTES] = {0};
	bool		is_old;

	if (length <= NAME_BYTES)
		memcpy(key, name, length);
	if (last != NULL && length <= NAME_BYTES && memcmp(last->name, key, NAME_BYTES) == 0)
		return last;
	if (!is_name(name, length))
		ereport(ERROR, (errcode(ERRCODE_INVALID_PARAMETER_VALUE), errmsg("mls: not the name of a container")));
	if (containers == NULL)
		make_table();
	make_room();
	last = hash_search(containers, key, HASH_ENTER, &is_old);
	if (!is_old)
		memset((char *) last + NAME_BYTES, 0, sizeof *last - NAME_BYTES);
	return last;
}

/* From now on the end of the transaction looks at it. */
void
container_touch(Container *c)
{
	if (c->is_touched)
		return;
	c->is_touched = true;
	c->next_touched = touched;
	touched = c;
}

Container *
containers_touched(void)
{
	return touched;
}

void
containers_untouch(void)
{
	while (touched != NULL)
	{
		touched->is_touched = false;
		touched = touched->next_touched;
	}
}

/* From now on its read is held over transactions, as long as the connection is open; or not any more. */
void
container_keep(Container *c, bool keeps)
{
	if (kept_over != wire_connection)
	{
		kept_over = wire_connection;
		kept = 0;
	}
	if (container_is_kept(c) == keeps)
		return;
	c->kept_over = keeps ? wire_connection : 0;
	kept += keeps ? 1 : -1;
}

bool
container_is_kept(const Container *c)
{
	return wire_connection != 0 && c->kept_over == wire_connection;
}

bool
containers_any_kept(void)
{
	return wire_connection != 0 && kept_over == wire_connection && kept > 0;
}

static bool
is_remembered(const Container *c)
{
	return c->is_remembered;
}

static void
each(bool (*is_one) (const Container *), void (*deed) (Container *))
{
	HASH_SEQ_STATUS all;
	Container  *c;

	hash_seq_init(&all, containers);
	while ((c = hash_seq_search(&all)) != NULL)
		if (is_one(c))
			deed(c);
}

/* Does a deed to each container whose read is kept. It may throw. */
void
containers_each_kept(void (*deed) (Container *))
{
	if (containers_any_kept())
		each(container_is_kept, deed);
}

/* From now on the session may remember what the container holds: in a variable, a setting, a name, a cursor's place. */
void
container_remember(Container *c)
{
	remembered += c->is_remembered ? 0 : 1;
	c->is_remembered = true;
}

/* Does a deed to each container that the session may remember. It may throw. */
void
containers_each_remembered(void (*deed) (Container *))
{
	if (remembered > 0)
		each(is_remembered, deed);
}

static void
forget(Container *c)
{
	c->is_remembered = false;
}

void
containers_forget(void)
{
	containers_each_remembered(forget);
	remembered = 0;
}
