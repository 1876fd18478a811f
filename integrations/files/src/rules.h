/*
 * What each operation on files needs of the monitor. Nothing here knows of FUSE, of mlsd or of files: an operation
 * touches places, each of which has a container, and whoever asks is behind an asker.
 */
#ifndef MLSFS_RULES_H
#define MLSFS_RULES_H
#include <stdbool.h>
#include <stddef.h>

/* An access to a container. Whoever alters a file also sees it here, so that writes need both. */
enum mode { READ, APPEND, MODES };

/* What an operation touches. */
enum place {
	FILE_OF,        /* the file, folder or symbolic link itself */
	FOLDER,         /* the folder in which its name stands */
	TARGET,         /* the folder that gets a name */
	REPLACED,       /* what had that name before */
	NEW_LABEL,      /* the container that a file is to have */
	PLACES
};

enum operation {
	LOOK_UP, LIST, SHOW, READ_LINK, LIST_FOLDER,
	OPEN_TO_READ, OPEN_TO_WRITE, READ_DATA, WRITE_DATA,
	CHANGE, MAKE, REMOVE, RENAME, RENAME_OVER, EXCHANGE, LINK,
	LOCK, RELABEL, MAKE_SPECIAL, CHANGE_ACL, ROOM,
	OPERATIONS
};

/* What becomes of the descriptors of the file that are open, here and in other sessions. */
enum descriptors {
	STAY,           /* nothing that they need has changed */
	KEEP,           /* the one that this opens keeps its access until its last use; reads stay to the session's end */
	DECIDED_ANEW    /* the next read or write of each needs the container that the file has then */
};

#define CONTAINER_NONE (-1)     /* of a file without a label: nobody has an access to it */

/* Who asks: gets, and lets go of, accesses to containers. Each call returns 0 or an errno, EACCES for a denial. */
struct asker {
	int (*take)(void *session, enum mode mode, int container);
	void (*drop)(void *session, enum mode mode, int container);
	int (*may_stand)(void *session, int folder, int container);     /* compatibility, as the monitor's create has it */
	void *session;
};

const char *rules_name(enum operation operation);
enum descriptors rules_descriptors(enum operation operation);

/* Takes all that the operation needs, in the order of the table, and returns 0; or takes nothing, and returns what is
   to be shown. Places that the operation does not touch are not looked at. */
int rules_begin(enum operation operation, const int container[PLACES], const struct asker *asker);

/* Lets go of what rules_begin took. */
void rules_end(enum operation operation, const int container[PLACES], const struct asker *asker);
#endif
