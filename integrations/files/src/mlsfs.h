/*
 * What the files of mlsfs share. One process serves one mount for one login session, over a folder whose files have the
 * name of a container in an extended attribute; each access is decided by the monitor, as that session's subject.
 */
#ifndef MLSFS_H
#define MLSFS_H
#define _GNU_SOURCE
#define FUSE_USE_VERSION 314
#include "rules.h"
#include <errno.h>
#include <fuse3/fuse_lowlevel.h>
#include <stdint.h>
#include <stdio.h>
#include <string.h>
#include <sys/stat.h>

#define NAME_BYTES 32           /* no name of the monitor is longer */
#define CONTAINERS 512          /* that a session may meet */
#define ANSWER_BYTES 256
#define PATH_BYTES 64           /* of /proc/self/fd/N */
#define MARK_BYTES 1024         /* of the labels of a multilevel folder */
#define LABEL "trusted.mls"     /* the attribute of a backing file */
#define SHOWN_LABEL "user.mls"  /* its name for users */
#define RUN_FOLDER "/run/mlsfs" /* of what the machine's sessions share until it stops */
#define CONTROL_NAME ".mls"     /* the file below the mount that tells and sets the level */
#define CONTROL_NODE ((fuse_ino_t)1 << 62)
#define REPLIED (-1)            /* an operation has replied by itself */

/* labels.c: containers by numbers, and the labels of files */
extern int label_number(const char *name);
extern const char *label_name(int container);
struct node;
extern bool labels_open(void);
extern int label_of(int fd);                    /* as it is on the disk */
extern int label_now(struct node *node);        /* the same, which is read anew only after a relabelling */
extern int label_put(int fd, int container);    /* of a file that has no name yet */
extern int label_change(int fd, int container);
extern const char *path_of(int fd, char path[PATH_BYTES]);

/* wire.c: the connection to mlsd. An answer of NULL: it is lost, for good */
extern bool wire_open(const char *socket);
extern void wire_start(void (*lost)(const char *mode, const char *object));
extern bool wire_ask(const char *line, char answer[ANSWER_BYTES]);
extern void wire_tell(const char *line);
extern bool wire_is_lost(void);

/* monitor.c: what the session holds */
extern const struct asker monitor;
extern bool monitor_open(const char *socket, const char *subject);
extern void monitor_start(void (*forget)(int container));
extern void monitor_enter(void);        /* an operation is under way: what it was granted isn't acknowledged as lost */
extern void monitor_leave(void);
extern int monitor_level(const char *label);
extern const char *monitor_subject(void);

/* level.c: the level that the session has */
extern void level_changed(void);
extern bool monitor_is_level(int container);
extern void monitor_describe(char *text, size_t size);

/* notes.c: what mlsd is told, and asked, that is no access */
extern void monitor_note(const char *deed, int fd);
extern bool monitor_knows(const char *container);

/* session.c: the login session, which a process can't leave */
extern bool session_find(char *name, size_t size);
extern bool session_has(pid_t pid);
extern bool session_claim(void);
extern void session_end(void);

/* numbers.c: inode numbers, which would count what others make */
extern bool numbers_open(int folder);
extern uint64_t number_shown(uint64_t number);

/* levels.c: multilevel folders, and so what a session has behind a name */
extern bool levels_of(int folder, char labels[MARK_BYTES]);
extern int levels_make(const char *path, char *const *labels, int count);
extern int entry_open(int folder, const char *name, struct stat *file);

/* nodes.c: what the kernel knows of */
struct owner {                  /* of locks on a file */
	struct owner *next;
	uint64_t number;
	int fd;
};
struct node {
	struct node *next;
	fuse_ino_t number;
	uint64_t lookups;
	int fd;                 /* O_PATH */
	mode_t type;
	_Atomic uint64_t label; /* as it was read last, and when */
	int noted[MODES];       /* of reads and writes: the label with which the last note of one was left, and one */
	struct owner *owners;
};
extern bool nodes_open(const char *folder);
extern int nodes_staging(void); /* a folder that is not shown, for what has no name yet */
extern struct node *node_of(fuse_ino_t number);
extern int node_find(struct node *folder, const char *name, struct node **found);
extern void node_forget(struct node *node, uint64_t lookups);
extern struct node *node_known(uint64_t number);
extern bool node_is_known(uint64_t number);
extern int node_show(struct node *node, struct stat *shown);
extern void nodes_each(int container, void (*deed)(struct node *));

/* handles.c: open descriptors */
struct handle {
	struct node *node;
	int fd, container;      /* that of its last decision, which it keeps */
	enum operation opened;
	void *listing;          /* of a folder */
};
extern struct handle *handle_of(const struct fuse_file_info *info);
extern struct handle *handle_open(struct node *node, int flags, enum operation operation, int *error);
extern struct handle *handle_new(struct node *node, int fd, int container, enum operation operation);
extern void handle_end(struct handle *handle);
extern void handle_note(struct node *node, const struct handle *handle);
extern int file_begin(struct node *node, enum operation operation, int *container);
extern void file_end(enum operation operation, int container);
extern enum operation handle_needs(int flags);

/* served.c: an operation from its request to its reply */
extern int served_begin(fuse_req_t req, bool by_kernel);
extern void served_end(fuse_req_t req, int error);
#define SERVE(req, deed) SERVE_ALSO_KERNEL(req, deed, false)
#define SERVE_ALSO_KERNEL(req, deed, by_kernel) do { \
	int served_error = served_begin(req, by_kernel); \
	if (served_error != 0) \
		fuse_reply_err(req, served_error); \
	else \
		served_end(req, deed); \
} while (0)

/* The requests of FUSE, each in the file of its kind. */
extern void entries_serve(struct fuse_lowlevel_ops *ops);
extern void changes_serve(struct fuse_lowlevel_ops *ops);
extern void data_serve(struct fuse_lowlevel_ops *ops);
extern void folders_serve(struct fuse_lowlevel_ops *ops);
extern void attributes_serve(struct fuse_lowlevel_ops *ops);
extern void extended_serve(struct fuse_lowlevel_ops *ops);
extern void locks_serve(struct fuse_lowlevel_ops *ops);
extern int entry_reply(fuse_req_t req, struct node *node, int container, struct fuse_file_info *opened);
extern bool is_control(struct node *folder, const char *name);
extern int control_read(fuse_req_t req, size_t size, off_t offset);
extern int control_write(fuse_req_t req, const char *text, size_t size);
extern void control_show(struct stat *shown);
extern int relabel(struct node *node, const char *text, size_t size);
extern void owners_end(struct node *node);

/* mount.c, folder.c */
extern int mount_at(const char *folder);
extern const struct fuse_custom_io mount_io;
extern int folder_make(const char *folder, const char *container);
extern int folder_check(const char *folder);
#endif
