/* The files that the kernel knows of, by the numbers that are shown of them; each is held open by its path alone. */
#include "mlsfs.h"
#include <fcntl.h>
#include <pthread.h>
#include <stdlib.h>
#include <unistd.h>

#define BUCKETS 4096
#define REFERENCES 64           /* that are dealt with at a time */

static struct node root = {.fd = -1}, *buckets[BUCKETS];
static int staging = -1;
static dev_t device;
static pthread_mutex_t lock = PTHREAD_MUTEX_INITIALIZER;

int nodes_staging(void) { return staging; }

/* Opens what mlsfs --make made: the files, and the staging folder beside them. */
bool nodes_open(const char *folder)
{
	struct stat found;
	int top = open(folder, O_PATH | O_DIRECTORY | O_CLOEXEC);
	close(root.fd);
	close(staging);
	root = (struct node){.number = FUSE_ROOT_ID, .lookups = 1, .type = S_IFDIR};
	root.fd = openat(top, "files", O_PATH | O_DIRECTORY | O_NOFOLLOW | O_CLOEXEC);
	staging = openat(top, "staging", O_PATH | O_DIRECTORY | O_NOFOLLOW | O_CLOEXEC);
	bool is_made = root.fd >= 0 && staging >= 0 && fstat(root.fd, &found) == 0 && numbers_open(top);
	if (top >= 0)
		close(top);
	if (is_made)
		device = found.st_dev;
	return is_made;
}

static struct node **place_of(fuse_ino_t number)
{
	struct node **at = &buckets[number % BUCKETS];
	while (*at && (*at)->number != number)
		at = &(*at)->next;
	return at;
}

/* The node of a number that the kernel names: it holds a reference, so the node stays. */
struct node *node_of(fuse_ino_t number)
{
	if (number == FUSE_ROOT_ID)
		return &root;
	pthread_mutex_lock(&lock);
	struct node *found = *place_of(number);
	pthread_mutex_unlock(&lock);
	return found;
}

/* Takes a reference to the node of a file that is open, which the node keeps, or closes it. */
static struct node *enter(int fd, const struct stat *file)
{
	fuse_ino_t number = number_shown(file->st_ino);
	pthread_mutex_lock(&lock);
	struct node **at = place_of(number), *node = *at;
	bool is_known = node != NULL;
	if (!is_known && (node = calloc(1, sizeof *node)))
		*at = node, node->number = number, node->fd = fd, node->type = file->st_mode & S_IFMT;
	if (node)
		node->lookups++;
	pthread_mutex_unlock(&lock);
	if (is_known || !node)
		close(fd);
	return node;
}

int node_find(struct node *folder, const char *name, struct node **found)
{
	struct stat file;
	*found = NULL;
	if (strcmp(name, ".") == 0 || strcmp(name, "..") == 0)
		return ENOENT;
	int fd = entry_open(folder->fd, name, &file);
	if (fd < 0)
		return errno;
	/* (another disk that is mounted among the files has no labels of ours) */
	if (file.st_dev != device) {
		close(fd);
		return ENOENT;
	}
	*found = enter(fd, &file);
	return *found ? 0 : ENOMEM;
}

void node_forget(struct node *node, uint64_t lookups)
{
	if (!node || node == &root)
		return;
	pthread_mutex_lock(&lock);
	node->lookups -= lookups;
	bool is_gone = node->lookups == 0;
	if (is_gone)
		*place_of(node->number) = node->next;
	pthread_mutex_unlock(&lock);
	if (is_gone) {
		owners_end(node);
		close(node->fd);
		free(node);
	}
}

/* Takes a reference to the node of a backing file's inode, where the kernel knows of it; else NULL. */
struct node *node_known(uint64_t number)
{
	pthread_mutex_lock(&lock);
	struct node *node = *place_of(number_shown(number));
	if (node)
		node->lookups++;
	pthread_mutex_unlock(&lock);
	return node;
}

bool node_is_known(uint64_t number)
{
	struct node *node = node_known(number);
	node_forget(node, 1);
	return node;
}

/* What is shown of a file: no time of a read, which would tell of readers above, and no number that counts. */
int node_show(struct node *node, struct stat *shown)
{
	if (fstat(node->fd, shown) != 0)
		return errno;
	shown->st_ino = node == &root ? FUSE_ROOT_ID : number_shown(shown->st_ino);
	shown->st_dev = 0;
	shown->st_atim = shown->st_mtim;
	return 0;
}

/* References to nodes of files with a label, from a bucket on; returns their count. */
static int referenced(int container, int *bucket, struct node *found[REFERENCES])
{
	int count = 0;
	pthread_mutex_lock(&lock);
	for (; *bucket < BUCKETS && count < REFERENCES / 2; ++*bucket)
		for (struct node *node = buckets[*bucket]; node && count < REFERENCES; node = node->next)
			if (S_ISREG(node->type) && label_now(node) == container) {
				node->lookups++;
				found[count++] = node;
			}
	pthread_mutex_unlock(&lock);
	return count;
}

/* Does something with each file of a label that the kernel knows of. */
void nodes_each(int container, void (*deed)(struct node *))
{
	struct node *found[REFERENCES];
	for (int bucket = 0; bucket < BUCKETS;) {
		int count = referenced(container, &bucket, found);
		for (int k = 0; k < count; k++) {
			deed(found[k]);
			node_forget(found[k], 1);
		}
	}
}
