/* The table of operations, and how a row of it is decided. */
#include "rules.h"
#include <errno.h>

#define NEEDS 5

/* An access that an operation needs: to which place, and what is shown where it lacks. */
struct need {
	enum place place;
	bool alters;            /* read and append; else read alone */
	bool is_blind;          /* append alone */
	int shown;
};

/* What may stand in which folder. */
struct fit {
	enum place folder, file;
};

struct rule {
	const char *name;
	int refused;            /* always, whoever asks */
	enum descriptors descriptors;
	int count, fits;
	struct need need[NEEDS];
	struct fit fit[2];
};

#define SEES(place, shown) {place, false, false, shown}
#define ALTERS(place, shown) {place, true, false, shown}
#define BLINDLY(place, shown) {place, false, true, shown}

/*
 * A file that may not be read is not there (ENOENT) for whoever names it. Where its descriptor, or its folder, is at
 * hand the lack is told (EACCES). A name that is taken by such a file can not be made: its folder's level knows of it.
 */
static const struct rule rules[OPERATIONS] = {
	[LOOK_UP] = {"look up", 0, STAY, 2, 0, {SEES(FOLDER, EACCES), SEES(FILE_OF, ENOENT)}, {}},
	[LIST] = {"list an entry", 0, STAY, 1, 0, {SEES(FILE_OF, ENOENT)}, {}},
	[SHOW] = {"show attributes", 0, STAY, 1, 0, {SEES(FILE_OF, EACCES)}, {}},
	[READ_LINK] = {"read a link", 0, STAY, 1, 0, {SEES(FILE_OF, EACCES)}, {}},
	[LIST_FOLDER] = {"list a folder", 0, STAY, 1, 0, {SEES(FILE_OF, EACCES)}, {}},
	[OPEN_TO_READ] = {"open to read", 0, KEEP, 1, 0, {SEES(FILE_OF, EACCES)}, {}},
	[OPEN_TO_WRITE] = {"open to write", 0, KEEP, 1, 0, {ALTERS(FILE_OF, EACCES)}, {}},
	[READ_DATA] = {"read data", 0, STAY, 1, 0, {SEES(FILE_OF, EACCES)}, {}},
	[WRITE_DATA] = {"write data", 0, STAY, 1, 0, {ALTERS(FILE_OF, EACCES)}, {}},
	[CHANGE] = {"change attributes", 0, STAY, 1, 0, {ALTERS(FILE_OF, EACCES)}, {}},
	[MAKE] = {"make an entry", 0, STAY, 1, 0, {ALTERS(FOLDER, EACCES)}, {}},
	[REMOVE] = {"remove", 0, STAY, 3, 0, {ALTERS(FOLDER, EACCES), SEES(FILE_OF, ENOENT), ALTERS(FILE_OF, EACCES)}, {}},
	[RENAME] = {"rename", 0, STAY, 4, 1, {ALTERS(FOLDER, EACCES), ALTERS(TARGET, EACCES), SEES(FILE_OF, ENOENT),
		ALTERS(FILE_OF, EACCES)}, {{TARGET, FILE_OF}}},
	[RENAME_OVER] = {"rename over", 0, STAY, 5, 1, {ALTERS(FOLDER, EACCES), ALTERS(TARGET, EACCES),
		SEES(FILE_OF, ENOENT), ALTERS(FILE_OF, EACCES), ALTERS(REPLACED, EACCES)}, {{TARGET, FILE_OF}}},
	[EXCHANGE] = {"exchange", 0, STAY, 5, 2, {ALTERS(FOLDER, EACCES), ALTERS(TARGET, EACCES), SEES(FILE_OF, ENOENT),
		ALTERS(FILE_OF, EACCES), ALTERS(REPLACED, EACCES)}, {{TARGET, FILE_OF}, {FOLDER, REPLACED}}},
	[LINK] = {"link", 0, STAY, 2, 1, {ALTERS(TARGET, EACCES), ALTERS(FILE_OF, EACCES)}, {{TARGET, FILE_OF}}},
	[LOCK] = {"lock", 0, STAY, 1, 0, {ALTERS(FILE_OF, EACCES)}, {}},
	[RELABEL] = {"relabel", 0, DECIDED_ANEW, 3, 1, {ALTERS(FILE_OF, EACCES), ALTERS(FOLDER, EACCES),
		BLINDLY(NEW_LABEL, EACCES)}, {{FOLDER, NEW_LABEL}}},
	[MAKE_SPECIAL] = {"make a pipe, socket or device", EPERM, STAY, 0, 0, {}, {}},
	[CHANGE_ACL] = {"an access control list", EOPNOTSUPP, STAY, 0, 0, {}, {}},
	[ROOM] = {"ask for the room that is left", 0, STAY, 0, 0, {}, {}},
};

const char *rules_name(enum operation operation) { return rules[operation].name; }

enum descriptors rules_descriptors(enum operation operation) { return rules[operation].descriptors; }

static bool uses(const struct need *need, enum mode mode)
{
	return mode == READ ? !need->is_blind : need->alters || need->is_blind;
}

/* Lets go of what the first needs of a rule have. */
static void drop_needs(const struct rule *rule, int count, const int *container, const struct asker *asker)
{
	for (int k = 0; k < count; k++)
		for (enum mode mode = READ; mode < MODES; mode++)
			if (uses(&rule->need[k], mode))
				asker->drop(asker->session, mode, container[rule->need[k].place]);
}

/* Takes what one need has, or nothing. A denial becomes what is shown; other faults stay what they are. */
static int take_need(const struct need *need, int container, const struct asker *asker)
{
	for (enum mode mode = READ; mode < MODES; mode++) {
		int error = !uses(need, mode) ? 0
			: container == CONTAINER_NONE ? EACCES : asker->take(asker->session, mode, container);
		if (error == 0)
			continue;
		if (mode == APPEND && uses(need, READ))
			asker->drop(asker->session, READ, container);
		return error == EACCES ? need->shown : error;
	}
	return 0;
}

int rules_begin(enum operation operation, const int container[PLACES], const struct asker *asker)
{
	const struct rule *rule = &rules[operation];
	int error = rule->refused, taken = 0;
	while (error == 0 && taken < rule->count) {
		const struct need *need = &rule->need[taken];
		error = take_need(need, container[need->place], asker);
		taken += error == 0;
	}
	for (int k = 0; error == 0 && k < rule->fits; k++) {
		int folder = container[rule->fit[k].folder], file = container[rule->fit[k].file];
		error = folder == file ? 0 : asker->may_stand(asker->session, folder, file);
	}
	if (error)
		drop_needs(rule, taken, container, asker);
	return error;
}

void rules_end(enum operation operation, const int container[PLACES], const struct asker *asker)
{
	drop_needs(&rules[operation], rules[operation].count, container, asker);
}
