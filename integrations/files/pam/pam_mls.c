/*
 * pam_mls: a login session whose folders the monitor decides about.
 *
 *     auth    optional pam_mls.so               asks for the level, where nobody has given one
 *     session required pam_mls.so [PROGRAM]     takes a namespace of mounts, and runs PROGRAM in it, which mounts mlsfs
 *
 * The level is MLS_LEVEL of PAM's environment, which PROGRAM (/etc/mlsfs/login) gets. It stands behind pam_loginuid,
 * which begins the audit session. The session ends with its last process: its namespace then ends, and mlsfs with it.
 */
#define _GNU_SOURCE
#include <errno.h>
#include <sched.h>
#include <security/pam_ext.h>
#include <security/pam_modules.h>
#include <signal.h>
#include <stdio.h>
#include <stdlib.h>
#include <sys/mount.h>
#include <sys/wait.h>
#include <syslog.h>
#include <unistd.h>

#define PROGRAM "/etc/mlsfs/login"
#define LEVEL "MLS_LEVEL"
#define VARIABLE_BYTES 256

/* Asks for the level. It authenticates nobody: without an answer the session has the level of the start. */
int pam_sm_authenticate(pam_handle_t *handle, int flags, int count, const char **words)
{
	char *answer = NULL, variable[VARIABLE_BYTES];
	(void)flags, (void)count, (void)words;
	if (!pam_getenv(handle, LEVEL) &&
	    pam_prompt(handle, PAM_PROMPT_ECHO_ON, &answer, "Level (or nothing): ") == PAM_SUCCESS && answer && answer[0] &&
	    snprintf(variable, sizeof variable, LEVEL "=%s", answer) < (int)sizeof variable)
		pam_putenv(handle, variable);
	free(answer);
	return PAM_IGNORE;
}

int pam_sm_setcred(pam_handle_t *handle, int flags, int count, const char **words)
{
	(void)handle, (void)flags, (void)count, (void)words;
	return PAM_IGNORE;
}

/* Runs the program with the user's name and the level alone; returns whether it ended well. */
static int run(pam_handle_t *handle, const char *program, const char *user)
{
	char level[VARIABLE_BYTES], name[VARIABLE_BYTES];
	const char *wanted = pam_getenv(handle, LEVEL);
	char *environment[] = {"PATH=/usr/sbin:/usr/bin:/sbin:/bin", name, level, NULL}, *arguments[] = {(char *)program, NULL};
	struct sigaction usual = {.sa_handler = SIG_DFL}, before;
	int status = -1;
	snprintf(name, sizeof name, "MLS_USER=%s", user);
	snprintf(level, sizeof level, LEVEL "=%s", wanted ? wanted : "");
	sigaction(SIGCHLD, &usual, &before);
	pid_t child = fork();
	if (child == 0) {
		/* (mlsfs outlives this login's descriptors) */
		if (close_range(3, ~0U, 0) == 0 && setresgid(0, 0, 0) == 0 && setresuid(0, 0, 0) == 0)
			execve(program, arguments, environment);
		_exit(127);
	}
	while (child > 0 && waitpid(child, &status, 0) < 0 && errno == EINTR)
		continue;
	sigaction(SIGCHLD, &before, NULL);
	return child > 0 && status == 0;
}

int pam_sm_open_session(pam_handle_t *handle, int flags, int count, const char **words)
{
	const char *user = NULL, *program = count > 0 ? words[0] : PROGRAM;
	(void)flags;
	if (pam_get_user(handle, &user, NULL) != PAM_SUCCESS || !user)
		return PAM_SESSION_ERR;
	if (unshare(CLONE_NEWNS) != 0 || mount(NULL, "/", NULL, MS_REC | MS_PRIVATE, NULL) != 0) {
		pam_syslog(handle, LOG_ERR, "no namespace of mounts: %m");
		return PAM_SESSION_ERR;
	}
	if (run(handle, program, user))
		return PAM_SUCCESS;
	pam_syslog(handle, LOG_ERR, "%s failed for %s", program, user);
	pam_error(handle, "The folders, or this level, can't be had.");
	return PAM_SESSION_ERR;
}

int pam_sm_close_session(pam_handle_t *handle, int flags, int count, const char **words)
{
	(void)handle, (void)flags, (void)count, (void)words;
	return PAM_SUCCESS;
}
