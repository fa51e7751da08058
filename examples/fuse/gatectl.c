/*
 * Freezes and thaws what passthrough has mounted.
 *
 *     gatectl SOCKET freeze|thaw|ro|rw|status
 *     gatectl SOCKET during COMMAND [WORD..]
 *
 * `during` freezes, runs COMMAND and thaws, however COMMAND ends, and if gatectl itself is killed.
 * Exit status: 0 done, 1 refused, 2 no answer; with `during` that of COMMAND, and 125 if it was not
 * frozen from COMMAND's beginning to its end.
 */
#define _GNU_SOURCE
#include <errno.h>
#include <signal.h>
#include <stdio.h>
#include <stdlib.h>
#include <string.h>
#include <sys/prctl.h>
#include <sys/socket.h>
#include <sys/un.h>
#include <sys/wait.h>
#include <unistd.h>

enum { DONE = 0, REFUSED = 1, NO_ANSWER = 2, NOT_FROZEN = 125, NOT_RUN = 126, NOT_FOUND = 127 };

static int reach(const char *path)
{
	struct sockaddr_un address = { .sun_family = AF_UNIX };
	int fd = socket(AF_UNIX, SOCK_STREAM | SOCK_CLOEXEC, 0);

	if (strlen(path) >= sizeof(address.sun_path)) {
		errno = ENAMETOOLONG;
	} else {
		strcpy(address.sun_path, path);
		if (fd >= 0 && connect(fd, (struct sockaddr *)&address, sizeof(address)) == 0)
			return fd;
	}
	perror(path);
	exit(NO_ANSWER);
}

/* Sends a command and reads its answer. */
static int ask(int fd, const char *word, FILE *to)
{
	char line[64], said[256] = "";
	ssize_t got = -1;

	snprintf(line, sizeof(line), "%s\n", word);
	if (send(fd, line, strlen(line), MSG_NOSIGNAL) > 0)
		got = recv(fd, said, sizeof(said) - 1, 0);
	if (got <= 0) {
		fprintf(stderr, "gatectl: no answer\n");
		return NO_ANSWER;
	}
	said[got] = '\0';
	if (strncmp(said, "ok", 2)) {
		fprintf(stderr, "gatectl: %s: %s", word, said);
		return REFUSED;
	}
	if (to)
		fputs(said, to);
	return DONE;
}

static void run_command(char **words, pid_t parent)
{
	int error;

	/* It must not go on when nothing is frozen any more. */
	prctl(PR_SET_PDEATHSIG, SIGTERM);
	if (getppid() != parent)
		_exit(NOT_FROZEN);
	signal(SIGINT, SIG_DFL);
	signal(SIGQUIT, SIG_DFL);
	execvp(words[0], words);
	error = errno;
	perror(words[0]);
	_exit(error == ENOENT ? NOT_FOUND : NOT_RUN);
}

static int during(int fd, char **words)
{
	pid_t self = getpid(), child;
	int status = 0;

	if (ask(fd, "during", NULL))
		return NOT_FROZEN;
	/* The terminal sends these to COMMAND, too; gatectl waits for how it ends. */
	signal(SIGINT, SIG_IGN);
	signal(SIGQUIT, SIG_IGN);
	child = fork();
	if (child == 0)
		run_command(words, self);
	if (child < 0) {
		perror("fork");
		return NOT_FROZEN;
	}
	while (waitpid(child, &status, 0) < 0 && errno == EINTR)
		;
	if (ask(fd, "release", NULL)) {
		fprintf(stderr, "gatectl: it was thawed before %s had ended\n", words[0]);
		return NOT_FROZEN;
	}
	return WIFSIGNALED(status) ? 128 + WTERMSIG(status) : WEXITSTATUS(status);
}

int main(int count, char **words)
{
	static const char *const known[] = { "freeze", "thaw", "ro", "rw", "status" };
	size_t number;

	if (count >= 4 && !strcmp(words[2], "during"))
		return during(reach(words[1]), words + 3);
	for (number = 0; count == 3 && number < sizeof(known) / sizeof(known[0]); number++)
		if (!strcmp(words[2], known[number]))
			return ask(reach(words[1]), words[2], stdout);
	fprintf(stderr, "usage: gatectl SOCKET freeze|thaw|ro|rw|status\n"
			"       gatectl SOCKET during COMMAND [WORD..]\n");
	return NO_ANSWER;
}
