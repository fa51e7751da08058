#define _GNU_SOURCE
#include "control.h"

#include <errno.h>
#include <poll.h>
#include <stdbool.h>
#include <stdio.h>
#include <string.h>
#include <sys/signalfd.h>
#include <sys/socket.h>
#include <sys/stat.h>
#include <sys/un.h>
#include <unistd.h>

#include "changes.h"
#include "gates.h"

/* While it is frozen, changes to whose process a signal has come are looked at so often. */
enum { CLIENTS = 16, LOOK_MILLISECONDS = 100 };

struct client {
	int fd; /* -1: none */
	size_t size;
	char line[32];
};

static char path[sizeof(((struct sockaddr_un *)NULL)->sun_path)];
static int listener = -1;
static struct client clients[CLIENTS];
static unsigned int next_to_leave;

/* The client whose connection a freeze lasts for, or NULL. */
static struct client *freezer;

int control_open(const char *at)
{
	struct sockaddr_un address = { .sun_family = AF_UNIX };
	mode_t mask;
	int error = 0;
	unsigned int number;

	for (number = 0; number < CLIENTS; number++)
		clients[number].fd = -1;
	if (strlen(at) >= sizeof(path))
		return ENAMETOOLONG;
	listener = socket(AF_UNIX, SOCK_STREAM | SOCK_CLOEXEC | SOCK_NONBLOCK, 0);
	if (listener < 0)
		return errno;
	strcpy(address.sun_path, at);
	mask = umask(0177);
	if (bind(listener, (struct sockaddr *)&address, sizeof(address)) || listen(listener, SOMAXCONN))
		error = errno;
	umask(mask);
	if (error == 0)
		strcpy(path, at);
	return error;
}

static int freeze(void)
{
	/* Each change that waited for the last thaw gets its turn before the next freeze. */
	if (!gates_are_frozen())
		changes_settle();
	return gates_freeze();
}

static int thaw(void)
{
	int error = gates_thaw();

	if (error == 0)
		freezer = NULL;
	return error;
}

/* Does a command. 0 or an errno. */
static int obey(struct client *client, const char *word)
{
	int error;

	if (!strcmp(word, "status"))
		return 0;
	if (!strcmp(word, "freeze") || !strcmp(word, "during"))
		error = freeze();
	else if (!strcmp(word, "thaw"))
		error = thaw();
	else if (!strcmp(word, "release"))
		error = freezer == client ? thaw() : EINVAL;
	else if (!strcmp(word, "ro") || !strcmp(word, "rw"))
		error = gates_remount(word[1] == 'o');
	else
		return EINVAL;
	if (error == 0 && !strcmp(word, "during"))
		freezer = client;
	changes_retry();
	return error;
}

static void answer(const struct client *client, int error)
{
	struct change_counts counts;
	char text[160];

	changes_count(&counts);
	if (error)
		snprintf(text, sizeof(text), "refused: %s\n", strerror(error));
	else
		snprintf(text, sizeof(text), "ok: %s, %s; %u waiting, %u waited, %u given up\n",
			 gates_are_frozen() ? "frozen" : "thawed",
			 gates_are_read_only() ? "ro" : "rw",
			 counts.waiting, counts.waited, counts.given_up);
	send(client->fd, text, strlen(text), MSG_DONTWAIT | MSG_NOSIGNAL);
}

/* However a client leaves, a freeze for its connection ends. */
static void leave(struct client *client)
{
	if (freezer == client) {
		thaw();
		freezer = NULL;
		changes_retry();
	}
	close(client->fd);
	client->fd = -1;
}

static void hear(struct client *client)
{
	ssize_t got = recv(client->fd, client->line + client->size,
			   sizeof(client->line) - client->size, MSG_DONTWAIT);
	char *end;

	if (got < 0 && (errno == EAGAIN || errno == EINTR))
		return;
	if (got <= 0) {
		leave(client);
		return;
	}
	client->size += (size_t)got;
	while ((end = memchr(client->line, '\n', client->size)) != NULL) {
		*end = '\0';
		answer(client, obey(client, client->line));
		client->size -= (size_t)(end + 1 - client->line);
		memmove(client->line, end + 1, client->size);
	}
	if (client->size == sizeof(client->line))
		leave(client);
}

/* A free place, or that of a client who holds no freeze: silent ones must not keep others out. */
static struct client *place(void)
{
	unsigned int number;

	for (number = 0; number < CLIENTS; number++)
		if (clients[number].fd < 0)
			return &clients[number];
	do
		next_to_leave = (next_to_leave + 1) % CLIENTS;
	while (&clients[next_to_leave] == freezer);
	leave(&clients[next_to_leave]);
	return &clients[next_to_leave];
}

static void greet(void)
{
	int fd = accept4(listener, NULL, NULL, SOCK_CLOEXEC);
	struct client *client;

	if (fd < 0)
		return;
	client = place();
	client->fd = fd;
	client->size = 0;
}

int control_run(int signals, int ended)
{
	struct pollfd all[CLIENTS + 3];
	struct signalfd_siginfo signal;
	unsigned int number;

	for (;;) {
		/* poll leaves out what has -1. */
		for (number = 0; number < CLIENTS; number++)
			all[number] = (struct pollfd){ clients[number].fd, POLLIN, 0 };
		all[CLIENTS] = (struct pollfd){ listener, POLLIN, 0 };
		all[CLIENTS + 1] = (struct pollfd){ signals, POLLIN, 0 };
		all[CLIENTS + 2] = (struct pollfd){ ended, POLLIN, 0 };
		if (poll(all, CLIENTS + 3, gates_are_frozen() ? LOOK_MILLISECONDS : -1) < 0)
			continue;
		if (all[CLIENTS + 2].revents)
			return 0;
		if (all[CLIENTS + 1].revents && read(signals, &signal, sizeof(signal)) > 0)
			return (int)signal.ssi_signo;
		for (number = 0; number < CLIENTS; number++)
			if (all[number].revents)
				hear(&clients[number]);
		if (all[CLIENTS].revents)
			greet();
		changes_retry_interrupted();
	}
}

void control_close(void)
{
	unsigned int number;

	freezer = NULL;
	for (number = 0; number < CLIENTS; number++)
		if (clients[number].fd >= 0)
			close(clients[number].fd);
	if (path[0])
		unlink(path);
	close(listener);
}
