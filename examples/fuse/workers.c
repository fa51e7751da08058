#define _GNU_SOURCE
#include "workers.h"

#include <errno.h>
#include <fcntl.h>
#include <poll.h>
#include <pthread.h>
#include <signal.h>
#include <stdatomic.h>
#include <stdint.h>
#include <stdlib.h>
#include <unistd.h>

enum { KICK_MILLISECONDS = 20 };

struct worker {
	pthread_t thread;
	_Atomic uint64_t turn; /* the last that it has seen between two requests */
};

static struct fuse_session *session;
static struct worker workers[MOST_WORKERS];
static unsigned int count;
static _Atomic uint64_t turns;
static int ended[2]; /* a pipe: a byte from each worker that has ended */

static void wake(int number)
{
	(void)number;
}

static void *serve(void *data)
{
	struct fuse_buf request = { .mem = NULL };
	struct worker *worker = data;
	int got;

	while (!fuse_session_exited(session)) {
		atomic_store(&worker->turn, atomic_load(&turns));
		got = fuse_session_receive_buf(session, &request);
		if (got > 0)
			fuse_session_process_buf(session, &request);
		else if (got != -EINTR && got != -EAGAIN)
			break;
	}
	free(request.mem);
	atomic_store(&worker->turn, UINT64_MAX);
	if (write(ended[1], "", 1) < 0)
		abort();
	return NULL;
}

int workers_start(struct fuse_session *of_session, unsigned int of_count)
{
	const struct sigaction waking = { .sa_handler = wake };
	int error;

	session = of_session;
	if (pipe2(ended, O_CLOEXEC) || sigaction(SIGUSR1, &waking, NULL))
		return errno;
	for (count = 0; count < of_count; count++) {
		error = pthread_create(&workers[count].thread, NULL, serve, &workers[count]);
		if (error)
			return error;
	}
	return 0;
}

int workers_ended(void)
{
	return ended[0];
}

/* One that waits for the kernel is woken; it may just be about to wait, so more than once. */
void workers_catch_up(void)
{
	uint64_t turn = atomic_fetch_add(&turns, 1) + 1;
	unsigned int number;

	for (number = 0; number < count; number++) {
		while (atomic_load(&workers[number].turn) < turn) {
			pthread_kill(workers[number].thread, SIGUSR1);
			usleep(100);
		}
	}
}

void workers_end(void)
{
	struct pollfd has_ended = { ended[0], POLLIN, 0 };
	unsigned int number, left = count;
	char byte;

	fuse_session_exit(session);
	while (left) {
		for (number = 0; number < count; number++)
			pthread_kill(workers[number].thread, SIGUSR1);
		while (left && poll(&has_ended, 1, KICK_MILLISECONDS) > 0)
			if (read(ended[0], &byte, 1) == 1)
				left--;
	}
	for (number = 0; number < count; number++)
		pthread_join(workers[number].thread, NULL);
	close(ended[0]);
	close(ended[1]);
}
