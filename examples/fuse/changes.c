#define _GNU_SOURCE
#include "changes.h"

#include <errno.h>
#include <pthread.h>
#include <signal.h>
#include <stdatomic.h>
#include <stdio.h>
#include <stdlib.h>
#include <string.h>

enum { RUNNERS = 4 };

struct list {
	struct change *head, *tail;
};

static pthread_mutex_t lock = PTHREAD_MUTEX_INITIALIZER; /* of all that stands here */
static pthread_cond_t is_ready = PTHREAD_COND_INITIALIZER;
static pthread_cond_t is_settled = PTHREAD_COND_INITIALIZER;
static struct list parked, ready;
static unsigned int running; /* runners that try a change */
static struct change_counts counts;
static bool refusing, ending;
static pthread_t runners[RUNNERS];

/*
 * How often parked changes were made ready. Who reads it before a try, and finds it unchanged with
 * the lock held, knows that the gate that was closed has not been opened since.
 */
static _Atomic unsigned int retries;

static void append(struct list *list, struct change *change)
{
	change->next = NULL;
	change->previous = list->tail;
	*(list->tail ? &list->tail->next : &list->head) = change;
	list->tail = change;
}

static void take_out(struct list *list, struct change *change)
{
	*(change->previous ? &change->previous->next : &list->head) = change->next;
	*(change->next ? &change->next->previous : &list->tail) = change->previous;
}

static void make_ready(struct change *change)
{
	append(&ready, change);
	pthread_cond_signal(&is_ready);
}

static void unpark(struct change *change)
{
	take_out(&parked, change);
	change->is_parked = false;
	counts.waiting--;
	make_ready(change);
}

/* libfuse calls it with the request's own lock held, so it can't answer the request itself. */
static void on_interrupt(fuse_req_t request, void *data)
{
	struct change *change = data;

	(void)request;
	pthread_mutex_lock(&lock);
	change->is_interrupted = true;
	if (change->is_parked)
		unpark(change);
	pthread_mutex_unlock(&lock);
}

/* The signals that end no process by themselves. */
#define BIT(signal) (1ULL << ((signal) - 1))
#define HARMLESS (BIT(SIGCHLD) | BIT(SIGURG) | BIT(SIGWINCH) | BIT(SIGCONT) | BIT(SIGSTOP) | \
		  BIT(SIGTSTP) | BIT(SIGTTIN) | BIT(SIGTTOU))

/*
 * Whether a signal has come to the process that asked which will end it. Others don't end a wait:
 * few programs expect EINTR of a mkdir or a write.
 */
static bool asker_is_dying(const struct change *change)
{
	static const char *const names[] = { "SigPnd:", "ShdPnd:", "SigBlk:", "SigIgn:", "SigCgt:" };
	unsigned long long sets[5] = { 0 };
	char path[48], line[128];
	unsigned int at;
	FILE *status;

	snprintf(path, sizeof(path), "/proc/%ld/status", (long)fuse_req_ctx(change->request)->pid);
	status = fopen(path, "re");
	if (status == NULL)
		return true;
	while (fgets(line, sizeof(line), status))
		for (at = 0; at < 5; at++)
			if (!strncmp(line, names[at], strlen(names[at])))
				sets[at] = strtoull(line + strlen(names[at]), NULL, 16);
	fclose(status);
	return (sets[0] | sets[1]) & ~(sets[2] | sets[3] | sets[4] | HARMLESS);
}

/* A copy that outlives the worker's request, or NULL. */
static struct change *copy_of(const struct change *change)
{
	size_t name = change->name ? strlen(change->name) + 1 : 0;
	size_t other_name = change->other_name ? strlen(change->other_name) + 1 : 0;
	struct change *copy = malloc(sizeof(*copy) + name + other_name + change->size);
	char *to;

	if (copy == NULL)
		return NULL;
	*copy = *change;
	to = (char *)(copy + 1);
	if (name)
		copy->name = memcpy(to, change->name, name);
	if (other_name)
		copy->other_name = memcpy(to + name, change->other_name, other_name);
	if (change->size)
		copy->bytes = memcpy(to + name + other_name, change->bytes, change->size);
	return copy;
}

/* Makes a change, and answers it inside the gates, or says why they don't let it in. */
static int try_change(struct change *change)
{
	struct pass pass;
	mntgate_result result = gates_try_enter(&pass, change->passage);

	if (result == 0) {
		change->make(change);
		gates_leave(&pass);
	}
	return (int)result;
}

/* Parks a change of the heap that found a gate closed; `seen` is what `retries` was before that. */
static void park(struct change *change, unsigned int seen)
{
	fuse_req_interrupt_func(change->request, on_interrupt, change);
	pthread_mutex_lock(&lock);
	if (refusing || atomic_load(&retries) != seen) {
		make_ready(change);
	} else {
		append(&parked, change);
		change->is_parked = true;
		counts.waiting++;
	}
	pthread_mutex_unlock(&lock);
}

void change_admit(struct change *change)
{
	unsigned int seen = atomic_load(&retries);
	int error = try_change(change);
	struct change *copy;

	if (error == EAGAIN) {
		copy = copy_of(change);
		if (copy) {
			pthread_mutex_lock(&lock);
			counts.waited++;
			pthread_mutex_unlock(&lock);
			park(copy, seen);
			return;
		}
		error = ENOMEM;
	}
	if (error)
		fuse_reply_err(change->request, error);
}

/* A change that was made ready, with `refuse` as it was then. */
static void run(struct change *change, bool refuse)
{
	unsigned int seen = atomic_load(&retries);
	int error;

	/* From here on no interrupt finds it. */
	fuse_req_interrupt_func(change->request, NULL, NULL);
	if (change->is_interrupted && asker_is_dying(change))
		error = EINTR;
	else if (refuse)
		error = EIO;
	else
		error = try_change(change);
	if (error == EAGAIN) {
		park(change, seen);
		return;
	}
	if (error == EINTR) {
		pthread_mutex_lock(&lock);
		counts.given_up++;
		pthread_mutex_unlock(&lock);
	}
	if (error)
		fuse_reply_err(change->request, error);
	free(change);
}

static void *run_ready(void *none)
{
	struct change *change;
	bool refuse;

	pthread_mutex_lock(&lock);
	for (;;) {
		while (ready.head == NULL && !ending)
			pthread_cond_wait(&is_ready, &lock);
		change = ready.head;
		if (change == NULL)
			break;
		take_out(&ready, change);
		running++;
		refuse = refusing;
		pthread_mutex_unlock(&lock);
		run(change, refuse);
		pthread_mutex_lock(&lock);
		running--;
		if (ready.head == NULL && running == 0)
			pthread_cond_signal(&is_settled);
	}
	pthread_mutex_unlock(&lock);
	return none;
}

int changes_start(void)
{
	unsigned int number;
	int error;

	for (number = 0; number < RUNNERS; number++) {
		error = pthread_create(&runners[number], NULL, run_ready, NULL);
		if (error)
			return error;
	}
	return 0;
}

void changes_retry(void)
{
	pthread_mutex_lock(&lock);
	atomic_fetch_add(&retries, 1);
	while (parked.head)
		unpark(parked.head);
	pthread_mutex_unlock(&lock);
}

void changes_retry_interrupted(void)
{
	struct change *change, *next;

	pthread_mutex_lock(&lock);
	for (change = parked.head; change; change = next) {
		next = change->next;
		if (change->is_interrupted)
			unpark(change);
	}
	pthread_mutex_unlock(&lock);
}

void changes_settle(void)
{
	pthread_mutex_lock(&lock);
	while (ready.head || running)
		pthread_cond_wait(&is_settled, &lock);
	pthread_mutex_unlock(&lock);
}

void changes_refuse(void)
{
	pthread_mutex_lock(&lock);
	refusing = true;
	pthread_mutex_unlock(&lock);
	changes_retry();
}

void changes_end(void)
{
	unsigned int number;

	pthread_mutex_lock(&lock);
	ending = true;
	pthread_cond_broadcast(&is_ready);
	pthread_mutex_unlock(&lock);
	for (number = 0; number < RUNNERS; number++)
		pthread_join(runners[number], NULL);
}

void changes_count(struct change_counts *to)
{
	pthread_mutex_lock(&lock);
	*to = counts;
	pthread_mutex_unlock(&lock);
}
