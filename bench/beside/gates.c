/* Pairs of taking and giving back by the proved gates through C, beside what else guards a reader
 * in C.
 *
 *     gates WHAT SIZE COUNT
 *
 * WHAT is mount, level, write-access, pthread_rwlock or urcu, with SIZE threads that do COUNT pairs
 * each; or freeze, with one task among SIZE tasks and processors that freezes and thaws COUNT
 * times; or snapshot, with one task that takes COUNT of them, each of SIZE nodes. Prints how many
 * nanoseconds that took. */
#define _GNU_SOURCE
#include <pthread.h>
#include <stdio.h>
#include <stdlib.h>
#include <string.h>
#include <time.h>
#include <urcu.h>

#include "mntgate.h"

struct job {
	struct mntgate_task task;
	uint8_t number;
	long long begun, ended;
};

static pthread_rwlock_t lock = PTHREAD_RWLOCK_INITIALIZER;
static pthread_barrier_t barrier;
static unsigned long pairs;

/* What a reader would do inside: nothing that the compiler may leave out. */
#define INSIDE() __asm__ volatile("" ::: "memory")

static long long now(void)
{
	struct timespec time;

	clock_gettime(CLOCK_MONOTONIC, &time);
	return time.tv_sec * 1000000000LL + time.tv_nsec;
}

static void check(mntgate_result result)
{
	if (result) {
		fprintf(stderr, "gates: refused with %u\n", result);
		exit(1);
	}
}

/* A function that takes and gives back by these two calls, so often, at a mount or a level. */
#define GATE_PAIRS(name, take, give, at)                            \
	static void name(struct job *job)                           \
	{                                                           \
		const unsigned long count = pairs;                  \
		const uint8_t processor = job->number;              \
                                                                    \
		for (unsigned long i = 0; i < count; i++) {         \
			check(take(&job->task, at, processor));     \
			INSIDE();                                   \
			check(give(&job->task, at, processor));     \
		}                                                   \
	}

GATE_PAIRS(mount_pairs, mntgate_want, mntgate_drop_mount, 0)
GATE_PAIRS(level_pairs, mntgate_start, mntgate_end, 1)
GATE_PAIRS(write_pairs, mntgate_want_write, mntgate_drop_write, 0)

static void rwlock_pairs(struct job *job)
{
	(void)job;
	for (unsigned long i = 0; i < pairs; i++) {
		pthread_rwlock_rdlock(&lock);
		INSIDE();
		pthread_rwlock_unlock(&lock);
	}
}

static void urcu_pairs(struct job *job)
{
	(void)job;
	rcu_register_thread();
	for (unsigned long i = 0; i < pairs; i++) {
		rcu_read_lock();
		INSIDE();
		rcu_read_unlock();
	}
	rcu_unregister_thread();
}

static void (*body)(struct job *job);

static void *run(void *arg)
{
	struct job *job = arg;

	pthread_barrier_wait(&barrier);
	job->begun = now();
	body(job);
	job->ended = now();
	return NULL;
}

static long long freezes(unsigned size)
{
	const struct mntgate_config config = { (uint8_t)size, (uint8_t)size, 1, 2, 0 };
	struct mntgate_task task = MNTGATE_NONE;
	long long begun, ended;

	check(mntgate_open(&task, &config));
	begun = now();
	for (unsigned long i = 0; i < pairs; i++) {
		check(mntgate_freeze(&task, MNTGATE_USER, NULL));
		check(mntgate_thaw(&task, MNTGATE_USER, NULL));
	}
	ended = now();
	check(mntgate_close(&task));
	return ended - begun;
}

static long long snapshots(unsigned size)
{
	const struct mntgate_config config = { (uint8_t)size, (uint8_t)size, 1, (uint8_t)size, 0 };
	struct mntgate_task task = MNTGATE_NONE;
	long long begun, ended;

	check(mntgate_open(&task, &config));
	check(mntgate_freeze(&task, MNTGATE_USER, NULL));
	begun = now();
	for (unsigned long i = 0; i < pairs; i++)
		check(mntgate_snapshot(&task));
	ended = now();
	check(mntgate_thaw(&task, MNTGATE_USER, NULL));
	check(mntgate_close(&task));
	return ended - begun;
}

static long long threads(unsigned size)
{
	const struct mntgate_config config = { (uint8_t)(size + 1), (uint8_t)size, 1, 2, 0 };
	struct mntgate_task first = MNTGATE_NONE;
	struct job jobs[64];
	pthread_t ids[64];
	long long begun = 0, ended = 0;

	check(mntgate_open(&first, &config));
	pthread_barrier_init(&barrier, NULL, size);
	for (unsigned i = 0; i < size; i++) {
		jobs[i].task = MNTGATE_NONE;
		jobs[i].number = (uint8_t)i;
		check(mntgate_split(&first, &jobs[i].task));
		if (pthread_create(&ids[i], NULL, run, &jobs[i]))
			exit(1);
	}
	/* from the first thread's start to the last one's end: the main thread may be scheduled
	 * late */
	for (unsigned i = 0; i < size; i++) {
		pthread_join(ids[i], NULL);
		begun = i == 0 || jobs[i].begun < begun ? jobs[i].begun : begun;
		ended = jobs[i].ended > ended ? jobs[i].ended : ended;
		check(mntgate_join(&first, &jobs[i].task));
	}
	check(mntgate_close(&first));
	return ended - begun;
}

int main(int count, char **words)
{
	static const struct {
		const char *name;
		void (*body)(struct job *job);
	} bodies[] = {
		{ "mount", mount_pairs },
		{ "level", level_pairs },
		{ "write-access", write_pairs },
		{ "pthread_rwlock", rwlock_pairs },
		{ "urcu", urcu_pairs },
	};
	unsigned size;

	if (count != 4)
		return 2;
	size = (unsigned)atoi(words[2]);
	pairs = strtoul(words[3], NULL, 10);
	if (size < 1 || size > 63)
		return 2;
	if (!strcmp(words[1], "freeze")) {
		printf("%lld\n", freezes(size));
		return 0;
	}
	if (!strcmp(words[1], "snapshot")) {
		printf("%lld\n", snapshots(size));
		return 0;
	}
	for (unsigned i = 0; i < sizeof bodies / sizeof *bodies; i++)
		if (!strcmp(words[1], bodies[i].name))
			body = bodies[i].body;
	if (body == NULL)
		return 2;
	printf("%lld\n", threads(size));
	return 0;
}
