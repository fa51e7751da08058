/*
 * More threads than gates have tasks: 200 threads share 16 tasks, and a backup reads what they change.
 *
 * A thread takes a task for as long as it is inside, and gives it back at rest. All 16 may wait inside `mntgate_want_write` while it is frozen. So the
 * backup has a task of its own, which is not in the pool: else nobody could thaw.
 */
#include <pthread.h>
#include <stdatomic.h>
#include <stdio.h>
#include <stdlib.h>

#include "mntgate.h"

enum { THREADS = 200, ROUNDS = 25, POOL = 16, BACKUPS = 100, MOUNT = 0 };

/* The tasks that no thread has stand first. */
static struct mntgate_task *spare[POOL];
static unsigned spares;
static pthread_mutex_t lock = PTHREAD_MUTEX_INITIALIZER;
static pthread_cond_t given = PTHREAD_COND_INITIALIZER;

/* What the gates guard. Outside of a change both are equal. */
static atomic_uint left, right;

static void check(mntgate_result result)
{
	if (result) {
		fprintf(stderr, "pool: refused with %u\n", result);
		exit(1);
	}
}

static struct mntgate_task *take_task(void)
{
	struct mntgate_task *task;

	pthread_mutex_lock(&lock);
	while (spares == 0)
		pthread_cond_wait(&given, &lock);
	task = spare[--spares];
	pthread_mutex_unlock(&lock);
	return task;
}

static void give_task(struct mntgate_task *task)
{
	pthread_mutex_lock(&lock);
	spare[spares++] = task;
	pthread_cond_signal(&given);
	pthread_mutex_unlock(&lock);
}

static void *run_thread(void *nothing)
{
	unsigned round;

	for (round = 0; round < ROUNDS; round++) {
		struct mntgate_task *task = take_task();

		check(mntgate_want_write(task, MOUNT, 0));
		atomic_fetch_add(&left, 1);
		atomic_fetch_add(&right, 1);
		check(mntgate_drop_write(task, MOUNT, 0));
		give_task(task);
	}
	return nothing;
}

/* Freezes, looks at both numbers, and thaws. */
static unsigned back_up(struct mntgate_task *task)
{
	unsigned torn;

	check(mntgate_freeze(task, MNTGATE_USER, NULL));
	torn = atomic_load(&left) != atomic_load(&right);
	check(mntgate_thaw(task, MNTGATE_USER, NULL));
	check(mntgate_settle(task));
	return torn;
}

int main(void)
{
	const struct mntgate_config config = { POOL + 1, 1, 1, 2, 0 }; /* tasks, processors, mounts, nodes, blocks */
	struct mntgate_task backup = MNTGATE_NONE, tasks[POOL];
	pthread_t threads[THREADS];
	unsigned number, torn = 0;

	check(mntgate_open(&backup, &config));
	for (number = 0; number < POOL; number++) {
		tasks[number] = MNTGATE_NONE;
		check(mntgate_split(&backup, &tasks[number]));
		give_task(&tasks[number]);
	}
	for (number = 0; number < THREADS; number++)
		check((mntgate_result)pthread_create(&threads[number], NULL, run_thread, NULL));
	for (number = 0; number < BACKUPS; number++)
		torn += back_up(&backup);
	for (number = 0; number < THREADS; number++)
		pthread_join(threads[number], NULL);
	for (number = 0; number < POOL; number++)
		check(mntgate_join(&backup, &tasks[number]));
	check(mntgate_close(&backup));
	printf("%u changes by %u threads with %u tasks, %u of %u backups torn\n", atomic_load(&left), THREADS, POOL, torn, BACKUPS);
	return 0;
}
