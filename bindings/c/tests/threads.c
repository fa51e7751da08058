/*
 * Plain memory that several threads use, guarded by the gates alone. Built with -fsanitize=thread it shows what mntgate.h tells the sanitizer.
 *
 *     threads guarded    reads only what is frozen or read-only: no race is reported, and it prints how many records were torn
 *     threads planted    reads once what a writer writes outside of its access: that race is reported
 */
#undef NDEBUG
#include <assert.h>
#include <pthread.h>
#include <stdio.h>
#include <string.h>

#include "threads.h"

enum { ROUNDS = 20 };

static struct writer writers[WRITERS];
static unsigned torn, frozen, read_only, given_up;

/* Waits until a writer has written so often. This orders nothing, so that the gates alone do. */
static void await(struct writer *writer, unsigned long turns)
{
	unsigned round = 0;

	while (atomic_load_explicit(&writer->turns, memory_order_relaxed) < turns)
		mntgate_pause(&round);
}

/* Waits until each writer has written once more. */
static void await_all(void)
{
	int number;

	for (number = 0; number < WRITERS; number++)
		await(&writers[number], atomic_load_explicit(&writers[number].turns, memory_order_relaxed) + 1);
}

static void read_records(void)
{
	int number;

	for (number = 0; number < WRITERS; number++)
		torn += writers[number].record.first != writers[number].record.second;
}

static uint16_t sync_records(void *data)
{
	(void)data;
	return 0;
}

static const struct mntgate_hooks hooks = { NULL, sync_records, NULL, NULL, NULL, NULL };

/* The ways to the end of an operation: the header's loop with and without hooks, and loops by hand. */
static void freeze_waiting(struct mntgate_task *task)
{
	assert(mntgate_freeze(task, MNTGATE_USER, NULL) == 0);
}

static void freeze_with_hooks(struct mntgate_task *task)
{
	assert(mntgate_freeze(task, MNTGATE_USER, &hooks) == 0);
}

/* Gives up again and again, until one is done in time. */
static void freeze_in_time(struct mntgate_task *task)
{
	mntgate_result result;

	do {
		struct timespec deadline;

		assert(clock_gettime(CLOCK_MONOTONIC, &deadline) == 0);
		deadline.tv_nsec += 20000;
		if (deadline.tv_nsec >= 1000000000) {
			deadline.tv_sec++;
			deadline.tv_nsec -= 1000000000;
		}
		result = mntgate_freeze_until(task, MNTGATE_USER, &hooks, &deadline);
		given_up += result == MNTGATE_HOOK + ETIMEDOUT;
		assert(result == 0 || result == MNTGATE_HOOK + ETIMEDOUT);
	} while (result);
}

static void begin_freeze(struct mntgate_task *task)
{
	const struct mntgate_op freeze = { MNTGATE_OP_FREEZE, 0, 0, MNTGATE_USER, true, 0 };

	assert(mntgate_begin(task, &freeze) == 0);
}

static void freeze_by_runs(struct mntgate_task *task)
{
	struct mntgate_outcome outcome;
	unsigned round = 0;

	begin_freeze(task);
	for (mntgate_run(task, 0, 64, &outcome); outcome.progress != MNTGATE_DONE; mntgate_run(task, 0, 64, &outcome))
		if (outcome.progress == MNTGATE_WAITING)
			mntgate_pause(&round);
	assert(outcome.answer == 0);
}

static void freeze_by_steps(struct mntgate_task *task)
{
	struct mntgate_step_done done;
	unsigned round = 0;

	begin_freeze(task);
	for (mntgate_step(task, 0, &done); done.outcome.progress != MNTGATE_DONE; mntgate_step(task, 0, &done))
		if (done.outcome.progress == MNTGATE_WAITING)
			mntgate_pause(&round);
	assert(done.outcome.answer == 0);
}

static void read_frozen(struct mntgate_task *task, void (*freeze)(struct mntgate_task *))
{
	await_all();
	freeze(task);
	read_records();
	frozen++;
	assert(mntgate_thaw(task, MNTGATE_USER, NULL) == 0);
	assert(mntgate_settle(task) == 0);
}

/* A change waits for nobody, and is refused while a writer is inside. */
static void read_read_only(struct mntgate_task *task)
{
	mntgate_result result;

	await_all();
	result = mntgate_change_mount(task, MOUNT, true);
	assert(result == 0 || result == EBUSY);
	if (result)
		return;
	read_records();
	read_only++;
	assert(mntgate_change_mount(task, MOUNT, false) == 0);
}

static void read_guarded(struct mntgate_task *task)
{
	int round;

	for (round = 0; round < ROUNDS; round++) {
		read_frozen(task, freeze_waiting);
		read_frozen(task, freeze_with_hooks);
		read_frozen(task, freeze_in_time);
		read_frozen(task, freeze_by_runs);
		read_frozen(task, freeze_by_steps);
		read_read_only(task);
	}
	atomic_store_explicit(&over, true, memory_order_relaxed);
}

static void read_planted(struct mntgate_task *task)
{
	(void)task;
	await(&writers[0], 2);
	read_records();
}

static void run(void *(*write)(void *), void (*read)(struct mntgate_task *), int count)
{
	const struct mntgate_config config = { WRITERS + 1, WRITERS, 1, 2, 0 };
	struct mntgate_task task = MNTGATE_NONE;
	pthread_t threads[WRITERS];
	int number;

	assert(mntgate_open(&task, &config) == 0);
	for (number = 0; number < count; number++) {
		writers[number].number = (uint8_t)number;
		assert(mntgate_split(&task, &writers[number].task) == 0);
		assert(pthread_create(&threads[number], NULL, write, &writers[number]) == 0);
	}
	read(&task);
	for (number = 0; number < count; number++) {
		assert(pthread_join(threads[number], NULL) == 0);
		mntgate_meet(&task, &writers[number].task);
		assert(mntgate_join(&task, &writers[number].task) == 0);
	}
	assert(mntgate_close(&task) == 0);
}

int main(int count, char **words)
{
	if (count == 2 && !strcmp(words[1], "planted"))
		return run(write_late, read_planted, 1), 0;
	if (count != 2 || strcmp(words[1], "guarded"))
		return fprintf(stderr, "usage: threads guarded|planted\n"), 2;
	run(write_guarded, read_guarded, WRITERS);
	printf("%u records torn\n", torn);
	fprintf(stderr, "%u reads while frozen, %u freezes given up, %u reads while read-only, %lu and %lu writes\n", frozen, given_up, read_only,
		writers[0].record.first, writers[1].record.first);
	return 0;
}
