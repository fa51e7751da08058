#include "gates.h"

#include <errno.h>
#include <pthread.h>
#include <stdatomic.h>
#include <stddef.h>
#include <stdlib.h>
#include <time.h>

enum { SYSCALL_LEVEL = 1, WRITEBACK_LEVEL = 3, FREEZE_SECONDS = 5 };

/* Each task of the pool counts on a processor of its own, so that no two share a count. */
enum { POOL = 24, WRITERS_PROCESSOR = POOL, PROCESSORS, MOUNT = 0 };

static bool gated;
static struct mntgate_hooks hooks;

static struct mntgate_task first;    /* the task that all others are split from */
static struct mntgate_task commands; /* freezes, thaws and remounts */
static struct mntgate_task writers;  /* has an access while files are open for writing */
static struct mntgate_task pool[POOL];
static _Atomic uint64_t spare; /* bit n: nobody has pool[n] */

static pthread_mutex_t writers_lock = PTHREAD_MUTEX_INITIALIZER; /* of `writers` and their number */
static unsigned int open_for_writing;

static bool frozen, read_only;

bool gates_open(bool with_gates, sync_hook sync)
{
	const struct mntgate_config config = {
		.tasks = POOL + 3, .processors = PROCESSORS, .mounts = 1, .nodes = 2, .capacity = 0,
	};
	unsigned int number;

	gated = with_gates;
	hooks.sync = sync;
	if (mntgate_open(&first, &config) || mntgate_split(&first, &commands) ||
	    mntgate_split(&first, &writers))
		return false;
	for (number = 0; number < POOL; number++)
		if (mntgate_split(&first, &pool[number]))
			return false;
	atomic_store(&spare, ((uint64_t)1 << POOL) - 1);
	return true;
}

/* What must succeed by the contract of the call: a task gives back what it holds. */
static void must(mntgate_result result)
{
	if (result)
		abort();
}

uint64_t gates_close(void)
{
	static const struct mntgate_word sums[] = {
		{ MNTGATE_SUM_MOUNT, MOUNT, 0 }, { MNTGATE_SUM_LEVEL, 1, 0 },
		{ MNTGATE_SUM_LEVEL, 2, 0 },     { MNTGATE_SUM_LEVEL, 3, 0 },
	};
	uint64_t values[4];
	unsigned int number;

	if (frozen)
		must(mntgate_thaw(&commands, MNTGATE_USER, NULL));
	/* The kernel releases no file of a mount that has gone. */
	if (open_for_writing)
		must(mntgate_drop_mount(&writers, MOUNT, WRITERS_PROCESSOR));
	for (number = 0; number < POOL; number++)
		must(mntgate_join(&first, &pool[number]));
	must(mntgate_join(&first, &writers));
	must(mntgate_join(&first, &commands));
	must(mntgate_close_reading(&first, sums, values, 4));
	return values[0] + values[1] + values[2] + values[3];
}

static unsigned int take_task(void)
{
	uint64_t seen = atomic_load(&spare);
	unsigned int round = 0;

	for (;;) {
		if (seen == 0) {
			mntgate_pause(&round);
			seen = atomic_load(&spare);
		} else if (atomic_compare_exchange_weak(&spare, &seen, seen & (seen - 1))) {
			return (unsigned int)__builtin_ctzll(seen);
		}
	}
}

static void give_task(unsigned int number)
{
	atomic_fetch_or(&spare, (uint64_t)1 << number);
}

mntgate_result gates_try_enter(struct pass *pass, enum passage passage)
{
	struct mntgate_task *task;
	mntgate_result result;

	pass->passage = passage;
	if (!gated)
		return 0;
	pass->task = take_task();
	task = &pool[pass->task];
	if (passage == PASSAGE_WRITEBACK)
		result = mntgate_try_start(task, WRITEBACK_LEVEL, (uint8_t)pass->task);
	else
		result = mntgate_try_want_write(task, MOUNT, (uint8_t)pass->task);
	if (result)
		give_task(pass->task);
	return result;
}

void gates_leave(const struct pass *pass)
{
	struct mntgate_task *task = &pool[pass->task];

	if (!gated)
		return;
	if (pass->passage == PASSAGE_WRITEBACK)
		must(mntgate_end(task, WRITEBACK_LEVEL, (uint8_t)pass->task));
	else
		must(mntgate_drop_write(task, MOUNT, (uint8_t)pass->task));
	give_task(pass->task);
}

/* One access for all files: a task may have 1024, and more files than that may be open. */
int gates_add_writer(void)
{
	mntgate_result result = 0;

	if (!gated)
		return 0;
	pthread_mutex_lock(&writers_lock);
	if (open_for_writing == 0)
		result = mntgate_want(&writers, MOUNT, WRITERS_PROCESSOR);
	if (result == 0)
		open_for_writing++;
	pthread_mutex_unlock(&writers_lock);
	return (int)result;
}

void gates_drop_writer(void)
{
	if (!gated)
		return;
	pthread_mutex_lock(&writers_lock);
	if (--open_for_writing == 0)
		must(mntgate_drop_mount(&writers, MOUNT, WRITERS_PROCESSOR));
	pthread_mutex_unlock(&writers_lock);
}

static int error_of(mntgate_result result)
{
	return MNTGATE_IS_HOOK(result) ? MNTGATE_HOOK_CODE(result) : (int)result;
}

/* A change that hangs below must not keep all others waiting: it gives up after some seconds, and they go on. */
int gates_freeze(void)
{
	struct timespec deadline;
	mntgate_result result;

	clock_gettime(CLOCK_MONOTONIC, &deadline);
	deadline.tv_sec += FREEZE_SECONDS;
	result = mntgate_freeze_until(&commands, MNTGATE_USER, &hooks, &deadline);
	if (result == 0)
		frozen = true;
	else
		must(mntgate_settle(&commands));
	return error_of(result);
}

int gates_thaw(void)
{
	mntgate_result result = mntgate_thaw(&commands, MNTGATE_USER, &hooks);

	if (result)
		return error_of(result);
	frozen = false;
	/* Its callbacks give the changes their short way back. */
	return error_of(mntgate_settle(&commands));
}

int gates_remount(bool to_read_only)
{
	mntgate_result result = mntgate_remount_sb(&commands, to_read_only, &hooks);

	if (result == 0)
		read_only = to_read_only;
	return error_of(result);
}

bool gates_are_frozen(void)
{
	return frozen;
}

bool gates_are_read_only(void)
{
	return read_only;
}
