/*
 * Threads that make random calls at some gates at once, for the recording library. What they hold they give back at the end.
 *
 *     histories THREADS CALLS SEED PAUSE
 *
 * Threads 0 and 1 freeze and thaw, one for user space and one for the kernel, remount, change mounts, run callbacks and take snapshots. The others take
 * accesses at mounts and at levels, change the tree, and give back. All together make CALLS calls of mntgate.h, at once or step by step; one that waits may be
 * several calls of a history. After each other call a thread sleeps for up to PAUSE microseconds, so that calls overlap now and then, and not all of them
 * always. Prints how many calls were granted, refused and given up.
 */
#undef NDEBUG
#include <assert.h>
#include <pthread.h>
#include <stdatomic.h>
#include <stdio.h>
#include <stdlib.h>

#include "mntgate.h"

enum { MOST = 64, CROWD = 4, NODES = 6, BLOCKS = 12, MOUNTS = 2, PROCESSORS = 2 };

struct drawer {
	struct mntgate_task task;
	bool by_kernel;
	bool hurries; /* it holds up a crowd */
	unsigned seed;
	unsigned pause;
	unsigned granted, refused, given_up;
};

static atomic_long left;
static bool is_crowded;
static pthread_barrier_t together;

static unsigned draw(struct drawer *drawer, unsigned below)
{
	return (unsigned)rand_r(&drawer->seed) / 7 % below;
}

/* Counts an answer, and then, each other time, sleeps for a while. */
static bool is_done(struct drawer *drawer, mntgate_result result)
{
	const struct timespec pause = { 0, 1000 * (long)draw(drawer, drawer->pause + 1) };

	*(result == 0 ? &drawer->granted : MNTGATE_IS_HOOK(result) ? &drawer->given_up : &drawer->refused) += 1;
	atomic_fetch_sub(&left, 1);
	if (!drawer->hurries && draw(drawer, 2))
		nanosleep(&pause, NULL);
	return result == 0;
}

/* An operation that is done to its end, step by step if it is drawn so: by other code of the library than the call of its name. */
static bool draws_steps(struct drawer *drawer, uint8_t kind, uint8_t number, uint8_t other, bool choice, mntgate_result *result)
{
	const struct mntgate_op op = { kind, number, other, choice, true, 1 };
	const bool steps = draw(drawer, 2);

	if (steps)
		*result = mntgate_perform(&drawer->task, &op, NULL);
	return steps;
}

/* Whether a call of this name, or the same operation step by step, is done. */
#define IS_DONE(drawer, kind, number, other, choice, call) \
	(draws_steps(drawer, kind, number, other, choice, &result) ? is_done(drawer, result) : is_done(drawer, call))

/* A call at the tree, inside write access. */
static void use_tree(struct drawer *drawer)
{
	struct mntgate_task *task = &drawer->task;
	const uint8_t file = (uint8_t)(1 + draw(drawer, NODES - 1)), dir = (uint8_t)draw(drawer, NODES);
	mntgate_result result;
	uint8_t node;

	switch (draw(drawer, 6)) {
	case 0: IS_DONE(drawer, MNTGATE_OP_CREATE, 0, 0, false, mntgate_create(task, 0, draw(drawer, 4) == 0, &node)); break;
	case 1: IS_DONE(drawer, MNTGATE_OP_REMOVE, file, 0, false, mntgate_remove(task, file)); break;
	case 2: IS_DONE(drawer, MNTGATE_OP_GROW, file, 0, false, mntgate_grow(task, file, 1 + draw(drawer, 2))); break;
	case 3: IS_DONE(drawer, MNTGATE_OP_MOVE_TO, file, dir, false, mntgate_move_to(task, file, dir)); break;
	default: break;
	}
}

/* Takes an access, uses it and gives it back; or opens a file and closes it. */
static void write_once(struct drawer *drawer)
{
	struct mntgate_task *task = &drawer->task;
	const uint8_t mount = (uint8_t)draw(drawer, MOUNTS), processor = (uint8_t)draw(drawer, PROCESSORS), other = (uint8_t)draw(drawer, PROCESSORS);
	const uint8_t level = (uint8_t)(1 + draw(drawer, 3)), file = (uint8_t)(1 + draw(drawer, NODES - 1));
	mntgate_result result;

	switch (draw(drawer, 8)) {
	case 0:
		if (IS_DONE(drawer, MNTGATE_OP_WANT, mount, processor, false, mntgate_want(task, mount, processor)))
			IS_DONE(drawer, MNTGATE_OP_DROP_MOUNT, mount, other, false, mntgate_drop_mount(task, mount, other));
		break;
	case 1:
		if (IS_DONE(drawer, MNTGATE_OP_START, level, processor, false, mntgate_start(task, level, processor)))
			IS_DONE(drawer, MNTGATE_OP_END, level, other, false, mntgate_end(task, level, other));
		break;
	case 2:
		if (is_done(drawer, mntgate_try_start(task, level, processor)))
			is_done(drawer, mntgate_end(task, level, other));
		break;
	case 3:
		if (IS_DONE(drawer, MNTGATE_OP_OPEN_FILE, file, 0, false, mntgate_open_file(task, file)))
			while (!is_done(drawer, mntgate_close_file(task, file, processor)))
				;
		break;
	default:
		if (IS_DONE(drawer, MNTGATE_OP_WANT_WRITE, mount, processor, false, mntgate_want_write(task, mount, processor))) {
			use_tree(drawer);
			IS_DONE(drawer, MNTGATE_OP_DROP_WRITE, mount, other, false, mntgate_drop_write(task, mount, other));
		}
	}
}

static uint16_t fail_sometimes(void *drawer)
{
	return draw(drawer, 4) ? 0 : EIO;
}

static void freeze_once(struct drawer *drawer)
{
	const struct mntgate_hooks hooks = { drawer, fail_sometimes, NULL, NULL, NULL, NULL };
	struct mntgate_task *task = &drawer->task;
	const bool by = drawer->by_kernel;
	mntgate_result result;

	switch (draw(drawer, 3)) {
	case 0: result = mntgate_freeze(task, by, NULL); break;
	case 1: result = mntgate_freeze(task, by, &hooks); break;
	default: result = mntgate_try_freeze(task, by, NULL);
	}
	drawer->hurries = result == 0 && is_crowded;
	if (!is_done(drawer, result))
		return;
	IS_DONE(drawer, MNTGATE_OP_SNAPSHOT, 0, 0, false, mntgate_snapshot(task));
	if (draw(drawer, 4) == 0)
		is_done(drawer, mntgate_freeze(task, by, NULL));
	IS_DONE(drawer, MNTGATE_OP_THAW, 0, 0, by, mntgate_thaw(task, by, NULL));
	drawer->hurries = false;
}

static void administer_once(struct drawer *drawer)
{
	struct mntgate_task *task = &drawer->task;
	const uint8_t mount = (uint8_t)draw(drawer, MOUNTS), level = (uint8_t)(1 + draw(drawer, 3));
	mntgate_result result;
	bool ran;

	switch (draw(drawer, 4)) {
	case 0: freeze_once(drawer); break;
	case 1: IS_DONE(drawer, MNTGATE_OP_CALLBACK, level, 0, false, mntgate_callback(task, level, &ran)); break;
	case 2:
		if (IS_DONE(drawer, MNTGATE_OP_REMOUNT_SB, 0, 0, true, mntgate_remount_sb(task, true, NULL)))
			while (!IS_DONE(drawer, MNTGATE_OP_REMOUNT_SB, 0, 0, false, mntgate_remount_sb(task, false, NULL)))
				;
		break;
	default:
		if (IS_DONE(drawer, MNTGATE_OP_CHANGE_MOUNT, mount, 0, true, mntgate_change_mount(task, mount, true)))
			IS_DONE(drawer, MNTGATE_OP_CHANGE_MOUNT, mount, 0, false, mntgate_change_mount(task, mount, false));
	}
}

static void *write_often(void *drawer)
{
	pthread_barrier_wait(&together);
	while (atomic_load(&left) > 0)
		write_once(drawer);
	return NULL;
}

static void *administer_often(void *drawer)
{
	pthread_barrier_wait(&together);
	while (atomic_load(&left) > 0)
		administer_once(drawer);
	return NULL;
}

int main(int count, char **words)
{
	static struct drawer drawers[MOST];
	static pthread_t threads[MOST];
	const int tasks = count == 5 ? atoi(words[1]) : 0;
	const struct mntgate_config config = { (uint8_t)tasks, PROCESSORS, MOUNTS, NODES, BLOCKS };
	unsigned granted = 0, refused = 0, given_up = 0;
	int number;

	if (tasks < 1 || tasks > MOST)
		return fprintf(stderr, "usage: histories THREADS CALLS SEED PAUSE\n"), 2;
	left = atol(words[2]);
	is_crowded = tasks > CROWD;
	for (number = 0; number < tasks; number++)
		drawers[number] = (struct drawer){ MNTGATE_NONE, number == 1, false, (unsigned)(atoi(words[3]) * MOST + number), (unsigned)atoi(words[4]), 0, 0, 0 };
	assert(pthread_barrier_init(&together, NULL, (unsigned)tasks) == 0);
	assert(mntgate_open(&drawers[0].task, &config) == 0);
	for (number = 1; number < tasks; number++)
		assert(mntgate_split(&drawers[0].task, &drawers[number].task) == 0);
	for (number = 0; number < tasks; number++)
		assert(pthread_create(&threads[number], NULL, number > 1 ? write_often : administer_often, &drawers[number]) == 0);
	for (number = 0; number < tasks; number++) {
		assert(pthread_join(threads[number], NULL) == 0);
		granted += drawers[number].granted;
		refused += drawers[number].refused;
		given_up += drawers[number].given_up;
	}
	for (number = 1; number < tasks; number++)
		assert(mntgate_join(&drawers[0].task, &drawers[number].task) == 0);
	assert(mntgate_close(&drawers[0].task) == 0);
	printf("%u granted, %u refused, %u given up\n", granted, refused, given_up);
	return 0;
}
