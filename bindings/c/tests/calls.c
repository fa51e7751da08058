/* Each call once and its refusals, and that a call waits. Prints "all calls" where all answer as the header says. */
#undef NDEBUG
#include <assert.h>
#include <pthread.h>
#include <setjmp.h>
#include <stdio.h>
#include <time.h>
#include <unistd.h>

#include "mntgate.h"

static uint16_t answers[5];
static int asked[5];
static bool to_read_only;
static uint8_t level_waited;

static uint16_t on_sync(void *data)
{
	(void)data;
	asked[0]++;
	return answers[0];
}

static uint16_t on_freeze(void *data)
{
	(void)data;
	asked[1]++;
	return answers[1];
}

static uint16_t on_unfreeze(void *data)
{
	(void)data;
	asked[2]++;
	return answers[2];
}

static uint16_t on_reconfigure(void *data, bool read_only)
{
	(void)data;
	asked[3]++;
	to_read_only = read_only;
	return answers[3];
}

/* A freeze may wait twice first. */
static uint16_t on_wait(void *data, uint8_t level)
{
	(void)data;
	level_waited = level;
	return ++asked[4] % 3 ? 0 : answers[4];
}

static const struct mntgate_hooks hooks = { NULL, on_sync, on_freeze, on_unfreeze, on_reconfigure, on_wait };

static void test_accesses(struct mntgate_task *task, struct mntgate_task *other)
{
	assert(mntgate_want(task, 0, 0) == 0 && mntgate_try_want(task, 0, 1) == 0);
	assert(mntgate_holds_mount(task, 0) == 2 && mntgate_holds_mount(task, 9) == 0);
	assert(mntgate_try_change_mount(other, 0, true) == EBUSY && mntgate_change_mount(other, 0, true) == EBUSY);
	assert(mntgate_join(task, other) == EDEADLK && other->at != NULL);
	assert(mntgate_drop_mount(task, 0, 1) == 0 && mntgate_drop_mount(task, 0, 1) == 0);
	assert(mntgate_drop_mount(task, 0, 0) == EDEADLK && mntgate_try_want(task, 1, 0) == EINVAL && mntgate_want(task, 0, 2) == EINVAL);
	assert(mntgate_change_mount(other, 0, true) == 0);
	assert(mntgate_want(task, 0, 0) == EROFS && mntgate_want_write(task, 0, 0) == EROFS);
	assert(mntgate_rests(task) && mntgate_waited(task) == 0);
	assert(mntgate_try_change_mount(other, 0, false) == 0);
}

/* Tasks meet whatever they hold, and keep it. */
static void test_meetings(struct mntgate_task *task, struct mntgate_task *other)
{
	const struct mntgate_op freeze = { MNTGATE_OP_FREEZE, 0, 0, MNTGATE_USER, true, 0 };
	struct mntgate_outcome outcome;

	mntgate_meet(task, other);
	assert(mntgate_rests(task) && mntgate_rests(other));
	assert(mntgate_want_write(other, 0, 0) == 0);
	mntgate_meet(task, other);
	assert(mntgate_try_change_mount(task, 0, true) == EBUSY);
	mntgate_meet(task, other);
	assert(mntgate_begin(task, &freeze) == 0);
	mntgate_meet(other, task);
	assert(!mntgate_is_idle(task) && mntgate_holds_mount(other, 0) == 1 && mntgate_holds_level(other, 1));
	assert(mntgate_number(task) == 0 && mntgate_number(other) == 1 && mntgate_drop_write(other, 0, 1) == 0);
	assert(mntgate_finish(task, NULL, false, &outcome) == 0 && mntgate_thaw(task, MNTGATE_USER, NULL) == 0 && mntgate_settle(task) == 0);
}

/* Under a read-only superblock a change to read-only sets nothing. */
static void test_change_that_sets_nothing(struct mntgate_task *task)
{
	assert(mntgate_remount_sb(task, true, NULL) == 0 && mntgate_change_mount(task, 0, true) == 0 && mntgate_want(task, 0, 0) == EROFS);
	assert(mntgate_remount_sb(task, false, NULL) == 0 && mntgate_want(task, 0, 0) == 0 && mntgate_drop_mount(task, 0, 0) == 0);
	assert(mntgate_try_change_mount(task, 0, true) == 0 && mntgate_want(task, 0, 0) == EROFS && mntgate_change_mount(task, 0, false) == 0);
}

static void test_levels(struct mntgate_task *task, struct mntgate_task *other)
{
	assert(mntgate_start(task, 1, 0) == 0 && mntgate_try_start(task, 2, 0) == 0);
	assert(mntgate_holds_level(task, 2) && !mntgate_holds_level(task, 3) && !mntgate_holds_level(task, 4));
	assert(mntgate_start(task, 1, 0) == EDEADLK && mntgate_freeze(task, MNTGATE_USER, &hooks) == EDEADLK);
	assert(mntgate_end(task, 2, 1) == 0 && mntgate_end(task, 1, 1) == 0);
	assert(mntgate_freeze(other, MNTGATE_USER, &hooks) == 0 && asked[0] == 1 && asked[1] == 1);
	assert(mntgate_try_start(task, 1, 0) == EAGAIN);
	assert(mntgate_freeze(task, MNTGATE_USER, &hooks) == EBUSY && mntgate_remount_sb(task, true, &hooks) == EBUSY);
	assert(mntgate_freeze(task, MNTGATE_KERNEL, &hooks) == 0 && mntgate_thaw(other, MNTGATE_USER, &hooks) == 0 && asked[2] == 0);
	assert(mntgate_thaw(other, MNTGATE_USER, &hooks) == EINVAL);
	assert(mntgate_thaw(other, MNTGATE_KERNEL, &hooks) == 0 && asked[2] == 1 && mntgate_settle(task) == 0);
}

/* Both, or neither: a task that is refused rests. */
static void test_try_want_write(struct mntgate_task *task, struct mntgate_task *other)
{
	assert(mntgate_try_want_write(task, 0, 0) == 0 && mntgate_holds_level(task, 1) && mntgate_holds_mount(task, 0) == 1);
	assert(mntgate_try_want_write(task, 0, 0) == EDEADLK && mntgate_holds_mount(task, 0) == 1);
	assert(mntgate_drop_write(task, 0, 1) == 0 && mntgate_rests(task));
	assert(mntgate_try_want_write(task, 1, 0) == EINVAL && mntgate_try_want_write(task, 0, 2) == EINVAL && mntgate_rests(task));
	assert(mntgate_start(task, 2, 0) == 0 && mntgate_try_want_write(task, 0, 0) == EDEADLK && mntgate_end(task, 2, 0) == 0);
	assert(mntgate_freeze(other, MNTGATE_USER, NULL) == 0 && mntgate_try_want_write(task, 0, 0) == EAGAIN && mntgate_rests(task));
	assert(mntgate_thaw(other, MNTGATE_USER, NULL) == 0 && mntgate_settle(other) == 0);
	assert(mntgate_change_mount(other, 0, true) == 0 && mntgate_try_want_write(task, 0, 0) == EROFS && mntgate_rests(task));
	assert(mntgate_change_mount(other, 0, false) == 0);
}

/* A hook's 16 isn't EBUSY. */
static void test_hooks(struct mntgate_task *task)
{
	mntgate_result result;

	answers[0] = EBUSY;
	result = mntgate_freeze(task, MNTGATE_USER, &hooks);
	assert(result != EBUSY && MNTGATE_IS_HOOK(result) && MNTGATE_HOOK_CODE(result) == EBUSY);
	answers[0] = 0;
	answers[3] = 65535;
	result = mntgate_remount_sb(task, true, &hooks);
	assert(result == MNTGATE_HOOK + 65535u && to_read_only);
	answers[3] = 0;
	assert(mntgate_remount_sb(task, true, &hooks) == 0 && mntgate_want(task, 0, 0) == EROFS);
	assert(mntgate_remount_sb(task, false, &hooks) == 0 && !to_read_only && mntgate_remount_sb(task, false, NULL) == 0);
	assert(mntgate_settle(task) == 0);
}

/* Nothing is left of a freeze. */
static void expect_open(struct mntgate_task *task, struct mntgate_task *other)
{
	uint8_t level;

	assert(mntgate_rests(task) && mntgate_thaw(task, MNTGATE_USER, NULL) == EINVAL && mntgate_wants_hook(task) == MNTGATE_ASKS_NONE);
	for (level = 1; level <= 3; level++)
		assert(mntgate_try_start(other, level, 0) == 0 && mntgate_end(other, level, 1) == 0);
}

/* A freeze is given up at each level, by its own hook. */
static void test_patience(struct mntgate_task *task, struct mntgate_task *other)
{
	static const struct mntgate_hooks silent = { NULL, NULL, NULL, NULL, NULL, NULL };
	uint8_t level;

	for (level = 1; level <= 3; level++) {
		asked[0] = asked[4] = 0;
		answers[4] = 7;
		assert(mntgate_start(other, level, 0) == 0 && mntgate_freeze(task, MNTGATE_USER, &hooks) == MNTGATE_HOOK + 7u);
		assert(asked[4] == 3 && level_waited == level && asked[0] == (level == 3));
		assert(mntgate_end(other, level, 0) == 0);
		expect_open(task, other);
	}
	answers[4] = 0;
	assert(mntgate_freeze(task, MNTGATE_USER, &silent) == 0 && mntgate_thaw(task, MNTGATE_USER, &silent) == 0);
	assert(mntgate_settle(task) == 0);
}

static struct timespec after(long milliseconds)
{
	struct timespec moment;

	assert(clock_gettime(CLOCK_MONOTONIC, &moment) == 0);
	moment.tv_sec += milliseconds / 1000;
	moment.tv_nsec += milliseconds % 1000 * 1000000;
	if (moment.tv_nsec >= 1000000000) {
		moment.tv_sec++;
		moment.tv_nsec -= 1000000000;
	}
	return moment;
}

/* A freeze has a deadline, or none to wait for. */
static void test_deadlines(struct mntgate_task *task, struct mntgate_task *other)
{
	const struct mntgate_hooks *with[] = { NULL, &hooks };
	struct timespec moment, now;
	int each;

	for (each = 0; each < 2; each++) {
		assert(mntgate_want_write(other, 0, 0) == 0);
		moment = after(20);
		assert(mntgate_freeze_until(task, MNTGATE_USER, with[each], &moment) == MNTGATE_HOOK + ETIMEDOUT);
		now = after(0);
		assert(now.tv_sec > moment.tv_sec || (now.tv_sec == moment.tv_sec && now.tv_nsec >= moment.tv_nsec));
		assert(mntgate_freeze_until(task, MNTGATE_KERNEL, with[each], &moment) == MNTGATE_HOOK + ETIMEDOUT);
		assert(mntgate_try_freeze(task, MNTGATE_USER, with[each]) == MNTGATE_HOOK + EAGAIN);
		assert(mntgate_drop_write(other, 0, 0) == 0);
		expect_open(task, other);
		assert(mntgate_start(other, 3, 0) == 0 && mntgate_try_freeze(task, MNTGATE_USER, with[each]) == MNTGATE_HOOK + EAGAIN);
		assert(mntgate_freeze_until(other, MNTGATE_USER, with[each], &moment) == EDEADLK && mntgate_end(other, 3, 0) == 0);
		expect_open(task, other);
		/* a deadline that has passed is none where nobody is inside, nor is another holder's freeze */
		assert(mntgate_freeze_until(task, MNTGATE_USER, with[each], &moment) == 0 && mntgate_try_freeze(other, MNTGATE_USER, with[each]) == EBUSY);
		assert(mntgate_try_freeze(other, MNTGATE_KERNEL, with[each]) == 0 && mntgate_thaw(task, MNTGATE_USER, NULL) == 0);
		assert(mntgate_thaw(task, MNTGATE_KERNEL, NULL) == 0 && mntgate_try_freeze(task, MNTGATE_USER, with[each]) == 0);
		assert(mntgate_thaw(task, MNTGATE_USER, NULL) == 0 && mntgate_settle(task) == 0);
	}
	/* its own hook is asked first */
	asked[4] = 2;
	answers[4] = 9;
	assert(mntgate_start(other, 2, 0) == 0 && mntgate_freeze_until(task, MNTGATE_USER, &hooks, &moment) == MNTGATE_HOOK + 9u);
	assert(level_waited == 2 && mntgate_end(other, 2, 0) == 0 && mntgate_settle(task) == 0);
	answers[4] = 0;
}

static uint16_t on_sync_leaving(void *data)
{
	longjmp(*(jmp_buf *)data, 1);
}

/* A hook that doesn't return is told as one that failed. */
static void test_hook_that_leaves(struct mntgate_task *task, struct mntgate_task *other)
{
	static jmp_buf before;
	static const struct mntgate_hooks leaving = { &before, on_sync_leaving, NULL, NULL, NULL, NULL };
	struct mntgate_outcome outcome;

	if (setjmp(before) == 0) {
		mntgate_freeze(task, MNTGATE_USER, &leaving);
		assert(!"it has left");
	}
	assert(!mntgate_is_idle(task) && mntgate_try_start(other, 1, 0) == EAGAIN && mntgate_thaw(task, MNTGATE_USER, NULL) == EDEADLK);
	mntgate_run(task, EIO, 1, &outcome);
	assert(mntgate_answer(task, 0, &outcome) == MNTGATE_HOOK + EIO && mntgate_rests(task));
	assert(mntgate_try_start(other, 1, 0) == 0 && mntgate_end(other, 1, 0) == 0 && mntgate_settle(task) == 0);
}

static void test_tree(struct mntgate_task *task, struct mntgate_task *other)
{
	struct mntgate_node nodes[4];
	uint64_t used = 7;
	uint8_t file = 0, dir = 0;

	assert(mntgate_tree_used(task, &used) == ENOENT && used == 7 && mntgate_tree(task, nodes, 4) == ENOENT);
	assert(mntgate_create(task, 0, false, &file) == EDEADLK && file == 0);
	assert(mntgate_want_write(task, 0, 0) == 0);
	assert(mntgate_create(task, 0, true, &dir) == 0 && dir == 1 && mntgate_create(task, dir, false, &file) == 0 && file == 2);
	assert(mntgate_create(task, file, false, &dir) == ENOTDIR && dir == 1 && mntgate_remove(task, dir) == EISDIR && mntgate_remove(task, 3) == ENOENT);
	assert(mntgate_grow(task, file, 5) == 0 && mntgate_grow(task, file, 0) == EINVAL && mntgate_grow(task, file, 6) == ENOSPC);
	assert(mntgate_move_to(task, file, 0) == 0 && mntgate_move_to(task, file, dir) == 0);
	assert(mntgate_try_start(task, 2, 0) == 0 && mntgate_fault(task, file) == 0 && mntgate_end(task, 2, 0) == 0);
	assert(mntgate_try_start(task, 3, 0) == 0 && mntgate_flush(task, file) == 0 && mntgate_end(task, 3, 0) == 0);
	assert(mntgate_open_file(task, file) == 0 && mntgate_open_file(task, file) == EMFILE && mntgate_has_open(task, file));
	assert(mntgate_remove(task, file) == 0 && mntgate_drop_write(task, 0, 1) == 0);
	assert(mntgate_try_snapshot(other) == EINVAL && mntgate_snapshot(other) == EINVAL);
	assert(mntgate_freeze(other, MNTGATE_KERNEL, NULL) == 0 && mntgate_snapshot(other) == 0 && mntgate_try_snapshot(other) == 0);
	assert(mntgate_tree_used(other, &used) == 0 && used == 5 && mntgate_tree(other, nodes, 4) == 0);
	assert(nodes[0].there && nodes[0].is_dir && nodes[0].kids == 1 && nodes[1].is_dir && nodes[1].parent == 0);
	assert(nodes[2].there && nodes[2].removed && nodes[2].size == 5 && nodes[2].parent == 1 && !nodes[3].there);
	assert(mntgate_try_close_file(task, file, 0) == EAGAIN && mntgate_has_open(task, file));
	assert(mntgate_thaw(other, MNTGATE_KERNEL, NULL) == 0 && mntgate_settle(other) == 0);
	assert(mntgate_close_file(task, file, 0) == 0 && mntgate_close_file(task, file, 0) == EDEADLK);
}

static void test_steps(struct mntgate_task *task, struct mntgate_task *other)
{
	const struct mntgate_op want = { MNTGATE_OP_WANT, 0, 1, false, true, 0 }, unknown = { 20, 0, 0, false, false, 0 };
	const struct mntgate_op drop = { MNTGATE_OP_DROP_MOUNT, 0, 1, false, false, 0 }, freeze = { MNTGATE_OP_FREEZE, 0, 0, MNTGATE_USER, true, 0 };
	struct mntgate_step_done done;
	struct mntgate_outcome outcome;
	int steps = 1;

	mntgate_step(task, 0, &done);
	assert(!done.event.there && done.outcome.progress == MNTGATE_IDLE);
	assert(mntgate_begin(task, &unknown) == EINVAL && mntgate_begin(task, &want) == 0 && mntgate_begin(task, &drop) == EDEADLK);
	assert(!mntgate_is_idle(task) && mntgate_wants_hook(task) == 0);
	mntgate_step(task, 0, &done);
	assert(done.event.there && done.event.touch == 2 && done.event.word.kind == MNTGATE_WORD_MOUNT_COUNT && done.event.word.first == 0);
	assert(done.event.word.second == 1 && done.event.operand == 1 && done.event.left == done.event.found + 1 && done.action.kind == 0);
	while (done.outcome.progress == MNTGATE_GOING) {
		mntgate_step(task, 0, &done);
		steps++;
	}
	assert(steps == 5 && done.outcome.progress == MNTGATE_DONE && done.outcome.answer == 0 && done.action.kind == 1 && done.action.number == 0);
	assert(mntgate_begin(task, &drop) == 0);
	mntgate_run(task, 0, 0, &outcome);
	assert(outcome.progress == MNTGATE_DONE && outcome.answer == 0 && outcome.reply == MNTGATE_REPLY_UNIT);
	/* a freeze stops at what it waits for, and at each hook */
	assert(mntgate_start(task, 1, 0) == 0 && mntgate_begin(other, &freeze) == 0);
	mntgate_run(other, 0, 1000, &outcome);
	assert(outcome.progress == MNTGATE_WAITING && mntgate_wants_hook(other) == MNTGATE_ASKS_KEEP_WAITING && mntgate_level_waited(other) == 1);
	mntgate_run(other, 0, 1000, &outcome);
	assert(outcome.progress == MNTGATE_WAITING && mntgate_end(task, 1, 0) == 0);
	mntgate_run(other, 0, 1000, &outcome);
	assert(outcome.progress == MNTGATE_GOING && mntgate_wants_hook(other) == MNTGATE_ASKS_SYNC && mntgate_waited(other) > 0);
	assert(mntgate_level_waited(other) == 0 && mntgate_level_waited(task) == 0);
	mntgate_run(other, 9, 1000, &outcome);
	assert(outcome.progress == MNTGATE_DONE && outcome.answer == MNTGATE_HOOK + 9 && mntgate_settle(other) == 0);
	/* and is given up by the answer at a wait, of which the first step clears the level's block */
	assert(mntgate_start(task, 1, 0) == 0 && mntgate_begin(other, &freeze) == 0);
	mntgate_run(other, 0, 1000, &outcome);
	mntgate_step(other, 4, &done);
	assert(done.outcome.progress == MNTGATE_GOING && done.event.word.kind == MNTGATE_WORD_BLOCK && done.event.word.first == 1);
	assert(done.event.touch == 1 && done.event.left == 0 && done.action.kind == 0);
	mntgate_run(other, 0, 1000, &outcome);
	assert(outcome.progress == MNTGATE_DONE && outcome.answer == MNTGATE_HOOK + 4);
	assert(mntgate_end(task, 1, 0) == 0 && mntgate_settle(other) == 0);
}

/* A call that begins at once is done, or goes on, and then it is run to its end. */
static void test_at_once(struct mntgate_task *task, struct mntgate_task *other)
{
	struct mntgate_outcome outcome = { 9, 9, 9, 9 };
	bool ran = true;

	assert(mntgate_callback_at_once(task, 4, &outcome) == EINVAL && mntgate_want_write_at_once(task, 0, 2, &outcome) == EINVAL);
	assert(mntgate_start(task, 1, 0) == 0 && mntgate_freeze_at_once(task, MNTGATE_USER, &outcome) == EDEADLK);
	assert(mntgate_thaw_at_once(task, MNTGATE_USER, &outcome) == EDEADLK && mntgate_remount_sb_at_once(task, true, &outcome) == EDEADLK);
	assert(outcome.progress == 9 && mntgate_end(task, 1, 0) == 0);
	assert(mntgate_freeze_at_once(task, MNTGATE_USER, &outcome) == 0 && outcome.progress == MNTGATE_DONE && outcome.answer == 0);
	assert(outcome.reply == MNTGATE_REPLY_UNIT && mntgate_is_idle(task) && mntgate_freeze(other, MNTGATE_USER, NULL) == EBUSY);
	assert(mntgate_remount_sb(task, true, NULL) == EBUSY && mntgate_callback(task, 1, &ran) == 0 && !ran);
	/* write access waits for the thaw */
	assert(mntgate_want_write_at_once(other, 0, 1, &outcome) == 0 && outcome.progress == MNTGATE_GOING);
	assert(mntgate_want_write_at_once(other, 0, 1, &outcome) == EDEADLK && !mntgate_is_idle(other));
	mntgate_run(other, 0, 1000, &outcome);
	assert(outcome.progress == MNTGATE_WAITING && mntgate_waited(other) > 0);
	assert(mntgate_thaw_at_once(task, MNTGATE_USER, &outcome) == 0 && outcome.progress == MNTGATE_DONE && outcome.answer == 0);
	mntgate_run(other, 0, 1000, &outcome);
	assert(outcome.progress == MNTGATE_DONE && outcome.answer == 0 && mntgate_holds_level(other, 1) && mntgate_holds_mount(other, 0) == 1);
	/* a freeze waits for the writer, with level 1 closed */
	assert(mntgate_freeze_at_once(task, MNTGATE_KERNEL, &outcome) == 0 && outcome.progress == MNTGATE_GOING);
	mntgate_run(task, 0, 1000, &outcome);
	assert(outcome.progress == MNTGATE_WAITING && mntgate_drop_write(other, 0, 0) == 0 && mntgate_try_start(other, 1, 0) == EAGAIN);
	assert(mntgate_finish(task, NULL, false, &outcome) == 0 && mntgate_thaw(other, MNTGATE_USER, NULL) == EINVAL);
	assert(mntgate_thaw(other, MNTGATE_KERNEL, NULL) == 0 && mntgate_callback(task, 1, &ran) == 0 && ran && mntgate_settle(task) == 0);
	assert(mntgate_remount_sb(task, true, NULL) == 0 && mntgate_want_write(task, 0, 0) == EROFS && mntgate_rests(task));
	assert(mntgate_remount_sb(task, false, NULL) == 0 && mntgate_want_write(task, 0, 0) == 0 && mntgate_drop_write(task, 0, 1) == 0);
}

static mntgate_result snapshot_told = 9;

static void *take_snapshot(void *task)
{
	mntgate_result told = mntgate_snapshot(task);

	__atomic_store_n(&snapshot_told, told, __ATOMIC_SEQ_CST);
	return NULL;
}

/* A snapshot waits while another task owns s_umount. */
static void test_waits(struct mntgate_task *task, struct mntgate_task *other)
{
	const struct mntgate_op change = { MNTGATE_OP_CHANGE_MOUNT, 0, 0, false, false, 0 };
	struct mntgate_step_done done;
	struct mntgate_outcome outcome;
	pthread_t thread;

	assert(mntgate_freeze(task, MNTGATE_USER, NULL) == 0 && mntgate_begin(other, &change) == 0);
	mntgate_step(other, 0, &done);
	assert(done.outcome.progress == MNTGATE_GOING && mntgate_try_snapshot(task) == EAGAIN);
	assert(pthread_create(&thread, NULL, take_snapshot, task) == 0 && usleep(20000) == 0);
	assert(__atomic_load_n(&snapshot_told, __ATOMIC_SEQ_CST) == 9);
	mntgate_run(other, 0, 1000, &outcome);
	assert(outcome.progress == MNTGATE_DONE && outcome.answer == 0 && pthread_join(thread, NULL) == 0 && snapshot_told == 0);
	assert(mntgate_thaw(task, MNTGATE_USER, NULL) == 0 && mntgate_settle(task) == 0);
}

/* A long wait sleeps: 29 of 100 pauses do, for 20.75 milliseconds in all. */
static void test_pauses(void)
{
	struct timespec from, to;
	unsigned round = 0, pauses;

	assert(clock_gettime(CLOCK_MONOTONIC, &from) == 0);
	for (pauses = 0; pauses < 100; pauses++)
		mntgate_pause(&round);
	assert(clock_gettime(CLOCK_MONOTONIC, &to) == 0);
	assert((to.tv_sec - from.tv_sec) * 1000000000L + (to.tv_nsec - from.tv_nsec) >= 20000000L);
}

int main(void)
{
	const struct mntgate_config config = { 2, 2, 1, 4, 10 }, none = { 0, 2, 1, 4, 10 };
	const struct mntgate_word words[] = { { MNTGATE_SUM_MOUNT, 0, 0 }, { MNTGATE_SUM_LEVEL, 3, 0 }, { MNTGATE_WORD_UMOUNT, 0, 0 },
					      { MNTGATE_WORD_KIDS, 0, 0 }, { MNTGATE_WORD_MOUNT_FLAGS, 5, 0 }, { 99, 0, 0 } };
	uint64_t values[6] = { 9, 9, 9, 9, 9, 9 };
	struct mntgate_task task = MNTGATE_NONE, other = MNTGATE_NONE, third = MNTGATE_NONE;

	assert(mntgate_open(&task, &none) == EINVAL && task.at == NULL);
	assert(mntgate_open(&task, &config) == 0 && mntgate_number(&task) == 0);
	assert(mntgate_split(&task, &other) == 0 && mntgate_number(&other) == 1 && mntgate_split(&task, &third) == EMFILE && third.at == NULL);
	test_accesses(&task, &other);
	test_meetings(&task, &other);
	test_change_that_sets_nothing(&task);
	test_levels(&task, &other);
	test_try_want_write(&task, &other);
	test_hooks(&task);
	test_patience(&task, &other);
	test_deadlines(&task, &other);
	test_hook_that_leaves(&task, &other);
	test_tree(&task, &other);
	test_steps(&task, &other);
	test_at_once(&task, &other);
	test_waits(&task, &other);
	test_pauses();
	assert(mntgate_close(&task) == EDEADLK && task.at != NULL);
	assert(mntgate_join(&task, &other) == 0 && other.at == NULL);
	assert(mntgate_close_words(&task, words, 6, values, 5) == EINVAL && task.at != NULL);
	assert(mntgate_close_reading(&task, words, values, 6) == 0 && task.at == NULL);
	assert(values[0] == 0 && values[1] == 0 && values[2] == 0 && values[3] == 1 && values[4] == 0 && values[5] == 0);
	assert(mntgate_open(&task, &config) == 0 && mntgate_close(&task) == 0);
	puts("all calls");
	return 0;
}
