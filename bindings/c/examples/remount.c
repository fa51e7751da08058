/*
 * A remount script: it tries again while the remount is busy, and says in the end what was in the way.
 *
 *     remount
 *
 * EBUSY has three reasons. The last try goes step by step, and the last word that it loaded of three kinds tells which one it was: the
 * stage of a freeze, the number of removed files that are open, or a count of a mount. Task `other` stands for the rest of the system.
 */
#include <errno.h>
#include <stdio.h>
#include <stdlib.h>
#include <string.h>
#include <unistd.h>

#include "mntgate.h"

enum { TRIES = 4, CPU = 0, ROOT = 0 };

static void check(mntgate_result result, const char *what)
{
	if (result) {
		fprintf(stderr, "remount: %s: %s\n", what, MNTGATE_IS_HOOK(result) ? "a hook failed" : strerror((int)result));
		exit(1);
	}
}

/* Remounts to read-only step by step, with hooks that answer 0, and writes the word that decided. */
static mntgate_result remount_by_steps(struct mntgate_task *task, struct mntgate_word *seen)
{
	const struct mntgate_op op = { MNTGATE_OP_REMOUNT_SB, 0, 0, true, true, 0 };
	struct mntgate_step_done done;
	unsigned round = 0;
	mntgate_result begun = mntgate_begin(task, &op);

	if (begun)
		return begun;
	do {
		mntgate_step(task, 0, &done);
		switch (done.event.word.kind) {
		case MNTGATE_WORD_STAGE:
		case MNTGATE_WORD_REMOVED:
		case MNTGATE_WORD_MOUNT_COUNT:
			*seen = done.event.word;
		}
		if (done.outcome.progress == MNTGATE_WAITING)
			mntgate_pause(&round);
	} while (done.outcome.progress != MNTGATE_DONE);
	return done.outcome.answer;
}

/* Pauses between tries: those who wait for a mount that is held are counted, and would make the next try busy. */
static mntgate_result remount(struct mntgate_task *task, struct mntgate_word *seen)
{
	unsigned try;

	for (try = 1; try < TRIES; try++) {
		mntgate_result result = mntgate_remount_sb(task, true, NULL);

		if (result != EBUSY)
			return result;
		usleep(1000u << try);
	}
	return remount_by_steps(task, seen);
}

static void tell(struct mntgate_task *task)
{
	struct mntgate_word seen = { 0, 0, 0 };
	mntgate_result result = remount(task, &seen);

	if (result != EBUSY)
		check(result, "remount");
	if (result == 0)
		puts("read-only");
	else if (seen.kind == MNTGATE_WORD_STAGE)
		puts("busy: it is frozen; wait for the thaw");
	else if (seen.kind == MNTGATE_WORD_REMOVED)
		puts("busy: a removed file is open");
	else
		printf("busy: a writer at mount %u\n", seen.first);
}

int main(void)
{
	const struct mntgate_config config = { 2, 1, 2, 3, 8 }; /* tasks, processors, mounts, nodes, blocks */
	struct mntgate_task task = MNTGATE_NONE, other = MNTGATE_NONE;
	uint8_t file;

	check(mntgate_open(&task, &config), "open");
	check(mntgate_split(&task, &other), "split");

	check(mntgate_want_write(&other, 1, CPU), "want_write");
	tell(&task);
	check(mntgate_create(&other, ROOT, false, &file), "create");
	check(mntgate_open_file(&other, file), "open_file");
	check(mntgate_remove(&other, file), "remove");
	check(mntgate_drop_write(&other, 1, CPU), "drop_write");
	tell(&task);
	check(mntgate_close_file(&other, file, CPU), "close_file");
	check(mntgate_freeze(&other, MNTGATE_USER, NULL), "freeze");
	tell(&task);
	check(mntgate_thaw(&other, MNTGATE_USER, NULL), "thaw");
	tell(&task);

	check(mntgate_settle(&task), "settle");
	check(mntgate_join(&task, &other), "join");
	check(mntgate_close(&task), "close");
	return 0;
}
