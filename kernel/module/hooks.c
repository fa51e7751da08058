// SPDX-License-Identifier: GPL-2.0 OR MIT
/*
 * The file system's own parts in a freeze and a thaw. A superblock that is
 * tested has a copy of its operations, in which these parts fail for a caller
 * that wants it, and are the file system's else.
 */
#include <linux/fs.h>
#include <linux/mutex.h>
#include <linux/rwsem.h>
#include <linux/spinlock.h>

#include "inner.h"

/* The calls in which a part is to fail. */
static LIST_HEAD(failings);
static DEFINE_SPINLOCK(failings_lock);

/* The superblock that is tested, and how many open files of the device it has. */
static DEFINE_MUTEX(hooks_lock);
static struct super_block *tested;
static unsigned int users;
static const struct super_operations *own;
static struct super_operations changed;

void gates_begin_failing(struct gates_failing *failing, u16 hook, u16 error)
{
	failing->caller = current;
	failing->hook = hook;
	failing->error = error;
	spin_lock(&failings_lock);
	list_add(&failing->list, &failings);
	spin_unlock(&failings_lock);
}

void gates_end_failing(struct gates_failing *failing)
{
	spin_lock(&failings_lock);
	list_del(&failing->list);
	spin_unlock(&failings_lock);
}

/* The error by which this part has to fail in the caller's call, or 0. */
static int error_of(u16 hook)
{
	struct gates_failing *failing;
	int error = 0;

	spin_lock(&failings_lock);
	list_for_each_entry(failing, &failings, list)
		if (failing->caller == current && failing->hook == hook)
			error = -failing->error;
	spin_unlock(&failings_lock);
	return error;
}

static int sync_fs(struct super_block *sb, int wait)
{
	int error = error_of(GATES_SYNC);

	return error ? error : own->sync_fs(sb, wait);
}

static int freeze_fs(struct super_block *sb)
{
	int error = error_of(GATES_FREEZE_FS);

	return error ? error : own->freeze_fs(sb);
}

static int unfreeze_fs(struct super_block *sb)
{
	int error = error_of(GATES_UNFREEZE_FS);

	return error ? error : own->unfreeze_fs(sb);
}

/*
 * These parts are called with s_umount held. So nobody is inside one of them
 * while a superblock gets other operations.
 */
static void set_operations(struct super_block *sb, const struct super_operations *operations)
{
	down_write(&sb->s_umount);
	/* Whoever finds a table without the lock has to find it whole. */
	smp_store_release(&sb->s_op, operations);
	up_write(&sb->s_umount);
}

/* Gives the superblock operations that may fail. There is one at a time. */
int gates_take_hooks(struct super_block *sb)
{
	int error = 0;

	mutex_lock(&hooks_lock);
	if (users && tested != sb) {
		error = -EBUSY;
	} else if (!users++) {
		tested = sb;
		own = sb->s_op;
		changed = *own;
		if (own->sync_fs)
			changed.sync_fs = sync_fs;
		if (own->freeze_fs)
			changed.freeze_fs = freeze_fs;
		if (own->unfreeze_fs)
			changed.unfreeze_fs = unfreeze_fs;
		set_operations(sb, &changed);
	}
	mutex_unlock(&hooks_lock);
	return error;
}

/* Gives the superblock its own operations back, behind the last user. */
void gates_give_hooks(void)
{
	mutex_lock(&hooks_lock);
	if (!--users)
		set_operations(tested, own);
	mutex_unlock(&hooks_lock);
}
