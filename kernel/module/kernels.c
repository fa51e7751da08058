// SPDX-License-Identifier: GPL-2.0 OR MIT
/*
 * What differs between the kernels that this module is for: 6.1 and 6.12. No
 * other one is accepted, since struct mount and the holders of a freeze were
 * looked up in these two alone.
 */
#include <linux/build_bug.h>
#include <linux/cache.h>
#include <linux/fs.h>
#include <linux/kprobes.h>
#include <linux/mount.h>
#include <linux/percpu.h>
#include <linux/version.h>

#include "inner.h"

/* A release without its last number. */
#define GATES_RELEASE (LINUX_VERSION_CODE >> 8)
#define GATES_IS_6_1 (GATES_RELEASE == KERNEL_VERSION(6, 1, 0) >> 8)
#define GATES_IS_6_12 (GATES_RELEASE == KERNEL_VERSION(6, 12, 0) >> 8)

#if !GATES_IS_6_1 && !GATES_IS_6_12
#error "this module is for Linux 6.1 and 6.12"
#endif
#if !defined(CONFIG_SMP) || defined(CONFIG_RANDSTRUCT)
#error "struct mount has another layout here"
#endif

/*
 * The part of struct mount (fs/mount.h) around its vfsmount, which no header
 * shows: here to read the counts of writers.
 */
struct mount_counts {
	int mnt_count;
	int mnt_writers;
};

struct mount_part {
	struct vfsmount mnt;
	union {
#if GATES_IS_6_12
		struct rb_node mnt_node;
#endif
		struct rcu_head mnt_rcu;
		struct llist_node mnt_llist;
	};
	struct mount_counts __percpu *mnt_pcp;
};

void gates_read_writers(struct vfsmount *mnt, struct gates_words *words)
{
	struct mount_part *part = container_of(mnt, struct mount_part, mnt);
	int processor;

	for_each_possible_cpu(processor)
		if (processor < GATES_PROCESSORS)
			words->writers[processor] =
				READ_ONCE(per_cpu_ptr(part->mnt_pcp, processor)->mnt_writers);
}

/* The address of a function of the kernel's, by a probe on its name, or NULL. */
void *gates_address_of(const char *name)
{
	struct kprobe probe = { .symbol_name = name };

	if (register_kprobe(&probe))
		return NULL;
	unregister_kprobe(&probe);
	return probe.addr;
}

#if GATES_IS_6_12

int gates_find_want_and_drop(void)
{
	return 0;
}

int gates_want(struct vfsmount *mnt)
{
	return mnt_get_write_access(mnt);
}

void gates_drop(struct vfsmount *mnt)
{
	mnt_put_write_access(mnt);
}

int gates_freeze(struct super_block *sb, u32 holder)
{
	BUILD_BUG_ON(GATES_KERNEL != FREEZE_HOLDER_KERNEL);
	BUILD_BUG_ON(GATES_USER != FREEZE_HOLDER_USERSPACE);
	BUILD_BUG_ON(GATES_NEST != FREEZE_MAY_NEST);
	return freeze_super(sb, holder);
}

int gates_thaw(struct super_block *sb, u32 holder)
{
	return thaw_super(sb, holder);
}

void gates_read_holders(struct super_block *sb, struct gates_words *words)
{
	words->kernel_freezes = READ_ONCE(sb->s_writers.freeze_kcount);
	words->user_freezes = READ_ONCE(sb->s_writers.freeze_ucount);
}

#else

/* A probe lies behind a function's endbr64, and a call has to reach that. */
#ifdef CONFIG_X86_KERNEL_IBT
#error "in 6.1 this module wants a kernel without CONFIG_X86_KERNEL_IBT"
#endif

/* These two aren't exported in 6.1. */
static int (*want_write)(struct vfsmount *mnt) __ro_after_init;
static void (*drop_write)(struct vfsmount *mnt) __ro_after_init;

int gates_find_want_and_drop(void)
{
	want_write = gates_address_of("__mnt_want_write");
	drop_write = gates_address_of("__mnt_drop_write");
	return want_write && drop_write ? 0 : -ENOENT;
}

int gates_want(struct vfsmount *mnt)
{
	return want_write(mnt);
}

void gates_drop(struct vfsmount *mnt)
{
	drop_write(mnt);
}

/* One freeze at a time, whoever holds it. */
int gates_freeze(struct super_block *sb, u32 holder)
{
	return freeze_super(sb);
}

int gates_thaw(struct super_block *sb, u32 holder)
{
	return thaw_super(sb);
}

void gates_read_holders(struct super_block *sb, struct gates_words *words)
{
	words->user_freezes = READ_ONCE(sb->s_writers.frozen) == SB_FREEZE_COMPLETE;
}

#endif
