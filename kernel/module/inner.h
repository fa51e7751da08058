/* SPDX-License-Identifier: GPL-2.0 OR MIT */
/* What the module's parts share. */
#ifndef GATES_INNER_H
#define GATES_INNER_H

#include <linux/list.h>
#include <linux/sched.h>
#include <linux/types.h>

#include "gates.h"

struct percpu_rw_semaphore;
struct super_block;
struct vfsmount;

/* kernels.c: what differs between the kernels that this is for. */
int gates_find_want_and_drop(void);
int gates_want(struct vfsmount *mnt);
void gates_drop(struct vfsmount *mnt);
int gates_freeze(struct super_block *sb, u32 holder);
int gates_thaw(struct super_block *sb, u32 holder);
void gates_read_holders(struct super_block *sb, struct gates_words *words);
void gates_read_writers(struct vfsmount *mnt, struct gates_words *words);
void *gates_address_of(const char *name);

/* A call in which a part of the file system is to fail, while it is under way. */
struct gates_failing {
	struct list_head list;
	struct task_struct *caller;
	u16 hook;
	u16 error;
};

/* hooks.c */
int gates_take_hooks(struct super_block *sb);
void gates_give_hooks(void);
void gates_begin_failing(struct gates_failing *failing, u16 hook, u16 error);
void gates_end_failing(struct gates_failing *failing);

/* wrong.c */
int gates_begin_wrong(void);
void gates_end_wrong(void);
bool gates_ends_twice(void);
bool gates_start_slowly(struct percpu_rw_semaphore *level);

#endif
