/* The gates of the mount: the tasks that pass them, and the commands that close and open them. */
#ifndef GATES_H
#define GATES_H

#include <stdbool.h>
#include <stdint.h>

#include "mntgate.h"

/* Which gates a change passes. */
enum passage {
	PASSAGE_SYSCALL,   /* level 1 and write access at the mount, as a system call (mnt_want_write) */
	PASSAGE_WRITEBACK, /* level 3, as the write-back of pages (sb_start_intwrite) */
};

/* Somebody inside the gates, with a task of the pool. */
struct pass {
	enum passage passage;
	unsigned int task;
};

/* What a freeze does with levels 1 and 2 closed: 0, or an errno by which the freeze fails. */
typedef uint16_t (*sync_hook)(void *data);

/* Opens the gates. With `gated` false nobody passes them, and nothing is guarded. */
bool gates_open(bool gated, sync_hook sync);

/* Ends a freeze that still stands, closes the gates, and gives the sum of all their counts: 0. */
uint64_t gates_close(void);

/*
 * Goes through the gates, or answers why not, at once: EAGAIN if a freeze or a remount closes one,
 * EROFS. It waits for nobody but for a task of the pool; whoever has one makes one change.
 */
mntgate_result gates_try_enter(struct pass *pass, enum passage passage);
void gates_leave(const struct pass *pass);

/* Files that are open for writing keep the file system writable. EROFS if it is read-only. */
int gates_add_writer(void);
void gates_drop_writer(void);

/* The commands. One thread at a time calls them. 0, or an errno: ETIMEDOUT if a change under way keeps a freeze out. */
int gates_freeze(void);
int gates_thaw(void);
int gates_remount(bool read_only);
bool gates_are_frozen(void);
bool gates_are_read_only(void);

#endif
