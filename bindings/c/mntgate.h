/*
 * mntgate.h - the write gates of a mounted file system, as a C library.
 *
 * What is guarded
 *   While a mount, or the whole superblock, reports itself read-only, nobody holds an access there. Once a freeze of a writable superblock
 *   is done, nobody is inside a freeze level until the last holder's thaw. (A freeze of a read-only superblock closes no level.) A snapshot
 *   is the tree of one moment at which everything was frozen. These laws are proved of the library, for every interleaving of its threads.
 *   They speak of what the gates count: take write access (mntgate_want_write) before you write your own data, and give it back after.
 *   An access at a mount alone (mntgate_want) keeps changes and remounts away, and no freeze.
 *
 * What the library asks of a C program; no compiler checks it
 *   1. A handle is a `struct mntgate_task`. It is MNTGATE_NONE, or mntgate_open or mntgate_split filled it. Do not copy it to use it
 *      twice, do not write it, do not follow its pointer.
 *   2. Each handle is used by one call at a time. It may go to another thread by a mutex, by pthread_create or pthread_join, or by a
 *      sequentially consistent atomic.
 *   3. A call gets a handle that has a task. Only the handle of mntgate_open and the second one of mntgate_split have none.
 *   4. mntgate_join and mntgate_meet get two tasks that come from one mntgate_open.
 *   5. No call is made by a signal handler, nor in the child of a fork of a process with threads.
 *   6. malloc, realloc and free come from one allocator.
 *   7. Each pointer argument points to a valid object of its type, or to as many as the call's count says. So none is null: not the one to a
 *      configuration, nor those to no words. (Only `hooks` may be NULL.) No two arguments of a call point to the same object, so its two
 *      handles are two. No other thread writes meanwhile what an argument points to, or reads what the call writes.
 *
 * Results
 *   A call answers 0, or why it was refused: an errno (EBUSY, EROFS ..), or MNTGATE_HOOK and more where a hook of the file system failed.
 *   So the failure 16 of a hook is MNTGATE_HOOK + 16, and never EBUSY. A refused call leaves the task holding what it held before, unless
 *   its own text says otherwise. Every call may answer
 *     EDEADLK  the task may not make the call now: another operation of it is under way, it holds what the call must not find held, or it
 *              doesn't hold what the call gives back.
 *     EINVAL   a number is out of range.
 *   The state is then as it was, and no other task has seen anything of the call.
 *
 * Traps
 *   A handle that is lost leaves what its task held: give back, join, close. docs/refusals.md says what the others meet.
 *   C cuts off a number that is too large for its parameter: 256 is mount 0 then. A hook's result is cut off likewise: 65536 is no failure
 *   then. gcc and clang warn of both under -Wconversion.
 *   The thread sanitizer doesn't see into the library. Under -fsanitize=thread this header tells it of each call that reads or writes a word
 *   of the gates: what follows the call comes after what preceded every such call that began earlier. So it reports no accesses that the gates
 *   order, and it misses some races that they don't prevent. It isn't told of a call through a pointer to one of these functions.
 *
 * Link with -lmntgate -lpthread (pkg-config mntgate). docs/c.md is the guide. The library in lib/mntgate-recording does the same, and writes a history of
 * all calls to the file that MNTGATE_HISTORY names: docs/histories.md.
 */
#ifndef MNTGATE_H
#define MNTGATE_H

#include <errno.h>
#include <sched.h>
#include <stdbool.h>
#include <stddef.h>
#include <stdint.h>
#include <sys/select.h>
#include <time.h>

/* The version of this header, and of the library that it comes with. The soname has its first number: see bin/install-c. */
#define MNTGATE_VERSION "1.2.0"

#ifdef __cplusplus
extern "C" {
#endif

#if defined(__SANITIZE_THREAD__)
#define MNTGATE_THREAD_SANITIZER 1
#elif defined(__has_feature)
#if __has_feature(thread_sanitizer)
#define MNTGATE_THREAD_SANITIZER 1
#endif
#endif

/* Calls what reads or writes words of the gates, and tells the thread sanitizer that this orders memory. `mntgate_order` stands for all words of
 * all gates. Each file that includes this header defines it, and the linker keeps one for the program. */
#ifdef MNTGATE_THREAD_SANITIZER
extern void __tsan_acquire(void *at);
extern void __tsan_release(void *at);
extern char mntgate_order;
__attribute__((weak, visibility("default"))) char mntgate_order;
#define MNTGATE_ORDERED(call) __extension__({ mntgate_result mntgate_told; __tsan_release(&mntgate_order); mntgate_told = (call); __tsan_acquire(&mntgate_order); mntgate_told; })
#define MNTGATE_ORDERED_VOID(call) __extension__({ __tsan_release(&mntgate_order); (call); __tsan_acquire(&mntgate_order); })
#else
#define MNTGATE_ORDERED(call) (call)
#endif

/* A task of some gates, or none. One thread at a time uses it. Calls don't write the handle, but for those that give it a task or take
 * it. */
struct mntgate_task {
	void *at;
};

#ifdef __cplusplus
#define MNTGATE_NONE mntgate_task()
#else
#define MNTGATE_NONE ((struct mntgate_task){ NULL })
#endif

/* 0, an errno, or MNTGATE_HOOK + the code of a hook that failed. */
typedef uint32_t mntgate_result;

#define MNTGATE_HOOK 65536u

/* Whether a hook failed, and with which code. */
#define MNTGATE_IS_HOOK(result) ((result) >= MNTGATE_HOOK)
#define MNTGATE_HOOK_CODE(result) ((uint16_t)((result) - MNTGATE_HOOK))

/* How many of each there are: 1 to 64 tasks, 1 to 64 processors, 1 to 8 mounts, 2 to 64 nodes of the tree with its root, and how many
 * blocks all files may have together. Tasks, processors, mounts and nodes count from 0; freeze levels are 1, 2 and 3. */
struct mntgate_config {
	uint8_t tasks;
	uint8_t processors;
	uint8_t mounts;
	uint8_t nodes;
	uint32_t capacity;
};

/* Opening and closing ------------------------------------------------------------------------------------------------------------------ */

/* Opens gates. `task`, which has none, gets the task with number 0, which holds nothing and has all other numbers to give. Nobody has done
 * anything at the gates: all mounts and the superblock are writable, nothing is frozen, and the tree has its root alone.
 *   EINVAL  a number of the configuration is out of its limits.   ENOMEM  there is no memory. The handle then has no task. */
mntgate_result mntgate_open(struct mntgate_task *task, const struct mntgate_config *config);

/* Gives `other`, which has no task, one with the lowest number that `task` has to give. What `task` has done lies behind all that `other` does.
 * If the call is refused, `other` has no task.
 *   EDEADLK  `task` has an operation under way, or holds something; it is as it was.
 *   EMFILE  it has no number left to give; it is as it was.
 *   ENOMEM  there is no memory; `task` has its own number and all numbers to give, as before. */
mntgate_result mntgate_split(struct mntgate_task *task, struct mntgate_task *other);

/* Takes the numbers of `other` back, which has no task then. What the two have done lies behind all that `task` does from here on.
 *   EDEADLK  one of them has an operation under way or holds something; both are as they were. */
mntgate_result mntgate_join(struct mntgate_task *task, struct mntgate_task *other);

/* Brings two tasks together: what either has done lies behind all that both do from here on. They keep what they hold. Neither has to rest. It
 * waits for nobody: it reads one word of the gates four times. An operation under way stays one operation. */
void mntgate_meet(struct mntgate_task *task, struct mntgate_task *other);

/* A word of the gates, for mntgate_close_reading and mntgate_step. */
enum mntgate_word_kind {
	MNTGATE_WORD_UMOUNT = 0,       /* who owns s_umount: 0, or a task's number and 1 */
	MNTGATE_WORD_STAGE = 1,        /* s_writers.frozen, 0 to 4 */
	MNTGATE_WORD_HOLDERS = 2,      /* who holds a freeze: the kernel 1, user space 2 */
	MNTGATE_WORD_SB_FLAGS = 3,     /* SB_RDONLY: 0 or 1 */
	MNTGATE_WORD_REMOUNT = 4,      /* s_readonly_remount: 0 or 1 */
	MNTGATE_WORD_REMOVED = 5,      /* how many removed files are open */
	MNTGATE_WORD_MOUNT_FLAGS = 6,  /* of a mount: read-only 1, held 2 */
	MNTGATE_WORD_MOUNT_COUNT = 7,  /* of a mount on a processor */
	MNTGATE_WORD_BLOCK = 8,        /* of a level: 0 or 1 */
	MNTGATE_WORD_SYNC = 9,         /* of a level: its rcu_sync */
	MNTGATE_WORD_LEVEL_COUNT = 10, /* of a level on a processor */
	MNTGATE_WORD_SECTION = 11,     /* of a task: odd inside */
	MNTGATE_WORD_USED = 12,        /* the blocks charged */
	MNTGATE_WORD_NODE = 13,        /* of a node */
	MNTGATE_WORD_KIDS = 14,        /* of a node: its children */
	MNTGATE_SUM_MOUNT = 15,        /* of a mount: the sum of its counts over all processors */
	MNTGATE_SUM_LEVEL = 16         /* of a level: likewise */
};

struct mntgate_word {
	uint8_t kind;   /* enum mntgate_word_kind; the sums only for mntgate_close_reading */
	uint8_t first;  /* the mount, level, task or node */
	uint8_t second; /* the processor */
};

/* Closes the gates, whose last task `task` is; the handle has none then. Writes to `values` what the `count` words of `words` hold at the
 * end, and 0 for a word that there isn't. Every sum is 0, the umount word is 0, and no mount is held: that is proved.
 *   EDEADLK  the task has an operation under way or holds something, or another task was not joined; it is as it was.
 *   EBUSY, ENOMEM  the task rests and has all numbers, and another handle has the gates still. Where points 1 to 4 above are met there is none
 *   such, which no proof says. With EBUSY the task is as it was. With ENOMEM there was no memory to keep it, and the handle has none.
 *   EINVAL  (mntgate_close_words) the two counts differ; the task is as it was. */
mntgate_result mntgate_close_words(struct mntgate_task *task, const struct mntgate_word *words, size_t words_count, uint64_t *values, size_t values_count);

static inline mntgate_result mntgate_close_reading(struct mntgate_task *task, const struct mntgate_word *words, uint64_t *values, size_t count)
{
	return MNTGATE_ORDERED(mntgate_close_words(task, words, count, values, count));
}

/* Closes the gates, as mntgate_close_reading does, and reads no word. */
static inline mntgate_result mntgate_close(struct mntgate_task *task)
{
	const struct mntgate_word none = { 0, 0, 0 };
	uint64_t nothing = 0;

	return MNTGATE_ORDERED(mntgate_close_words(task, &none, 0, &nothing, 0));
}

/* Calls that wait for nobody ----------------------------------------------------------------------------------------------------------- */

/* Takes an access at a mount, counted on a processor (__mnt_want_write). A task may hold 1024.
 *   EAGAIN  a change of the mount holds writers off.   EROFS  the mount or the superblock is read-only.   EMFILE  a 1025th access. */
mntgate_result mntgate_try_want(struct mntgate_task *task, uint8_t mount, uint8_t processor);

/* Gives an access at a mount back, on any processor (__mnt_drop_write). */
mntgate_result mntgate_drop_mount(struct mntgate_task *task, uint8_t mount, uint8_t processor);

/* Goes inside a freeze level, counted on a processor (sb_start_write_trylock). EDEADLK inside this level or one above it.
 *   EAGAIN  a freeze closes the level. */
mntgate_result mntgate_try_start(struct mntgate_task *task, uint8_t level, uint8_t processor);

/* Leaves a freeze level, on any processor (sb_end_write, sb_end_pagefault, sb_end_intwrite). */
mntgate_result mntgate_end(struct mntgate_task *task, uint8_t level, uint8_t processor);

/* Gives an access at a mount back and leaves level 1, as after mntgate_want_write (mnt_drop_write). */
mntgate_result mntgate_drop_write(struct mntgate_task *task, uint8_t mount, uint8_t processor);

/* Makes a mount read-only, or writable again (mnt_make_readonly). EDEADLK inside a level. Under a read-only superblock a change to read-only
 * answers 0 and sets nothing, so the mount is writable as soon as the superblock is.
 *   EAGAIN  another task owns s_umount.   EBUSY  writers are counted at the mount. */
mntgate_result mntgate_try_change_mount(struct mntgate_task *task, uint8_t mount, bool read_only);

/* The tree. A create, a remove, a grow and a move want level 1 and an access at some mount, a fault level 2 and an access, a flush level 3;
 * else they answer EDEADLK. An open and a close want neither. EAGAIN means that another task changed the node meanwhile, and nothing is
 * changed: try again. */

/* Makes an empty file or directory in a directory, and writes its node (vfs_create, vfs_mkdir).
 *   ENOENT  the directory's node is free.   ENOTDIR  it is a file.   ENOSPC  no node is free.   EAGAIN. */
mntgate_result mntgate_create(struct mntgate_task *task, uint8_t dir, bool is_dir, uint8_t *node);

/* Removes a file (vfs_unlink). Who has it open keeps its node and blocks until the last close.
 *   ENOENT  the node is free, or was removed.   EISDIR  it is a directory.   EAGAIN. */
mntgate_result mntgate_remove(struct mntgate_task *task, uint8_t file);

/* Makes a file larger by so many blocks, at least one, and dirty (vfs_write past its end).
 *   ENOENT, EISDIR, EAGAIN  as mntgate_remove.   ENOSPC  there is no room. */
mntgate_result mntgate_grow(struct mntgate_task *task, uint8_t file, uint32_t blocks);

/* Gives a file another directory (vfs_rename).   ENOENT, EISDIR, ENOTDIR, EAGAIN. */
mntgate_result mntgate_move_to(struct mntgate_task *task, uint8_t file, uint8_t dir);

/* Makes a file dirty (page_mkwrite), or clean, as a write-back does.   ENOENT, EISDIR, EAGAIN. */
mntgate_result mntgate_fault(struct mntgate_task *task, uint8_t file);
mntgate_result mntgate_flush(struct mntgate_task *task, uint8_t file);

/* Opens a file (do_dentry_open), which is there until its last close.   ENOENT, EISDIR, EAGAIN.   EMFILE  the task has it open. */
mntgate_result mntgate_open_file(struct mntgate_task *task, uint8_t file);

/* Closes a file that the task has open (__fput); where it was removed, the last close frees it, inside level 3.
 *   EAGAIN  a freeze closes level 3 then; the file is open as before. */
mntgate_result mntgate_try_close_file(struct mntgate_task *task, uint8_t file, uint8_t processor);

/* Takes a snapshot of the tree. EDEADLK inside a level.
 *   EAGAIN  another task owns s_umount.   EINVAL  the file system is not frozen. The last snapshot stays. */
mntgate_result mntgate_try_snapshot(struct mntgate_task *task);

/* A node of a snapshot. */
struct mntgate_node {
	bool there;     /* whether there is one; else all but `kids` is 0 */
	bool is_dir;
	bool dirty;
	bool removed;   /* while a task has it open */
	uint8_t parent;
	uint32_t size;  /* in blocks */
	uint64_t kids;  /* the children of a directory */
};

/* Writes a node of the last snapshot that the task has taken, or the blocks that were charged in it. A number that no node has is written as
 * that of a free node.
 *   ENOENT  the task has taken no snapshot; nothing is written. There is no other refusal. */
mntgate_result mntgate_tree_node(struct mntgate_task *task, uint8_t number, struct mntgate_node *node);
mntgate_result mntgate_tree_used(struct mntgate_task *task, uint64_t *used);

/* Writes the nodes 0 to `count` - 1 of the last snapshot that the task has taken.   ENOENT  as mntgate_tree_node. */
static inline mntgate_result mntgate_tree(struct mntgate_task *task, struct mntgate_node *nodes, uint8_t count)
{
	mntgate_result result = 0;
	uint8_t number;

	for (number = 0; number < count && result == 0; number++)
		result = mntgate_tree_node(task, number, &nodes[number]);
	return result;
}

/* What a task knows of itself ---------------------------------------------------------------------------------------------------------- */

uint8_t mntgate_number(struct mntgate_task *task);                      /* its own number, 0 to 63 */
bool mntgate_is_idle(struct mntgate_task *task);                        /* no operation is under way */
bool mntgate_rests(struct mntgate_task *task);                          /* nor is anything held */
uint16_t mntgate_holds_mount(struct mntgate_task *task, uint8_t mount); /* its accesses at a mount */
bool mntgate_holds_level(struct mntgate_task *task, uint8_t level);     /* whether it is inside a level */
bool mntgate_has_open(struct mntgate_task *task, uint8_t file);         /* whether it has a file open */
uint64_t mntgate_waited(struct mntgate_task *task);                     /* how often its last operation came to a wait */

/* Operations step by step -------------------------------------------------------------------------------------------------------------- */

enum mntgate_op_kind {
	MNTGATE_OP_WANT = 0,
	MNTGATE_OP_DROP_MOUNT = 1,
	MNTGATE_OP_CHANGE_MOUNT = 2,
	MNTGATE_OP_REMOUNT_SB = 3,
	MNTGATE_OP_START = 4,
	MNTGATE_OP_END = 5,
	MNTGATE_OP_WANT_WRITE = 6,
	MNTGATE_OP_DROP_WRITE = 7,
	MNTGATE_OP_CALLBACK = 8,
	MNTGATE_OP_FREEZE = 9,
	MNTGATE_OP_THAW = 10,
	MNTGATE_OP_CREATE = 11,
	MNTGATE_OP_REMOVE = 12,
	MNTGATE_OP_GROW = 13,
	MNTGATE_OP_MOVE_TO = 14,
	MNTGATE_OP_FAULT = 15,
	MNTGATE_OP_FLUSH = 16,
	MNTGATE_OP_OPEN_FILE = 17,
	MNTGATE_OP_CLOSE_FILE = 18,
	MNTGATE_OP_SNAPSHOT = 19
};

/* An operation with what it is given. Fields that its kind doesn't read may have any value. */
struct mntgate_op {
	uint8_t kind;   /* enum mntgate_op_kind */
	uint8_t number; /* the mount, the level, the file, or the directory of a create */
	uint8_t other;  /* the processor, or the directory of a move */
	bool choice;    /* to read-only; held for the kernel; a directory */
	bool wait;      /* it waits where its try form answers EAGAIN */
	uint32_t blocks;
};

/* Begins an operation; no other task sees that. It is refused as the call of that name is at once: EDEADLK, EINVAL (also for a kind that
 * there isn't), EMFILE. From then on mntgate_step and mntgate_run do its steps. */
mntgate_result mntgate_begin(struct mntgate_task *task, const struct mntgate_op *op);

enum mntgate_progress {
	MNTGATE_IDLE = 0,    /* no operation was under way */
	MNTGATE_GOING = 1,   /* it goes on */
	MNTGATE_WAITING = 2, /* it found what it waits for: pause, and go on */
	MNTGATE_DONE = 3     /* it has ended, and the task is idle */
};

/* What an operation replies that was not refused. */
enum mntgate_reply {
	MNTGATE_REPLY_UNIT = 0,
	MNTGATE_REPLY_NODE = 1, /* a node was made: `value` is its number */
	MNTGATE_REPLY_RAN = 2,  /* whether a callback ran: `value` is 1 or 0 */
	MNTGATE_REPLY_TREE = 3  /* a snapshot was taken */
};

struct mntgate_outcome {
	uint32_t progress; /* enum mntgate_progress */
	uint32_t answer;   /* a mntgate_result, once it is done */
	uint32_t reply;    /* enum mntgate_reply, once it is done and `answer` is 0 */
	uint32_t value;
};

/* What a step did to its word. */
struct mntgate_event {
	bool there;     /* false where no operation was under way */
	uint8_t touch;  /* 0 load, 1 store, 2 add, 3 sub, 4 or, 5 and, 6 swap, 7 compare and exchange */
	struct mntgate_word word;
	uint64_t operand; /* what is stored, added, subtracted, or'd, and'd or put */
	uint64_t expect;  /* what a compare and exchange looks for */
	uint64_t found;
	uint64_t left;
};

/* What a step added to the history of the gates; docs/theorem.md says what an action is. */
struct mntgate_action {
	uint8_t kind;   /* 0 none; 1, 2 grant a mount, a level; 3, 4 return one; 5, 6 mount read-only, writable; 7, 8 superblock likewise; 9 stage;
	                 * 10, 11 hold for the kernel, for user space; 12, 13 leave likewise; 14 pass, 15 reopen a level; 16, 17 create a file, a
	                 * directory; 18 remove; 19 grow; 20 move; 21 dirty; 22 clean; 23 open; 24 close */
	uint8_t number; /* the mount, level, stage or node */
	uint8_t dir;
	uint32_t blocks;
};

struct mntgate_step_done {
	struct mntgate_outcome outcome;
	struct mntgate_event event;
	struct mntgate_action action;
};

/* Does one step, which is one atomic operation on one word, and writes what it was. `hook` is what a hook answered: 0, or the code of its
 * failure. It is read where mntgate_wants_hook said so. */
void mntgate_step(struct mntgate_task *task, uint16_t hook, struct mntgate_step_done *done);

/* Does a step, and up to `most` - 1 more, as long as the operation goes on and asks no hook. Writes how it stands then. */
void mntgate_run(struct mntgate_task *task, uint16_t hook, uint32_t most, struct mntgate_outcome *outcome);

enum mntgate_hook_kind {
	MNTGATE_ASKS_NONE = 0,
	MNTGATE_ASKS_SYNC = 1,
	MNTGATE_ASKS_FREEZE_FS = 2,
	MNTGATE_ASKS_UNFREEZE_FS = 3,
	MNTGATE_ASKS_RECONFIGURE = 4,
	MNTGATE_ASKS_KEEP_WAITING = 5
};

/* The hook whose answer the next step reads, as enum mntgate_hook_kind. A freeze asks keep_waiting after each sum that has found somebody inside a
 * level. 0 lets it sum again. By any other answer it gives up: it opens the levels again, and answers MNTGATE_HOOK + that code. */
uint32_t mntgate_wants_hook(struct mntgate_task *task);

/* The level, 1 to 3, at which keep_waiting is asked; 0 where the next step doesn't read its answer. */
uint8_t mntgate_level_waited(struct mntgate_task *task);

/* Operations at once ------------------------------------------------------------------------------------------------------------------- */

/* Each begins the operation of its name, and does its steps up to one that finds something in the way. It waits for nobody, and each hook
 * answers 0. The result is 0, or a refusal by which it was not begun: EDEADLK, EINVAL, EMFILE; nothing is written then. `outcome` says
 * whether it is done, with its answer, or goes on: then mntgate_run does the rest. A freeze that goes on may have closed levels. Of all operations
 * it alone can be given up, where it waits for who is inside one (mntgate_wants_hook). */
mntgate_result mntgate_want_write_at_once(struct mntgate_task *task, uint8_t mount, uint8_t processor, struct mntgate_outcome *outcome);
mntgate_result mntgate_callback_at_once(struct mntgate_task *task, uint8_t level, struct mntgate_outcome *outcome);
mntgate_result mntgate_remount_sb_at_once(struct mntgate_task *task, bool read_only, struct mntgate_outcome *outcome);
mntgate_result mntgate_freeze_at_once(struct mntgate_task *task, bool by_kernel, struct mntgate_outcome *outcome);
mntgate_result mntgate_thaw_at_once(struct mntgate_task *task, bool by_kernel, struct mntgate_outcome *outcome);

/* Calls that wait ---------------------------------------------------------------------------------------------------------------------- */

/* These are loops of C over the calls above. They try again and again, with pauses that grow (mntgate_pause): a wait of some microseconds spins,
 * a longer one leaves the processor each time, and a long one sleeps, for less than a millisecond each time.
 *
 * There is no wake-up, and no time limit but that of mntgate_freeze_until. A want, a start, a change, a close of a file and a snapshot need none:
 * repeat their try form as long as you like, and give up while it answers EAGAIN. A thaw, a remount, a callback and mntgate_want_write are done to
 * their end, by mntgate_run, however long that takes. So is a freeze, and it keeps its levels closed till then, unless keep_waiting gives it up. */

/* The hooks of a file system. Each answers 0, or a code from 1 to 65535 by which it failed. NULL stands for a hook that answers 0. They
 * are called between two steps, while their task owns s_umount: a hook must not wait for another task, nor use the handle. It must return.
 * After an exception or a longjmp out of it the operation stays under way, and its levels stay closed. Then tell the library that the hook
 * has failed, by mntgate_run(task, EIO, 1, &outcome). mntgate_answer(task, 0, &outcome) does the rest, and answers MNTGATE_HOOK + EIO.
 *
 * A freeze asks keep_waiting whenever it has found somebody inside this level. 0 lets it wait. By a code it gives up: it lets the writers of the level
 * in at once, opens the levels below, and answers MNTGATE_HOOK + code. Level 1 is waited for without s_umount. Who was found may also be a task that
 * was about to find the level closed: an answer at the first wait may give up though nobody was inside. */
struct mntgate_hooks {
	void *data;
	uint16_t (*sync)(void *data);
	uint16_t (*freeze_fs)(void *data);
	uint16_t (*unfreeze_fs)(void *data);
	uint16_t (*reconfigure)(void *data, bool read_only);
	uint16_t (*keep_waiting)(void *data, uint8_t level);
};

/* Who holds a freeze. */
#define MNTGATE_USER false
#define MNTGATE_KERNEL true

/* The calls that read or write words of the gates. The others act on their task alone. */
#ifdef MNTGATE_THREAD_SANITIZER
#define mntgate_split(...) MNTGATE_ORDERED(mntgate_split(__VA_ARGS__))
#define mntgate_join(...) MNTGATE_ORDERED(mntgate_join(__VA_ARGS__))
#define mntgate_meet(...) MNTGATE_ORDERED_VOID(mntgate_meet(__VA_ARGS__))
#define mntgate_close_words(...) MNTGATE_ORDERED(mntgate_close_words(__VA_ARGS__))
#define mntgate_try_want(...) MNTGATE_ORDERED(mntgate_try_want(__VA_ARGS__))
#define mntgate_drop_mount(...) MNTGATE_ORDERED(mntgate_drop_mount(__VA_ARGS__))
#define mntgate_try_start(...) MNTGATE_ORDERED(mntgate_try_start(__VA_ARGS__))
#define mntgate_end(...) MNTGATE_ORDERED(mntgate_end(__VA_ARGS__))
#define mntgate_drop_write(...) MNTGATE_ORDERED(mntgate_drop_write(__VA_ARGS__))
#define mntgate_try_change_mount(...) MNTGATE_ORDERED(mntgate_try_change_mount(__VA_ARGS__))
#define mntgate_create(...) MNTGATE_ORDERED(mntgate_create(__VA_ARGS__))
#define mntgate_remove(...) MNTGATE_ORDERED(mntgate_remove(__VA_ARGS__))
#define mntgate_grow(...) MNTGATE_ORDERED(mntgate_grow(__VA_ARGS__))
#define mntgate_move_to(...) MNTGATE_ORDERED(mntgate_move_to(__VA_ARGS__))
#define mntgate_fault(...) MNTGATE_ORDERED(mntgate_fault(__VA_ARGS__))
#define mntgate_flush(...) MNTGATE_ORDERED(mntgate_flush(__VA_ARGS__))
#define mntgate_open_file(...) MNTGATE_ORDERED(mntgate_open_file(__VA_ARGS__))
#define mntgate_try_close_file(...) MNTGATE_ORDERED(mntgate_try_close_file(__VA_ARGS__))
#define mntgate_try_snapshot(...) MNTGATE_ORDERED(mntgate_try_snapshot(__VA_ARGS__))
#define mntgate_step(...) MNTGATE_ORDERED_VOID(mntgate_step(__VA_ARGS__))
#define mntgate_run(...) MNTGATE_ORDERED_VOID(mntgate_run(__VA_ARGS__))
#define mntgate_want_write_at_once(...) MNTGATE_ORDERED(mntgate_want_write_at_once(__VA_ARGS__))
#define mntgate_callback_at_once(...) MNTGATE_ORDERED(mntgate_callback_at_once(__VA_ARGS__))
#define mntgate_remount_sb_at_once(...) MNTGATE_ORDERED(mntgate_remount_sb_at_once(__VA_ARGS__))
#define mntgate_freeze_at_once(...) MNTGATE_ORDERED(mntgate_freeze_at_once(__VA_ARGS__))
#define mntgate_thaw_at_once(...) MNTGATE_ORDERED(mntgate_thaw_at_once(__VA_ARGS__))
#endif

#if defined(__GNUC__)
#define MNTGATE_UNLIKELY(test) __builtin_expect(!!(test), 0)
#define MNTGATE_COLD static __attribute__((cold, noinline, unused))
#else
#define MNTGATE_UNLIKELY(test) (test)
#define MNTGATE_COLD static inline
#endif

/* Waits a little, and the longer the more often: begin with *round = 0. The first 7 pauses spin, the next 64 leave the processor, and all others
 * sleep, for 50 microseconds at first and 800 at last. */
static inline void mntgate_pause(unsigned *round)
{
	if (*round < 7) {
		unsigned i;

		for (i = 0; i < 1u << *round; i++) {
#if defined(__x86_64__) || defined(__i386__)
			__builtin_ia32_pause();
#elif defined(__aarch64__)
			__asm__ volatile("isb");
#endif
		}
	} else if (*round < 71) {
		sched_yield();
	} else {
		struct timeval sleep = { 0, 0 };

		sleep.tv_usec = 50L << (*round - 71);
		select(0, NULL, NULL, NULL, &sleep);
	}
	if (*round < 75)
		++*round;
}

/* Asks the hook that the next step wants. */
static inline uint16_t mntgate_ask(struct mntgate_task *task, const struct mntgate_hooks *hooks, bool read_only)
{
	if (hooks == NULL)
		return 0;
	switch (mntgate_wants_hook(task)) {
	case MNTGATE_ASKS_SYNC:
		return hooks->sync ? hooks->sync(hooks->data) : (uint16_t)0;
	case MNTGATE_ASKS_FREEZE_FS:
		return hooks->freeze_fs ? hooks->freeze_fs(hooks->data) : (uint16_t)0;
	case MNTGATE_ASKS_UNFREEZE_FS:
		return hooks->unfreeze_fs ? hooks->unfreeze_fs(hooks->data) : (uint16_t)0;
	case MNTGATE_ASKS_RECONFIGURE:
		return hooks->reconfigure ? hooks->reconfigure(hooks->data, read_only) : (uint16_t)0;
	case MNTGATE_ASKS_KEEP_WAITING:
		return hooks->keep_waiting ? hooks->keep_waiting(hooks->data, mntgate_level_waited(task)) : (uint16_t)0;
	default:
		return 0;
	}
}

/* Does the operation that has begun up to a hook that it asks, or up to a wait, and then pauses. `hook` is what the hook answers that the next step
 * reads. Returns whether the operation has ended. */
static inline bool mntgate_go_on(struct mntgate_task *task, uint16_t hook, unsigned *round, struct mntgate_outcome *outcome)
{
	mntgate_run(task, hook, 1024, outcome);
	if (outcome->progress == MNTGATE_WAITING)
		mntgate_pause(round);
	return outcome->progress != MNTGATE_WAITING && outcome->progress != MNTGATE_GOING;
}

/* Does the operation that has begun to its end, however long it has to wait. */
static inline mntgate_result mntgate_finish(struct mntgate_task *task, const struct mntgate_hooks *hooks, bool read_only, struct mntgate_outcome *outcome)
{
	unsigned round = 0;

	while (!mntgate_go_on(task, mntgate_ask(task, hooks, read_only), &round, outcome))
		;
	return outcome->answer;
}

/* The rest of an operation that goes on, in a function of its own, so that the usual way stays short. */
MNTGATE_COLD mntgate_result mntgate_finish_begun(struct mntgate_task *task, struct mntgate_outcome *outcome)
{
	return mntgate_finish(task, NULL, false, outcome);
}

/* What an operation answers that was begun at once: it is done, or is done to its end. */
static inline mntgate_result mntgate_answer(struct mntgate_task *task, mntgate_result begun, struct mntgate_outcome *outcome)
{
	if (begun)
		return begun;
	return MNTGATE_UNLIKELY(outcome->progress != MNTGATE_DONE) ? mntgate_finish_begun(task, outcome) : outcome->answer;
}

/* Begins an operation and does it to its end. */
static inline mntgate_result mntgate_perform(struct mntgate_task *task, const struct mntgate_op *op, const struct mntgate_hooks *hooks)
{
	struct mntgate_outcome outcome = { 0, 0, 0, 0 };
	mntgate_result result = mntgate_begin(task, op);

	return result ? result : mntgate_finish(task, hooks, op->choice, &outcome);
}

/* The operation of a call that has found somebody in its way, in a function of its own, so that the usual way stays short. */
MNTGATE_COLD mntgate_result mntgate_perform_at(struct mntgate_task *task, uint8_t kind, uint8_t number, uint8_t processor, bool choice)
{
	struct mntgate_op op = { 0, 0, 0, false, true, 0 };

	op.kind = kind;
	op.number = number;
	op.other = processor;
	op.choice = choice;
	return mntgate_perform(task, &op, NULL);
}

/* Takes an access at a mount (__mnt_want_write); waits while a change of the mount holds writers off.   EROFS, EMFILE  as mntgate_try_want. */
static inline mntgate_result mntgate_want(struct mntgate_task *task, uint8_t mount, uint8_t processor)
{
	mntgate_result result = mntgate_try_want(task, mount, processor);

	return MNTGATE_UNLIKELY(result == EAGAIN) ? mntgate_perform_at(task, MNTGATE_OP_WANT, mount, processor, false) : result;
}

/* Goes inside a freeze level (sb_start_write, sb_start_pagefault, sb_start_intwrite); waits while a freeze closes it. */
static inline mntgate_result mntgate_start(struct mntgate_task *task, uint8_t level, uint8_t processor)
{
	mntgate_result result = mntgate_try_start(task, level, processor);

	return MNTGATE_UNLIKELY(result == EAGAIN) ? mntgate_perform_at(task, MNTGATE_OP_START, level, processor, false) : result;
}

/* Goes inside level 1 and takes an access at a mount (mnt_want_write); waits for both. EDEADLK inside a level.
 *   EROFS  the mount or the superblock is read-only; the task has left the level.   EMFILE. */
static inline mntgate_result mntgate_want_write(struct mntgate_task *task, uint8_t mount, uint8_t processor)
{
	struct mntgate_outcome outcome;
	mntgate_result begun = mntgate_want_write_at_once(task, mount, processor, &outcome);

	return mntgate_answer(task, begun, &outcome);
}

/* Goes inside level 1 and takes an access at a mount, or does neither (mnt_want_write, which would wait). EDEADLK inside a level.
 *   EAGAIN  a freeze closes the level, or a change of the mount holds writers off.   EROFS, EMFILE  as mntgate_try_want. Where the mount
 * refuses, the task was inside level 1 and has left it, with EINVAL too. */
static inline mntgate_result mntgate_try_want_write(struct mntgate_task *task, uint8_t mount, uint8_t processor)
{
	mntgate_result result = mntgate_try_start(task, 1, processor);

	if (MNTGATE_UNLIKELY(result))
		return result;
	result = mntgate_try_want(task, mount, processor);
	if (MNTGATE_UNLIKELY(result))
		(void)mntgate_end(task, 1, processor);
	return result;
}

/* Makes a mount read-only, or writable again; waits for s_umount. What mntgate_try_change_mount says of a read-only superblock holds here.
 *   EBUSY  as mntgate_try_change_mount. */
static inline mntgate_result mntgate_change_mount(struct mntgate_task *task, uint8_t mount, bool read_only)
{
	mntgate_result result = mntgate_try_change_mount(task, mount, read_only);

	return MNTGATE_UNLIKELY(result == EAGAIN) ? mntgate_perform_at(task, MNTGATE_OP_CHANGE_MOUNT, mount, 0, read_only) : result;
}

/* Remounts the superblock read-only or writable (reconfigure_super); waits for s_umount. The hook reconfigure is asked once, where the
 * superblock isn't as it is asked for. EDEADLK inside a level.
 *   EBUSY  a freeze stands or is under way; to read-only also: a mount has writers, or a removed file is open.
 *   MNTGATE_HOOK + code  the hook failed; the superblock is as it was. */
static inline mntgate_result mntgate_remount_sb(struct mntgate_task *task, bool read_only, const struct mntgate_hooks *hooks)
{
	const struct mntgate_op op = { MNTGATE_OP_REMOUNT_SB, 0, 0, read_only, true, 0 };
	struct mntgate_outcome outcome;

	if (hooks != NULL)
		return mntgate_perform(task, &op, hooks);
	return mntgate_answer(task, mntgate_remount_sb_at_once(task, read_only, &outcome), &outcome);
}

/* Freezes the file system for a holder, MNTGATE_USER or MNTGATE_KERNEL (freeze_super): closes level 1, 2 and 3 and waits at each for who is
 * inside. The hook sync is asked with levels 1 and 2 closed, freeze_fs with all closed. Where the other holder has frozen all, it is held
 * for this one too. A read-only superblock is frozen at once: no level is closed and no hook is asked. EDEADLK inside a level.
 *   EBUSY  a freeze is under way, or this holder holds one.   MNTGATE_HOOK + code  a hook failed, or keep_waiting gave the freeze up; the levels
 * are open again. */
static inline mntgate_result mntgate_freeze(struct mntgate_task *task, bool by_kernel, const struct mntgate_hooks *hooks)
{
	const struct mntgate_op op = { MNTGATE_OP_FREEZE, 0, 0, by_kernel, true, 0 };
	struct mntgate_outcome outcome;

	if (hooks != NULL)
		return mntgate_perform(task, &op, hooks);
	return mntgate_answer(task, mntgate_freeze_at_once(task, by_kernel, &outcome), &outcome);
}

/* Freezes as mntgate_freeze does. At a wait that the caller's own keep_waiting doesn't give up, `gives_up` does, unless it answers 0. */
static inline mntgate_result mntgate_freeze_unless(struct mntgate_task *task, bool by_kernel, const struct mntgate_hooks *hooks,
						   uint16_t (*gives_up)(const struct timespec *), const struct timespec *deadline)
{
	const struct mntgate_op op = { MNTGATE_OP_FREEZE, 0, 0, by_kernel, true, 0 };
	struct mntgate_outcome outcome = { 0, 0, 0, 0 };
	mntgate_result begun = hooks ? mntgate_begin(task, &op) : mntgate_freeze_at_once(task, by_kernel, &outcome);
	bool ended = begun || outcome.progress == MNTGATE_DONE;
	unsigned round = 0;

	while (!ended) {
		uint16_t hook = mntgate_ask(task, hooks, false);

		if (hook == 0 && mntgate_wants_hook(task) == MNTGATE_ASKS_KEEP_WAITING)
			hook = gives_up(deadline);
		ended = mntgate_go_on(task, hook, &round, &outcome);
	}
	return begun ? begun : outcome.answer;
}

/* Gives up where it is asked. */
static inline uint16_t mntgate_never_waits(const struct timespec *deadline)
{
	(void)deadline;
	return EAGAIN;
}

/* Freezes, or gives up as soon as it has found somebody inside a level. It may still wait for s_umount, and for readers that are about to look.
 *   As mntgate_freeze, and MNTGATE_HOOK + EAGAIN  somebody was counted at a level; all levels are open again. Pause before you try again: a try
 * closes level 1 for a moment, and leaves readers slow until mntgate_settle. */
static inline mntgate_result mntgate_try_freeze(struct mntgate_task *task, bool by_kernel, const struct mntgate_hooks *hooks)
{
	return mntgate_freeze_unless(task, by_kernel, hooks, mntgate_never_waits, NULL);
}

#ifdef CLOCK_MONOTONIC
/* Gives up once this moment has come. */
static inline uint16_t mntgate_waits_until(const struct timespec *deadline)
{
	struct timespec now;

	if (clock_gettime(CLOCK_MONOTONIC, &now) == 0 &&
	    (now.tv_sec < deadline->tv_sec || (now.tv_sec == deadline->tv_sec && now.tv_nsec < deadline->tv_nsec)))
		return 0;
	return ETIMEDOUT;
}

/* Freezes, or gives up once CLOCK_MONOTONIC has come to `deadline`. It looks at the clock whenever it has found somebody inside a level. So it may
 * be late by a pause, which is less than a millisecond, and by what it doesn't give up: a hook, and a wait for s_umount, whose owner may ask a hook.
 * For this function <time.h> has to have CLOCK_MONOTONIC: under -std=c99 and the like it does with -D_POSIX_C_SOURCE=199309L.
 *   As mntgate_freeze, and MNTGATE_HOOK + ETIMEDOUT  it gave up; all levels are open again. */
static inline mntgate_result mntgate_freeze_until(struct mntgate_task *task, bool by_kernel, const struct mntgate_hooks *hooks,
						  const struct timespec *deadline)
{
	return mntgate_freeze_unless(task, by_kernel, hooks, mntgate_waits_until, deadline);
}
#endif

/* Gives a holder's freeze back, whichever task froze (thaw_super); the last one asks unfreeze_fs and opens the levels. EDEADLK inside a level.
 *   EINVAL  nothing is frozen, or not for this holder.   MNTGATE_HOOK + code  the hook failed; all stays frozen. */
static inline mntgate_result mntgate_thaw(struct mntgate_task *task, bool by_kernel, const struct mntgate_hooks *hooks)
{
	const struct mntgate_op op = { MNTGATE_OP_THAW, 0, 0, by_kernel, true, 0 };
	struct mntgate_outcome outcome;

	if (hooks != NULL)
		return mntgate_perform(task, &op, hooks);
	return mntgate_answer(task, mntgate_thaw_at_once(task, by_kernel, &outcome), &outcome);
}

/* Runs the callback that a level's rcu_sync has queued (rcu_sync_func); writes whether there was one. After a thaw readers take the slow
 * path until it has run. */
static inline mntgate_result mntgate_callback(struct mntgate_task *task, uint8_t level, bool *ran)
{
	struct mntgate_outcome outcome;
	mntgate_result result = mntgate_answer(task, mntgate_callback_at_once(task, level, &outcome), &outcome);

	if (result == 0)
		*ran = outcome.value != 0;
	return result;
}

/* Runs the callbacks of all levels, until none is queued. */
static inline mntgate_result mntgate_settle(struct mntgate_task *task)
{
	uint8_t level;

	for (level = 1; level <= 3; level++) {
		bool ran = true;

		while (ran) {
			mntgate_result result = mntgate_callback(task, level, &ran);

			if (result)
				return result;
		}
	}
	return 0;
}

/* Closes a file that the task has open; waits while a freeze closes level 3.   EAGAIN  the file changed meanwhile; it is open as before. */
static inline mntgate_result mntgate_close_file(struct mntgate_task *task, uint8_t file, uint8_t processor)
{
	const struct mntgate_op op = { MNTGATE_OP_CLOSE_FILE, file, processor, false, true, 0 };

	return mntgate_perform(task, &op, NULL);
}

/* Takes a snapshot of the frozen tree; waits for s_umount.   EINVAL  as mntgate_try_snapshot. */
static inline mntgate_result mntgate_snapshot(struct mntgate_task *task)
{
	mntgate_result result = mntgate_try_snapshot(task);

	return MNTGATE_UNLIKELY(result == EAGAIN) ? mntgate_perform_at(task, MNTGATE_OP_SNAPSHOT, 0, 0, false) : result;
}

#ifdef __cplusplus
}
#endif
#endif
