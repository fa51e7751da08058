/*
 * The recording library: the calls of mntgate.h, each of which writes to a history when it begins and when it has returned.
 *
 * bin/install-c links it with the library's own calls, which it renames to plain_mntgate_*, into libmntgate_record. A program that links or loads that
 * one in the place of libmntgate records if the environment has MNTGATE_HISTORY=FILE when it opens gates; else each call is handed on. Gates that are
 * opened second write to FILE.2, the third ones to FILE.3. `mntgate validate FILE` says whether some execution of the model has what was recorded.
 *
 * Each line is written under one lock, a begin before the library is called, and a return after it has answered. So if one call returned before another
 * began, their lines stand in this order. Each line is written at once: what a killed program did is there, up to the line that it wrote last. No line
 * stands for a split, a join or a meeting, which are no operations of the model, nor for a call that is refused since an operation of its task is
 * under way.
 */
#define _GNU_SOURCE
#include <fcntl.h>
#include <pthread.h>
#include <stdarg.h>
#include <stdio.h>
#include <stdlib.h>
#include <string.h>
#include <unistd.h>

#include "mntgate.h"

/* The library's own calls. */
mntgate_result plain_mntgate_open(struct mntgate_task *, const struct mntgate_config *);
mntgate_result plain_mntgate_split(struct mntgate_task *, struct mntgate_task *);
mntgate_result plain_mntgate_join(struct mntgate_task *, struct mntgate_task *);
mntgate_result plain_mntgate_close_words(struct mntgate_task *, const struct mntgate_word *, size_t, uint64_t *, size_t);
mntgate_result plain_mntgate_begin(struct mntgate_task *, const struct mntgate_op *);
void plain_mntgate_step(struct mntgate_task *, uint16_t, struct mntgate_step_done *);
void plain_mntgate_run(struct mntgate_task *, uint16_t, uint32_t, struct mntgate_outcome *);

/* Some gates, whose history goes to this file, as long as it can be written. */
struct gates {
	int file;
	unsigned tasks;
};

/* A task of gates that are recorded. */
struct seat {
	void *at;
	struct gates *gates;
	uint8_t number;
	bool under_way; /* a call of it has a begin, and no return so far */
	struct seat *next;
};

enum { ROWS = 256, LINE = 256 };

static pthread_mutex_t order = PTHREAD_MUTEX_INITIALIZER;
static struct seat *seats[ROWS];
static unsigned opened;

static struct seat **row_of(void *at)
{
	return &seats[((uintptr_t)at >> 4) % ROWS];
}

/* The task's seat. None if its gates aren't recorded. Whoever looks holds the lock. */
static struct seat *seat_of(const struct mntgate_task *task)
{
	struct seat *seat = *row_of(task->at);

	while (seat != NULL && seat->at != task->at)
		seat = seat->next;
	return seat;
}

/* Says why nothing more is recorded of these gates. */
static void give_up(struct gates *gates, const char *why)
{
	fprintf(stderr, "mntgate: the history ends here: %s\n", why);
	if (gates->file >= 0)
		close(gates->file);
	gates->file = -1;
}

/* Writes a line of some gates' history. */
static void put_line(struct gates *gates, const char *line, size_t length)
{
	size_t done = 0;

	while (gates->file >= 0 && done < length) {
		ssize_t written = write(gates->file, line + done, length - done);

		if (written > 0)
			done += (size_t)written;
		else if (errno != EINTR)
			give_up(gates, strerror(errno));
	}
}

/* Writes a line on a task, by its words behind the task's number. */
__attribute__((format(printf, 2, 0))) static void put_words(const struct seat *seat, const char *words, va_list rest)
{
	char line[LINE];
	int length = snprintf(line, sizeof line, "%u ", seat->number);

	length += vsnprintf(line + length, sizeof line - (size_t)length - 1, words, rest);
	line[length] = '\n';
	put_line(seat->gates, line, (size_t)length + 1);
}

__attribute__((format(printf, 2, 3))) static void put(const struct seat *seat, const char *words, ...)
{
	va_list rest;

	va_start(rest, words);
	put_words(seat, words, rest);
	va_end(rest);
}

/* The name of a refusal, with a space before it; nothing if it has none. */
static const char *name_of(uint32_t error)
{
	static const struct {
		uint32_t error;
		const char *name;
	} names[] = {
		{ ENOENT, " NoEntry" }, { EAGAIN, " Again" }, { ENOMEM, " NoMemory" }, { EBUSY, " Busy" }, { ENOTDIR, " NotDir" }, { EISDIR, " IsDir" },
		{ EINVAL, " Invalid" }, { EMFILE, " TooMany" }, { ENOSPC, " NoSpace" }, { EROFS, " ReadOnly" }, { EDEADLK, " Order" },
	};
	size_t at;

	for (at = 0; at < sizeof names / sizeof *names; at++)
		if (names[at].error == error)
			return names[at].name;
	return "";
}

/* Writes that a task's call has returned, with what the library answered. */
static void put_answer(struct seat *seat, mntgate_result answer, uint32_t reply, uint32_t value)
{
	if (MNTGATE_IS_HOOK(answer))
		put(seat, "refused hook %u", (unsigned)MNTGATE_HOOK_CODE(answer));
	else if (answer)
		put(seat, "refused %u%s", answer, name_of(answer));
	else if (reply == MNTGATE_REPLY_NODE)
		put(seat, "ok node %u", value);
	else if (reply == MNTGATE_REPLY_RAN)
		put(seat, "ok %s", value ? "ran" : "none");
	else
		put(seat, "ok");
	seat->under_way = false;
}

/* Writes that a task begins a call, by its words. None if it isn't recorded: its gates aren't, or a call of it is under way. */
__attribute__((format(printf, 2, 3))) static struct seat *begin(struct mntgate_task *task, const char *words, ...)
{
	struct seat *seat;
	va_list rest;

	pthread_mutex_lock(&order);
	seat = seat_of(task);
	if (seat != NULL && seat->under_way)
		seat = NULL;
	if (seat != NULL) {
		va_start(rest, words);
		put_words(seat, words, rest);
		va_end(rest);
		seat->under_way = true;
	}
	pthread_mutex_unlock(&order);
	return seat;
}

/* Writes what a call that was written by `begin` has answered. */
static mntgate_result answer_with(struct seat *seat, mntgate_result answer, uint32_t reply, uint32_t value)
{
	if (seat != NULL) {
		pthread_mutex_lock(&order);
		put_answer(seat, answer, reply, value);
		pthread_mutex_unlock(&order);
	}
	return answer;
}

static mntgate_result answer(struct seat *seat, mntgate_result result)
{
	return answer_with(seat, result, MNTGATE_REPLY_UNIT, 0);
}

/* The same of a call that was begun at once, or stepwise: its return is written once it is done. */
static mntgate_result answer_begun(struct seat *seat, mntgate_result begun, const struct mntgate_outcome *outcome)
{
	if (begun)
		return answer(seat, begun);
	if (outcome->progress == MNTGATE_DONE)
		answer_with(seat, outcome->answer, outcome->reply, outcome->value);
	return 0;
}

/* Opening and closing: the lock is held meanwhile, since a handle's pointer may be another one's as soon as it is free. --------------------------- */

static bool add_seat(struct mntgate_task *task, struct gates *gates)
{
	struct seat *seat = malloc(sizeof *seat);

	if (seat == NULL)
		return false;
	*seat = (struct seat){ task->at, gates, mntgate_number(task), false, *row_of(task->at) };
	*row_of(task->at) = seat;
	gates->tasks++;
	return true;
}

static void remove_seat(struct seat *seat)
{
	struct seat **at = row_of(seat->at);

	while (*at != seat)
		at = &(*at)->next;
	*at = seat->next;
	if (--seat->gates->tasks == 0) {
		if (seat->gates->file >= 0)
			close(seat->gates->file);
		free(seat->gates);
	}
	free(seat);
}

/* Begins the history of gates that have been opened, if the environment names a file. */
static void record(struct mntgate_task *task, const struct mntgate_config *config)
{
	const char *name = secure_getenv("MNTGATE_HISTORY");
	struct gates *gates;
	char path[4096];
	int length;

	if (name == NULL || *name == '\0')
		return;
	opened++;
	if (opened == 1)
		snprintf(path, sizeof path, "%s", name);
	else
		snprintf(path, sizeof path, "%s.%u", name, opened);
	gates = malloc(sizeof *gates);
	if (gates == NULL || (*gates = (struct gates){ open(path, O_WRONLY | O_CREAT | O_TRUNC | O_CLOEXEC, 0666), 0 }).file < 0 || !add_seat(task, gates)) {
		fprintf(stderr, "mntgate: no history is recorded: %s: %s\n", path, strerror(errno));
		if (gates != NULL && gates->file >= 0)
			close(gates->file);
		free(gates);
		return;
	}
	length = snprintf(path, sizeof path, "config %u %u %u %u %u\nhistory\n", config->tasks, config->processors, config->mounts, config->nodes,
			  (unsigned)config->capacity);
	put_line(gates, path, (size_t)length);
}

mntgate_result mntgate_open(struct mntgate_task *task, const struct mntgate_config *config)
{
	mntgate_result result;

	pthread_mutex_lock(&order);
	result = plain_mntgate_open(task, config);
	if (result == 0)
		record(task, config);
	pthread_mutex_unlock(&order);
	return result;
}

mntgate_result mntgate_split(struct mntgate_task *task, struct mntgate_task *other)
{
	struct seat *seat;
	mntgate_result result;

	pthread_mutex_lock(&order);
	result = plain_mntgate_split(task, other);
	seat = result == 0 ? seat_of(task) : NULL;
	if (seat != NULL && !add_seat(other, seat->gates))
		give_up(seat->gates, strerror(errno));
	pthread_mutex_unlock(&order);
	return result;
}

mntgate_result mntgate_join(struct mntgate_task *task, struct mntgate_task *other)
{
	struct seat *seat;
	mntgate_result result;

	pthread_mutex_lock(&order);
	seat = seat_of(other);
	result = plain_mntgate_join(task, other);
	if (seat != NULL && other->at == NULL)
		remove_seat(seat);
	pthread_mutex_unlock(&order);
	return result;
}

mntgate_result mntgate_close_words(struct mntgate_task *task, const struct mntgate_word *words, size_t words_count, uint64_t *values, size_t values_count)
{
	struct seat *seat;
	mntgate_result result;

	pthread_mutex_lock(&order);
	seat = seat_of(task);
	result = plain_mntgate_close_words(task, words, words_count, values, values_count);
	if (seat != NULL && task->at == NULL)
		remove_seat(seat);
	pthread_mutex_unlock(&order);
	return result;
}

/* Calls that wait for nobody. ---------------------------------------------------------------------------------------------------------------------- */

/* Defines a call by its name, its parameters behind the task, what it hands on, and the words of its line. */
#define RECORDED(name, parameters, handed_on, ...)                                                                                                      \
	mntgate_result plain_##name parameters;                                                                                                         \
	mntgate_result name parameters                                                                                                                  \
	{                                                                                                                                               \
		struct seat *seat = begin(task, __VA_ARGS__);                                                                                           \
                                                                                                                                                        \
		return answer(seat, plain_##name handed_on);                                                                                            \
	}

#define TO(read_only) ((read_only) ? "ro" : "rw")
#define HOLDER(by_kernel) ((by_kernel) ? "kernel" : "user")

RECORDED(mntgate_try_want, (struct mntgate_task * task, uint8_t mount, uint8_t processor), (task, mount, processor), "trywant %u %u", mount, processor)
RECORDED(mntgate_drop_mount, (struct mntgate_task * task, uint8_t mount, uint8_t processor), (task, mount, processor), "drop %u %u", mount, processor)
RECORDED(mntgate_try_start, (struct mntgate_task * task, uint8_t level, uint8_t processor), (task, level, processor), "trystart %u %u", level, processor)
RECORDED(mntgate_end, (struct mntgate_task * task, uint8_t level, uint8_t processor), (task, level, processor), "end %u %u", level, processor)
RECORDED(mntgate_drop_write, (struct mntgate_task * task, uint8_t mount, uint8_t processor), (task, mount, processor), "dropwrite %u %u", mount, processor)
RECORDED(mntgate_try_change_mount, (struct mntgate_task * task, uint8_t mount, bool read_only), (task, mount, read_only), "trychange %u %s", mount,
	 TO(read_only))
RECORDED(mntgate_remove, (struct mntgate_task * task, uint8_t file), (task, file), "remove %u", file)
RECORDED(mntgate_grow, (struct mntgate_task * task, uint8_t file, uint32_t blocks), (task, file, blocks), "grow %u %u", file, (unsigned)blocks)
RECORDED(mntgate_move_to, (struct mntgate_task * task, uint8_t file, uint8_t dir), (task, file, dir), "move %u %u", file, dir)
RECORDED(mntgate_fault, (struct mntgate_task * task, uint8_t file), (task, file), "fault %u", file)
RECORDED(mntgate_flush, (struct mntgate_task * task, uint8_t file), (task, file), "flush %u", file)
RECORDED(mntgate_open_file, (struct mntgate_task * task, uint8_t file), (task, file), "open %u", file)
RECORDED(mntgate_try_close_file, (struct mntgate_task * task, uint8_t file, uint8_t processor), (task, file, processor), "tryclose %u %u", file, processor)
RECORDED(mntgate_try_snapshot, (struct mntgate_task * task), (task), "trysnapshot")

mntgate_result plain_mntgate_create(struct mntgate_task *, uint8_t, bool, uint8_t *);
mntgate_result mntgate_create(struct mntgate_task *task, uint8_t dir, bool is_dir, uint8_t *node)
{
	struct seat *seat = begin(task, "create %u %s", dir, is_dir ? "dir" : "file");
	mntgate_result result = plain_mntgate_create(task, dir, is_dir, node);

	return answer_with(seat, result, MNTGATE_REPLY_NODE, result ? 0 : *node);
}

/* Operations at once. ------------------------------------------------------------------------------------------------------------------------------ */

#define RECORDED_AT_ONCE(name, parameters, handed_on, ...)                                                                                              \
	mntgate_result plain_##name parameters;                                                                                                         \
	mntgate_result name parameters                                                                                                                  \
	{                                                                                                                                               \
		struct seat *seat = begin(task, __VA_ARGS__);                                                                                           \
                                                                                                                                                        \
		return answer_begun(seat, plain_##name handed_on, outcome);                                                                             \
	}

RECORDED_AT_ONCE(mntgate_want_write_at_once, (struct mntgate_task * task, uint8_t mount, uint8_t processor, struct mntgate_outcome *outcome),
		 (task, mount, processor, outcome), "wantwrite %u %u", mount, processor)
RECORDED_AT_ONCE(mntgate_callback_at_once, (struct mntgate_task * task, uint8_t level, struct mntgate_outcome *outcome), (task, level, outcome),
		 "callback %u", level)
RECORDED_AT_ONCE(mntgate_remount_sb_at_once, (struct mntgate_task * task, bool read_only, struct mntgate_outcome *outcome), (task, read_only, outcome),
		 "remount %s", TO(read_only))
RECORDED_AT_ONCE(mntgate_freeze_at_once, (struct mntgate_task * task, bool by_kernel, struct mntgate_outcome *outcome), (task, by_kernel, outcome),
		 "freeze %s", HOLDER(by_kernel))
RECORDED_AT_ONCE(mntgate_thaw_at_once, (struct mntgate_task * task, bool by_kernel, struct mntgate_outcome *outcome), (task, by_kernel, outcome),
		 "thaw %s", HOLDER(by_kernel))

/* Operations step by step. ------------------------------------------------------------------------------------------------------------------------- */

/* Writes that a task begins the operation that a record names. None if there is no such operation. */
static struct seat *begin_op(struct mntgate_task *task, const struct mntgate_op *op)
{
	const unsigned number = op->number, other = op->other;
	const char *try = op->wait ? "" : "try";

	switch (op->kind) {
	case MNTGATE_OP_WANT: return begin(task, "%swant %u %u", try, number, other);
	case MNTGATE_OP_DROP_MOUNT: return begin(task, "drop %u %u", number, other);
	case MNTGATE_OP_CHANGE_MOUNT: return begin(task, "%schange %u %s", try, number, TO(op->choice));
	case MNTGATE_OP_REMOUNT_SB: return begin(task, "remount %s", TO(op->choice));
	case MNTGATE_OP_START: return begin(task, "%sstart %u %u", try, number, other);
	case MNTGATE_OP_END: return begin(task, "end %u %u", number, other);
	case MNTGATE_OP_WANT_WRITE: return begin(task, "wantwrite %u %u", number, other);
	case MNTGATE_OP_DROP_WRITE: return begin(task, "dropwrite %u %u", number, other);
	case MNTGATE_OP_CALLBACK: return begin(task, "callback %u", number);
	case MNTGATE_OP_FREEZE: return begin(task, "freeze %s", HOLDER(op->choice));
	case MNTGATE_OP_THAW: return begin(task, "thaw %s", HOLDER(op->choice));
	case MNTGATE_OP_CREATE: return begin(task, "create %u %s", number, op->choice ? "dir" : "file");
	case MNTGATE_OP_REMOVE: return begin(task, "remove %u", number);
	case MNTGATE_OP_GROW: return begin(task, "grow %u %u", number, (unsigned)op->blocks);
	case MNTGATE_OP_MOVE_TO: return begin(task, "move %u %u", number, other);
	case MNTGATE_OP_FAULT: return begin(task, "fault %u", number);
	case MNTGATE_OP_FLUSH: return begin(task, "flush %u", number);
	case MNTGATE_OP_OPEN_FILE: return begin(task, "open %u", number);
	case MNTGATE_OP_CLOSE_FILE: return begin(task, "%sclose %u %u", try, number, other);
	case MNTGATE_OP_SNAPSHOT: return begin(task, "%ssnapshot", try);
	default: return NULL;
	}
}

mntgate_result mntgate_begin(struct mntgate_task *task, const struct mntgate_op *op)
{
	struct seat *seat = begin_op(task, op);
	mntgate_result begun = plain_mntgate_begin(task, op);

	return begun ? answer(seat, begun) : 0;
}

/* The seat of a task whose operation goes on. If the next step reads a hook's answer, and the hook has failed, that is written. */
static struct seat *go_on(struct mntgate_task *task, uint16_t hook)
{
	static const char *const hooks[] = { NULL, "sync", "freeze", "unfreeze", "reconfigure", "wait" };
	const uint32_t asked = mntgate_wants_hook(task);
	struct seat *seat;

	pthread_mutex_lock(&order);
	seat = seat_of(task);
	if (seat != NULL && !seat->under_way)
		seat = NULL;
	if (seat != NULL && hook != 0 && asked != MNTGATE_ASKS_NONE)
		put(seat, "hook %s %u", hooks[asked], hook);
	pthread_mutex_unlock(&order);
	return seat;
}

void mntgate_step(struct mntgate_task *task, uint16_t hook, struct mntgate_step_done *done)
{
	struct seat *seat = go_on(task, hook);

	plain_mntgate_step(task, hook, done);
	answer_begun(seat, 0, &done->outcome);
}

void mntgate_run(struct mntgate_task *task, uint16_t hook, uint32_t most, struct mntgate_outcome *outcome)
{
	struct seat *seat = go_on(task, hook);

	plain_mntgate_run(task, hook, most, outcome);
	answer_begun(seat, 0, outcome);
}
