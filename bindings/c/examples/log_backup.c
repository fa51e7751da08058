/*
 * A storage engine's log, and a backup of it while writers append.
 *
 *     log_backup without | with
 *
 * Each writer has a log file. It appends a record in two writes: first the length, then so many bytes. A backup copies both files. A copy
 * is torn where a file ends inside a record, or where one file's records are of a later moment than the other's: writer 1 answers each
 * record of writer 0, so that its log is never longer, nor shorter by more than one record. Without the gates backups are torn; with them
 * the backup freezes the file system, and none is. Writers wait for a backup for a second at most before it has begun: then it gives up, and comes
 * again later.
 */
#include <errno.h>
#include <fcntl.h>
#include <pthread.h>
#include <sched.h>
#include <stdatomic.h>
#include <stdio.h>
#include <stdlib.h>
#include <string.h>
#include <time.h>
#include <unistd.h>

#include "mntgate.h"

enum { WRITERS = 2, BACKUPS = 200, AHEAD = 100, RECORDS = AHEAD * (BACKUPS + 1), LONGEST = 64, MOUNT = 0, TRIES = 60 };

struct writer {
	struct mntgate_task task;
	uint8_t number;
	int file;
};

static bool gated;
static atomic_uint written[WRITERS];
static atomic_uint begun; /* how many backups; at each, writers may append AHEAD records more */
static atomic_bool over;

static void stop(const char *what, mntgate_result result)
{
	fprintf(stderr, "log_backup: %s: %s\n", what, MNTGATE_IS_HOOK(result) ? "a hook failed" : strerror((int)result));
	exit(1);
}

static void check(mntgate_result result, const char *what)
{
	if (result)
		stop(what, result);
}

static void put(int file, const void *bytes, size_t count)
{
	if (write(file, bytes, count) != (ssize_t)count)
		stop("write", (mntgate_result)errno);
}

/* Appends a record, inside write access. */
static void append(struct writer *writer, unsigned record)
{
	uint32_t length = record % LONGEST + 1;
	char bytes[LONGEST];

	memset(bytes, 'a' + (int)(record % 26), sizeof bytes);
	if (gated)
		check(mntgate_want_write(&writer->task, MOUNT, writer->number), "want_write");
	put(writer->file, &length, sizeof length);
	sched_yield();
	put(writer->file, bytes, length);
	if (gated)
		check(mntgate_drop_write(&writer->task, MOUNT, writer->number), "drop_write");
	atomic_fetch_add(&written[writer->number], 1);
}

static void *run_writer(void *arg)
{
	struct writer *writer = arg;
	unsigned record;

	for (record = 0; record < RECORDS && !atomic_load(&over); record++) {
		/* writer 1 answers writer 0, who waits for the answer */
		while (!atomic_load(&over) && (record >= (atomic_load(&begun) + 1) * AHEAD ||
			(writer->number == 1 ? atomic_load(&written[0]) <= record : atomic_load(&written[1]) < record)))
			sched_yield();
		append(writer, record);
	}
	return NULL;
}

/* How many whole records a copy has, or -1 where it ends inside one. */
static int records_in(const char *bytes, size_t count)
{
	size_t at = 0;
	int records = 0;
	uint32_t length;

	while (at < count) {
		if (count - at < sizeof length)
			return -1;
		memcpy(&length, bytes + at, sizeof length);
		at += sizeof length;
		if (length == 0 || length > LONGEST || count - at < length)
			return -1;
		at += length;
		records++;
	}
	return records;
}

static int copy(int file)
{
	static char bytes[RECORDS * (LONGEST + sizeof(uint32_t))];
	ssize_t count = pread(file, bytes, sizeof bytes, 0);

	if (count < 0)
		stop("read", (mntgate_result)errno);
	return records_in(bytes, (size_t)count);
}

static uint16_t sync_logs(void *data)
{
	const struct writer *writers = data;
	int number;

	for (number = 0; number < WRITERS; number++)
		if (fdatasync(writers[number].file))
			return (uint16_t)errno;
	return 0;
}

/* A copy takes its time: until the writers have answered two more records, where they can, or for a while. */
static void take_time(void)
{
	unsigned before = atomic_load(&written[1]), milliseconds;

	for (milliseconds = 0; milliseconds < (gated ? 1 : 5000) && atomic_load(&written[1]) < before + 2; milliseconds++)
		usleep(1000);
}

/* Freezes within a second. Else the levels are open again, and it lets the writers work before it comes again. */
static void freeze_in_time(struct mntgate_task *task, const struct mntgate_hooks *hooks)
{
	unsigned tries;

	for (tries = 0; tries < TRIES; tries++) {
		struct timespec deadline;
		mntgate_result result;

		if (clock_gettime(CLOCK_MONOTONIC, &deadline))
			stop("clock", (mntgate_result)errno);
		deadline.tv_sec += 1;
		result = mntgate_freeze_until(task, MNTGATE_USER, hooks, &deadline);
		if (result != MNTGATE_HOOK + ETIMEDOUT) {
			check(result, "freeze");
			return;
		}
		check(mntgate_settle(task), "settle");
		usleep(100000);
	}
	stop("freeze", ETIMEDOUT);
}

/* One backup; whether it is torn. */
static bool back_up(struct mntgate_task *task, struct writer *writers)
{
	const struct mntgate_hooks hooks = { writers, sync_logs, NULL, NULL, NULL, NULL };
	int first, second;

	if (gated)
		freeze_in_time(task, &hooks);
	atomic_fetch_add(&begun, 1);
	first = copy(writers[0].file);
	take_time();
	second = copy(writers[1].file);
	if (gated) {
		check(mntgate_thaw(task, MNTGATE_USER, &hooks), "thaw");
		check(mntgate_settle(task), "settle");
	}
	return first < 0 || second < 0 || second > first || first > second + 1;
}

static unsigned back_up_all(struct mntgate_task *task, struct writer *writers)
{
	unsigned torn = 0, backup;

	for (backup = 0; backup < BACKUPS; backup++)
		torn += back_up(task, writers);
	return torn;
}

int main(int count, char **words)
{
	const struct mntgate_config config = { WRITERS + 1, WRITERS, 1, 2, 0 };
	struct mntgate_task task = MNTGATE_NONE;
	struct writer writers[WRITERS];
	pthread_t threads[WRITERS];
	unsigned torn;
	uint8_t number;

	gated = count == 2 && !strcmp(words[1], "with");
	if (count != 2 || (!gated && strcmp(words[1], "without")))
		return fprintf(stderr, "usage: log_backup without|with\n"), 2;
	check(mntgate_open(&task, &config), "open");
	for (number = 0; number < WRITERS; number++) {
		char name[] = "/tmp/mntgate-log-XXXXXX";

		writers[number].task = MNTGATE_NONE;
		writers[number].number = number;
		writers[number].file = mkstemp(name);
		if (writers[number].file < 0 || unlink(name) || fcntl(writers[number].file, F_SETFL, O_APPEND))
			stop("a log file", (mntgate_result)errno);
		check(mntgate_split(&task, &writers[number].task), "split");
	}
	for (number = 0; number < WRITERS; number++)
		if (pthread_create(&threads[number], NULL, run_writer, &writers[number]))
			stop("a thread", EAGAIN);
	while (atomic_load(&written[1]) < 10)
		sched_yield();
	torn = back_up_all(&task, writers);
	atomic_store(&over, true);
	for (number = 0; number < WRITERS; number++) {
		pthread_join(threads[number], NULL);
		check(mntgate_join(&task, &writers[number].task), "join");
	}
	check(mntgate_close(&task), "close");
	printf("%s the gates: %s\n", words[1], torn ? "backups are torn" : "no backup is torn");
	fprintf(stderr, "%u of %d backups torn, %u records\n", torn, BACKUPS, atomic_load(&written[0]) + atomic_load(&written[1]));
	return 0;
}
