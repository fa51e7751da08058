/*
 * A directory mounted through the write gates: a file system that can be frozen.
 *
 *     passthrough [OPTION..] SOURCE MOUNTPOINT SOCKET
 *
 * Whatever changes SOURCE through the mount passes the gates; reads don't. gatectl freezes and
 * thaws it by SOCKET. While it is frozen nothing below SOURCE changes, so a backup copies SOURCE.
 *
 * No thread waits at a closed gate. A change that finds one is parked, and the worker that has read
 * it goes on (changes.c). So one worker is enough for all reads, however many writers wait. A thaw
 * is no request of FUSE: the main thread reads it from the socket (control.c), and serves no mount.
 */
#define _GNU_SOURCE
#include <errno.h>
#include <fcntl.h>
#include <getopt.h>
#include <pthread.h>
#include <signal.h>
#include <stdio.h>
#include <stdlib.h>
#include <string.h>
#include <sys/resource.h>
#include <sys/signalfd.h>
#include <sys/stat.h>
#include <unistd.h>

#include "changes.h"
#include "control.h"
#include "gates.h"
#include "operations.h"
#include "workers.h"
#include "writeback.h"

struct options {
	const char *source, *mountpoint, *socket;
	bool gated, sync;
	unsigned int workers;
};

static struct fuse_session *session;
static bool with_sync;

static void stop(const char *what, int error)
{
	fprintf(stderr, "passthrough: %s: %s\n", what, strerror(error));
	exit(1);
}

static void usage(void)
{
	fputs("usage: passthrough [OPTION..] SOURCE MOUNTPOINT SOCKET\n"
	      "  --no-mmap     no page of a file is kept: shared mappings are refused with ENODEV\n"
	      "  --sync        a freeze also writes SOURCE's file system to its disk\n"
	      "  --workers N   how many threads serve the kernel, 1 to 64 (10)\n"
	      "  --ungated     leave the gates out: for a comparison\n", stderr);
	exit(2);
}

static struct options options_of(int count, char **words)
{
	static const struct option known[] = {
		{ "no-mmap", no_argument, NULL, 'm' },  { "sync", no_argument, NULL, 's' },
		{ "ungated", no_argument, NULL, 'u' },  { "workers", required_argument, NULL, 'w' },
		{ NULL, 0, NULL, 0 },
	};
	struct options options = { .gated = true, .workers = 10 };
	int option;

	while ((option = getopt_long(count, words, "", known, NULL)) != -1) {
		if (option == 'm')
			with_mappings = false;
		else if (option == 's')
			options.sync = true;
		else if (option == 'u')
			options.gated = false;
		else if (option == 'w')
			options.workers = (unsigned int)strtoul(optarg, NULL, 10);
		else
			usage();
	}
	if (count - optind != 3 || options.workers < 1 || options.workers > MOST_WORKERS)
		usage();
	options.source = words[optind];
	options.mountpoint = words[optind + 1];
	options.socket = words[optind + 2];
	return options;
}

/* Each inode that the kernel knows has a descriptor. */
static void allow_many_files(void)
{
	struct rlimit files;

	if (getrlimit(RLIMIT_NOFILE, &files) == 0) {
		files.rlim_cur = files.rlim_max;
		setrlimit(RLIMIT_NOFILE, &files);
	}
}

/*
 * Writes back what mappings have stored. The kernel doesn't wait for these requests; but no worker
 * reads a later one before them, and so they are done once the workers have caught up.
 */
static uint16_t write_mappings_back(void)
{
	uint16_t error = with_mappings ? writeback_all() : 0;

	if (error == 0)
		workers_catch_up();
	return error;
}

/* The hook of a freeze, with levels 1 and 2 closed: no system call adds to what it writes. */
static uint16_t sync_all(void *none)
{
	uint16_t error = write_mappings_back();
	int fd;

	(void)none;
	if (error || !with_sync)
		return error;
	fd = openat(inode_fd(FUSE_ROOT_ID), ".", O_RDONLY | O_DIRECTORY | O_CLOEXEC);
	if (fd < 0)
		return (uint16_t)errno;
	if (syncfs(fd))
		error = (uint16_t)errno;
	close(fd);
	return error;
}

/* The signals that end it come by a descriptor: no signal handler may call the gates. */
static int watch_signals(void)
{
	sigset_t mask;
	int fd;

	sigemptyset(&mask);
	sigaddset(&mask, SIGTERM);
	sigaddset(&mask, SIGINT);
	sigaddset(&mask, SIGHUP);
	pthread_sigmask(SIG_BLOCK, &mask, NULL);
	signal(SIGPIPE, SIG_IGN);
	fd = signalfd(-1, &mask, SFD_CLOEXEC);
	if (fd < 0)
		stop("signals", errno);
	return fd;
}

static void mount_all(const char *name, const struct options *options)
{
	struct fuse_lowlevel_ops operations = { .init = NULL };
	/* Only root may let other users in without a word in /etc/fuse.conf. */
	const char *how = geteuid() == 0 ? "default_permissions,fsname=passthrough,allow_other"
					 : "default_permissions,fsname=passthrough";
	char *words[] = { (char *)name, (char *)"-o", (char *)how, NULL };
	struct fuse_args args = FUSE_ARGS_INIT(3, words);

	operations_add_changing(&operations);
	operations_add_reading(&operations);
	session = fuse_session_new(&args, &operations, sizeof(operations), NULL);
	fuse_opt_free_args(&args);
	if (session == NULL || fuse_session_mount(session, options->mountpoint)) {
		control_close();
		exit(1); /* libfuse has said why */
	}
}

static void begin(const char *name, const struct options *options)
{
	int error;

	error = writeback_start(options->mountpoint);
	if (error)
		stop("a process", error);
	umask(0); /* the kernel has applied that of who asks */
	allow_many_files();
	with_sync = options->sync;
	if (inodes_open(options->source))
		stop(options->source, errno);
	if (!gates_open(options->gated, sync_all))
		stop("gates", ENOMEM);
	error = control_open(options->socket);
	if (error)
		stop(options->socket, error);
	mount_all(name, options);
	error = changes_start();
	if (error == 0)
		error = workers_start(session, options->workers);
	if (error)
		stop("threads", error);
}

/* Nothing passes a closed gate, to the end: what waits is answered with EIO, and isn't done. */
static void end(int signal)
{
	bool was_frozen = gates_are_frozen();
	uint64_t sum;

	if (signal && !was_frozen)
		write_mappings_back();
	changes_refuse();
	workers_end();
	changes_end();
	fuse_session_unmount(session);
	writeback_end();
	control_close();
	sum = gates_close();
	fuse_session_destroy(session);
	inodes_close();
	fprintf(stderr, "passthrough: %s%s; the gates are closed, all counts together %llu\n",
		signal ? strsignal(signal) : "unmounted", was_frozen ? " while frozen" : "",
		(unsigned long long)sum);
}

int main(int count, char **words)
{
	struct options options = options_of(count, words);
	int signals = watch_signals();

	begin(words[0], &options);
	end(control_run(signals, workers_ended()));
	return 0;
}
