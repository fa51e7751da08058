#define _GNU_SOURCE
#include "writeback.h"

#include <errno.h>
#include <fcntl.h>
#include <poll.h>
#include <sys/socket.h>
#include <sys/statvfs.h>
#include <sys/wait.h>
#include <unistd.h>

enum { PATIENCE_MILLISECONDS = 5000 };

struct report {
	uint64_t number;
	int error;
};

static int channel = -1;
static pid_t process;
static uint64_t asked;

/* Once statfs is answered, a worker has read each request that syncfs has sent before. */
static int write_back(const char *mountpoint)
{
	int fd = open(mountpoint, O_RDONLY | O_DIRECTORY | O_CLOEXEC), error = 0;
	struct statvfs all;

	if (fd < 0)
		return errno;
	if (syncfs(fd) || fstatvfs(fd, &all))
		error = errno;
	close(fd);
	return error;
}

/* The process: until the daemon's end of the channel is closed. */
static void serve(int fd, const char *mountpoint)
{
	struct report report;

	while (recv(fd, &report, sizeof(report), 0) == sizeof(report)) {
		report.error = write_back(mountpoint);
		if (send(fd, &report, sizeof(report), MSG_NOSIGNAL) < 0)
			break;
	}
	_exit(0);
}

int writeback_start(const char *mountpoint)
{
	int ends[2];

	if (socketpair(AF_UNIX, SOCK_SEQPACKET | SOCK_CLOEXEC, 0, ends))
		return errno;
	process = fork();
	if (process < 0)
		return errno;
	if (process == 0) {
		close(ends[0]);
		serve(ends[1], mountpoint);
	}
	close(ends[1]);
	channel = ends[0];
	return 0;
}

uint16_t writeback_all(void)
{
	struct report report = { .number = ++asked };
	struct pollfd answered = { channel, POLLIN, 0 };

	if (send(channel, &report, sizeof(report), MSG_NOSIGNAL) < 0)
		return (uint16_t)errno;
	do {
		if (poll(&answered, 1, PATIENCE_MILLISECONDS) == 0)
			return ETIMEDOUT;
		if (recv(channel, &report, sizeof(report), MSG_DONTWAIT) <= 0)
			return EIO;
	} while (report.number < asked); /* the answer to one that was given up */
	return (uint16_t)report.error;
}

void writeback_end(void)
{
	close(channel);
	waitpid(process, NULL, 0);
}
