/* Changes that the kernel asks for. One that finds a gate closed is parked, and no thread waits. */
#ifndef CHANGES_H
#define CHANGES_H

#include <stdbool.h>

#include "gates.h"
#include "inodes.h"

/*
 * A change with its arguments; what its kind doesn't take is 0. It points into the request that a
 * worker has read. A parked one is a copy on the heap, with what it points to.
 */
struct change {
	fuse_req_t request;
	void (*make)(struct change *change); /* makes it and answers the request */
	enum passage passage;

	fuse_ino_t inode, other;
	const char *name, *other_name;
	const void *bytes;
	size_t size;
	off_t from, length;
	mode_t mode;
	dev_t dev;
	int flags;
	struct stat attr;
	struct fuse_file_info open;

	/* of a parked one */
	struct change *next, *previous;
	bool is_parked;
	bool is_interrupted; /* a signal has come to the process that waits for it */
};

struct change_counts {
	unsigned int waiting;  /* parked now */
	unsigned int waited;   /* parked once, so far */
	unsigned int given_up; /* whose process was killed meanwhile */
};

/* Starts the threads that try parked changes again. 0 or an errno. */
int changes_start(void);

/* Makes a change if the gates let it in, parks it if one is closed, and else answers why not. */
void change_admit(struct change *change);

/* Has the parked changes tried again: for after each command, which may have opened a gate. */
void changes_retry(void);

/* Has those looked at again to whose process a signal has come: a later one may be fatal. */
void changes_retry_interrupted(void);

/* Waits until each change that was parked before the last retry was tried. Not while frozen. */
void changes_settle(void);

/* From here on a change that would be parked is answered with EIO, and so is each parked one. */
void changes_refuse(void);

/* Ends the threads, after the last change was asked for. */
void changes_end(void);

void changes_count(struct change_counts *counts);

#endif
