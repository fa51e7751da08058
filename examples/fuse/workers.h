/* The threads that serve the kernel. None waits at a gate: changes.h. */
#ifndef WORKERS_H
#define WORKERS_H

#include "inodes.h"

enum { MOST_WORKERS = 64 };

/* Starts `count` of them, with SIGUSR1 to wake them. 0 or an errno. */
int workers_start(struct fuse_session *session, unsigned int count);

/* A descriptor that can be read from once one has ended: nothing is mounted any more. */
int workers_ended(void);

/* Waits until each request that one of them has read before is answered or parked. */
void workers_catch_up(void);

void workers_end(void);

#endif
