/* Has the kernel write back what mappings of the mount have stored. */
#ifndef WRITEBACK_H
#define WRITEBACK_H

#include <stdint.h>

/*
 * Starts the process that does it, before the daemon has threads or mounts anything. 0 or an
 * errno. It is no thread: one that waited in the daemon's own mount would keep a killed daemon
 * from ending.
 */
int writeback_start(const char *mountpoint);

/*
 * Has the kernel send a request for each page to write back, and waits until a worker has read the
 * last one. 0 or an errno: ETIMEDOUT if that takes more than some seconds, as when a parked change
 * holds the lock of a page that has to be written.
 */
uint16_t writeback_all(void);

/* Ends the process, once nothing is mounted any more. */
void writeback_end(void);

#endif
