/* What the two files of the program `threads` share. */
#include <stdatomic.h>
#include <stdbool.h>

#include "mntgate.h"

enum { WRITERS = 2, MOUNT = 0 };

/* What a writer writes, in two halves that are alike while nobody writes: plain memory, which the gates alone guard. */
struct record {
	unsigned long first;
	unsigned long second;
};

struct writer {
	struct mntgate_task task;
	uint8_t number;
	struct record record;
	atomic_ulong turns; /* how often it has written */
};

/* Who looks at `turns` and `over` uses relaxed loads, which order nothing. */
extern atomic_bool over; /* the writers are to end */

/* A thread's work: writes its record inside write access, again and again; or once inside and once after it. */
void *write_guarded(void *writer);
void *write_late(void *writer);
