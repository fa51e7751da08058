/* The writers of `threads`, in a file of their own: what the header tells the thread sanitizer has to hold across files. */
#undef NDEBUG
#include <assert.h>

#include "threads.h"

atomic_bool over;

static void write_record(struct writer *writer)
{
	writer->record.first++;
	writer->record.second++;
	atomic_fetch_add_explicit(&writer->turns, 1, memory_order_relaxed);
}

/* Refused is a writer only while a change has made the mount read-only. */
static bool write_once(struct writer *writer)
{
	mntgate_result result = mntgate_want_write(&writer->task, MOUNT, writer->number);

	assert(result == 0 || result == EROFS);
	if (result)
		return false;
	write_record(writer);
	assert(mntgate_drop_write(&writer->task, MOUNT, writer->number) == 0);
	return true;
}

void *write_guarded(void *arg)
{
	unsigned round = 0;

	while (!atomic_load_explicit(&over, memory_order_relaxed))
		if (!write_once(arg))
			mntgate_pause(&round);
	return NULL;
}

void *write_late(void *arg)
{
	assert(write_once(arg));
	write_record(arg);
	return NULL;
}
