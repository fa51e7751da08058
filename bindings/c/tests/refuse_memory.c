/* Refuses each growth of memory in turn: a call that is refused leaves the handles as they were, takes no task's number, and is done when it is made
 * again; and all closes. Link with -Wl,--wrap=malloc,--wrap=realloc. Prints how many were refused. Under valgrind it shows that nothing leaks. */
#undef NDEBUG
#include <assert.h>
#include <stdbool.h>
#include <stdio.h>
#include <stdlib.h>

#include "mntgate.h"

/* How many growths are granted before one is refused; none is, if it is below 0. */
static long left = -1;

void *__real_malloc(size_t size);
void *__wrap_malloc(size_t size);
void *__real_realloc(void *kept, size_t size);
void *__wrap_realloc(void *kept, size_t size);

static bool is_refused(void)
{
	return left >= 0 && left-- == 0;
}

void *__wrap_malloc(size_t size)
{
	return is_refused() ? NULL : __real_malloc(size);
}

void *__wrap_realloc(void *kept, size_t size)
{
	return is_refused() ? NULL : __real_realloc(kept, size);
}

/* Opens gates with a growth refused, and once more if they were. Returns whether they were. */
static bool open_again(struct mntgate_task *task, long nth)
{
	const struct mntgate_config config = { 3, 2, 1, 2, 8 };
	mntgate_result result;

	left = nth;
	result = mntgate_open(task, &config);
	left = -1;
	if (result) {
		assert(result == ENOMEM && task->at == NULL);
		assert(mntgate_open(task, &config) == 0);
	}
	return result != 0;
}

/* Splits the task with this number off, in the same way. */
static bool split_again(struct mntgate_task *task, struct mntgate_task *other, uint8_t number, long nth)
{
	mntgate_result result;

	left = nth;
	result = mntgate_split(task, other);
	left = -1;
	if (result) {
		assert(result == ENOMEM && other->at == NULL);
		assert(mntgate_rests(task) && mntgate_number(task) == 0);
		assert(mntgate_split(task, other) == 0);
	}
	assert(mntgate_number(other) == number);
	return result != 0;
}

int main(void)
{
	unsigned opens = 0, splits = 0, before;
	long nth = 0;

	do {
		struct mntgate_task task = MNTGATE_NONE, one = MNTGATE_NONE, two = MNTGATE_NONE;

		before = opens + splits;
		opens += open_again(&task, nth);
		splits += split_again(&task, &one, 1, nth);
		splits += split_again(&task, &two, 2, nth);
		assert(mntgate_join(&task, &one) == 0 && one.at == NULL);
		assert(mntgate_join(&task, &two) == 0 && two.at == NULL);
		assert(mntgate_close(&task) == 0 && task.at == NULL);
		nth++;
	} while (opens + splits > before);
	assert(opens > 0 && splits > 0);
	printf("%u opens and %u splits refused, all closed\n", opens, splits);
	return 0;
}
