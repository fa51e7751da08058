/* Counts the threads that the program starts into which it is loaded by LD_PRELOAD, and refuses one
 * of them. Each other one begins late, so that a program that doesn't wait for its threads tells
 * what it has to tell before they have begun.
 *
 *     THREADS=FILE        three counts, of eight bytes each, numbers of this machine: the threads
 *                         that were asked for, with the refused one; those that had begun when the
 *                         program first wrote to standard error; and those that had ended a while
 *                         after that at the latest.
 *     REFUSED_THREAD=N    the thread that is refused, from 1 on; none without it
 */
#define _GNU_SOURCE
#include <dlfcn.h>
#include <errno.h>
#include <fcntl.h>
#include <pthread.h>
#include <stdatomic.h>
#include <stdint.h>
#include <stdlib.h>
#include <sys/mman.h>
#include <unistd.h>

/* How late a thread begins, in microseconds; and how long it may take to end where the program goes
 * on, in the same. */
enum { LATE = 50000, WHILE = 5000000, LOOK = 1000 };

struct counts {
	_Atomic uint64_t asked, begun_when_told, ended;
};

/* What a thread runs. */
struct work {
	void *(*start)(void *);
	void *given;
};

static struct counts *counts;
static uint64_t refused;
static _Atomic uint64_t begun, told;
static int (*create)(pthread_t *, const pthread_attr_t *, void *(*)(void *), void *);
static ssize_t (*write_out)(int, const void *, size_t);

static void *run(void *given)
{
	struct work work = *(struct work *)given;
	void *answer;

	free(given);
	usleep(LATE);
	atomic_fetch_add(&begun, 1);
	answer = work.start(work.given);
	atomic_fetch_add(&counts->ended, 1);
	return answer;
}

int pthread_create(pthread_t *thread, const pthread_attr_t *attributes, void *(*start)(void *),
		   void *given)
{
	struct work *work;

	if (atomic_fetch_add(&counts->asked, 1) + 1 == refused)
		return EAGAIN;
	work = malloc(sizeof(*work));
	if (!work)
		abort();
	*work = (struct work){ start, given };
	/* Only the one may be refused. */
	if (create(thread, attributes, run, work))
		abort();
	return 0;
}

ssize_t write(int file, const void *bytes, size_t size)
{
	if (file == STDERR_FILENO && !atomic_exchange(&told, 1)) {
		atomic_store(&counts->begun_when_told, atomic_load(&begun));
		for (int waited = 0;
		     waited < WHILE && atomic_load(&counts->ended) < atomic_load(&begun);
		     waited += LOOK)
			usleep(LOOK);
	}
	return write_out(file, bytes, size);
}

__attribute__((constructor)) static void start(void)
{
	const char *file = getenv("THREADS"), *number = getenv("REFUSED_THREAD");
	int opened = file ? open(file, O_RDWR | O_CLOEXEC) : -1;
	void *mapped = mmap(NULL, sizeof(*counts), PROT_READ | PROT_WRITE, MAP_SHARED, opened, 0);

	*(void **)&create = dlsym(RTLD_NEXT, "pthread_create");
	*(void **)&write_out = dlsym(RTLD_NEXT, "write");
	if (mapped == MAP_FAILED || !create || !write_out)
		abort();
	close(opened);
	counts = mapped;
	refused = number ? strtoull(number, NULL, 10) : 0;
}
