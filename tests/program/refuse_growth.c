/* Counts the growths of memory of the program that it is loaded into by LD_PRELOAD, and refuses one
 * of them. A growth is a call for memory from within the program itself: what the C library asks
 * for of its own, as to start a thread, is none.
 *
 *     GROWTHS=FILE        eight bytes, in which the growths are counted: a number of this machine.
 *                         It is right also if the program is killed.
 *     REFUSED_GROWTH=N    the growth that is refused, from 1 on; none without it
 */
#define _GNU_SOURCE
#include <errno.h>
#include <fcntl.h>
#include <link.h>
#include <stdatomic.h>
#include <stdbool.h>
#include <stdint.h>
#include <stdlib.h>
#include <sys/mman.h>
#include <unistd.h>

/* By the names that glibc alone has: to look up those that are taken here needs memory. */
void *__libc_malloc(size_t size);
void *__libc_calloc(size_t count, size_t size);
void *__libc_realloc(void *kept, size_t size);
void *__libc_memalign(size_t alignment, size_t size);

/* Where the program lies in memory. No call is from there until it is known. */
static uintptr_t begin, end;
static _Atomic uint64_t *growths;
static uint64_t refused;

/* Whether a call that returns to this place is refused. Counts it if it is a growth. */
static bool is_refused(const void *place)
{
	uintptr_t at = (uintptr_t)place;

	if (at < begin || at >= end)
		return false;
	if (atomic_fetch_add(growths, 1) + 1 != refused)
		return false;
	errno = ENOMEM;
	return true;
}

void *malloc(size_t size)
{
	return is_refused(__builtin_return_address(0)) ? NULL : __libc_malloc(size);
}

void *calloc(size_t count, size_t size)
{
	return is_refused(__builtin_return_address(0)) ? NULL : __libc_calloc(count, size);
}

void *realloc(void *kept, size_t size)
{
	return is_refused(__builtin_return_address(0)) ? NULL : __libc_realloc(kept, size);
}

void *aligned_alloc(size_t alignment, size_t size)
{
	return is_refused(__builtin_return_address(0)) ? NULL : __libc_memalign(alignment, size);
}

int posix_memalign(void **made, size_t alignment, size_t size)
{
	void *at = is_refused(__builtin_return_address(0)) ? NULL : __libc_memalign(alignment, size);

	if (at)
		*made = at;
	return at ? 0 : ENOMEM;
}

/* Finds where the program lies: it is the first that is told of. */
static int find_program(struct dl_phdr_info *program, size_t size, void *unused)
{
	(void)size;
	(void)unused;
	for (int i = 0; i < program->dlpi_phnum; i++) {
		const ElfW(Phdr) *part = &program->dlpi_phdr[i];
		uintptr_t from = program->dlpi_addr + part->p_vaddr;

		if (part->p_type != PT_LOAD)
			continue;
		if (!end || from < begin)
			begin = from;
		if (from + part->p_memsz > end)
			end = from + part->p_memsz;
	}
	return 1;
}

__attribute__((constructor)) static void start(void)
{
	const char *file = getenv("GROWTHS"), *number = getenv("REFUSED_GROWTH");
	int opened = file ? open(file, O_RDWR | O_CLOEXEC) : -1;
	void *mapped = mmap(NULL, sizeof(*growths), PROT_READ | PROT_WRITE, MAP_SHARED, opened, 0);

	if (mapped == MAP_FAILED)
		abort();
	close(opened);
	growths = mapped;
	refused = number ? strtoull(number, NULL, 10) : 0;
	dl_iterate_phdr(find_program, NULL);
}
