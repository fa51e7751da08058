/*
 * A part of the C library: says in time that the processor is too old.
 *
 * The library's code is for x86-64-v2. On an older processor it would end the program by SIGILL, with no word. The shared library is marked,
 * so that the loader of glibc 2.33 or later refuses it there; an older loader, and a program with the static library, comes here first.
 */
#include <unistd.h>

__attribute__((constructor)) static void refuse_old_processor(void)
{
	static const char text[] = "mntgate: this processor is too old: the library needs SSE4.2 and POPCNT (x86-64-v2)\n";

	__builtin_cpu_init();
	if (__builtin_cpu_supports("ssse3") && __builtin_cpu_supports("sse4.2") && __builtin_cpu_supports("popcnt"))
		return;
	if (write(STDERR_FILENO, text, sizeof(text) - 1) < 0)
		_exit(126);
	_exit(127);
}
