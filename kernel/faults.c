/* Page faults for writing, each in a process of its own. A thread that waits in a fault keeps all others of its process from changing their
 * mappings, so tasks, which are threads of one process, can't do it. These processes have the tasks' open files, but memory of their own. */
#define _GNU_SOURCE
#include <errno.h>
#include <sched.h>
#include <signal.h>
#include <stdatomic.h>
#include <sys/mman.h>
#include <sys/syscall.h>
#include <unistd.h>

#include "guest.h"

/* What a task and its process share: the file that is asked for, and the errno that is answered. */
struct faulter {
    pid_t process;
    atomic_int asked, answered;
    int file, error;
};

static struct faulter *faulters;

/* Writes to a page of the file that isn't mapped yet. */
static int write_page(int file) {
    char *page = mmap(NULL, PAGE, PROT_READ | PROT_WRITE, MAP_SHARED, file, 0);
    if (page == MAP_FAILED) return errno;
    *(volatile char *)page = 1;
    munmap(page, PAGE);
    return 0;
}

static void run_faulter(struct faulter *faulter) {
    for (int seen = 0;; seen++) {
        while (atomic_load(&faulter->asked) == seen) sleep_at(&faulter->asked, seen, 0);
        faulter->error = write_page(faulter->file);
        atomic_store(&faulter->answered, seen + 1);
        wake(&faulter->answered);
    }
}

/* A process for each task. It has to be called before there are threads. */
void make_faulters(void) {
    faulters = mmap(NULL, PAGE, PROT_READ | PROT_WRITE, MAP_SHARED | MAP_ANONYMOUS, -1, 0);
    need(faulters != MAP_FAILED, "memory that is shared");
    for (int i = 0; i < TASKS; i++) {
        pid_t process = syscall(SYS_clone, CLONE_FILES | SIGCHLD, 0, 0, 0, 0);
        need(process >= 0, "a process");
        if (process == 0) run_faulter(&faulters[i]);
        faulters[i].process = process;
    }
}

/* Has the task's process fault in a page of the file. Meanwhile that process is who does the call. */
int fault_in(struct task *task, int file) {
    struct faulter *faulter = &faulters[task->number];
    int answered = atomic_load(&faulter->answered);
    pid_t thread = atomic_exchange(&task->thread, faulter->process);
    faulter->file = file;
    atomic_fetch_add(&faulter->asked, 1);
    wake(&faulter->asked);
    while (atomic_load(&faulter->answered) == answered) sleep_at(&faulter->answered, answered, 0);
    atomic_store(&task->thread, thread);
    return faulter->error;
}
