/* What the parts of the guest's init share: tasks, their calls, and the line that is spoken on. */
#ifndef GUEST_H
#define GUEST_H

#include <stdatomic.h>
#include <sys/types.h>

enum { TASKS = 4, MOUNTS = 3, LEVELS = 3, PAGE = 4096, CALLS = 4, OPENS = 64, ROWS = 256, LINE = 256 };

enum verb {
    OPEN, CLOSE, TOUCH, WRITE, BEGIN, FAULT, FLUSH, REMOVE, BIND, SETATTR, REMOUNT, SPARE, RELEASE, FREEZE, THAW,
    WANT, DROP, WANT_WRITE, DROP_WRITE, START, TRY_START, END, VERBS
};

/* A call. `argument` is a level or, of a freeze or thaw, its holder; 0 where that is FIFREEZE or FITHAW. `hook` is the part of the file system that
 * fails, as in module/gates.h, or what is behind those; 0 where none does. `error` is its errno. */
struct call {
    enum verb verb;
    int mount;
    int read_only;
    int argument;
    int processor;
    int hook;
    int error;
};

/* The clock of the module, before and after a call. */
struct stamps {
    unsigned long long begun, returned;
};

/* A task: what it is to do, what it has answered, and what it has open. `thread` is who does its call. `done` counts the calls that it has
 * ended. `held_up` is whether its write misses its buffer's page. `mounts` and `levels` are what the module's calls were granted: so many accesses at a mount, and a bit for each level. */
struct task {
    int number;
    _Atomic pid_t thread;
    struct call calls[CALLS];
    int answers[CALLS];
    int count;
    long delay;
    atomic_int racing, asked, taken, done;
    int opened[MOUNTS][OPENS];
    int opens[MOUNTS];
    int removed;
    int held_up;
    char *page;
    int mounts[MOUNTS];
    unsigned levels;
    struct stamps stamps;
};

extern struct task tasks[TASKS];
extern int processors;

void say(const char *form, ...);
void need(int holds, const char *what);
long now(void);
int perform(struct task *task, const struct call *call);
void wake(atomic_int *word);
void sleep_at(atomic_int *word, int value, long most);

/* faults.c: page faults for writing. */
void make_faulters(void);
int fault_in(struct task *task, int file);

/* mapped.c: the disk, and failing writes. */
const char *map_disk(void);
void let_disk_fail(int fails);

/* gate_calls.c: the calls of the module's device, if it has one. */
void open_gates(void);
void unload_gates(void);
int have_gates(void);
int call_gates(struct task *task, const struct call *call);
void give_back(struct task *task);
int thaw_holders(void);
int are_levels_idle(void);
void stamp(unsigned long long *at);
void say_words(void);

/* histories.c */
void record_history(char *words);

#endif
