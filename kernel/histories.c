/* Histories: three threads draw calls of the gates and make them at once, with delays of any size between them. For each call they note the
 * module's clock when it begins and when it returns.
 *
 *   history CALLS SEED CHANGES HOLDERS
 *
 * CALLS is how many calls each thread makes before it gives back what it holds. CHANGES is 'mounts' or 'super': whether single mounts are
 * changed or the superblock is remounted. HOLDERS is 1 or 2. The answer is a line for each begin and return, in the order of the clock:
 *
 *   SEQ T begin CALL
 *   SEQ T return ok | SEQ T return ERRNO
 *
 * and then 'recorded N', of N calls. T is a thread; number 3 is none that draws: it thaws where no call has returned for a while, since each
 * thread then sleeps until somebody thaws, and at the end it makes all as it was. */
#define _GNU_SOURCE
#include <errno.h>
#include <pthread.h>
#include <sched.h>
#include <stdio.h>
#include <stdlib.h>
#include <string.h>
#include <unistd.h>

#include "guest.h"

enum { DRAWERS = 3, RECORDS = 16384, MOST = 3, STUCK = 30000 /* microseconds */ };

struct record {
    struct stamps stamps;
    struct call call;
    int answer;
};

/* A thread that draws, and its calls so far. */
struct drawer {
    struct task task;
    unsigned seed;
    long calls;
    struct record *records;
    atomic_int count;
    atomic_int ended;
};

static struct drawer drawers[DRAWERS + 1];
static int by_mounts, holders;

/* How often each call is drawn, beside the others that are possible. */
static const enum verb drawn[] = {WANT, WANT, WANT, DROP, DROP, DROP, DROP, WANT_WRITE, WANT_WRITE, WANT_WRITE, DROP_WRITE, DROP_WRITE,
                                  DROP_WRITE, DROP_WRITE, START, START, START, START, TRY_START, TRY_START, TRY_START, END, END, END, END, END,
                                  END, BIND, BIND, REMOUNT, REMOUNT, FREEZE, THAW, THAW};

/* So many accesses a thread may have at a mount. Where the superblock is remounted it is one at all, so that some remounts find none. */
static int has_room(const struct task *task, int mount) {
    int held = by_mounts ? task->mounts[mount] : task->mounts[0] + task->mounts[1] + task->mounts[2];
    return held < (by_mounts ? MOST : 1);
}

/* Whether the specification lets a thread that holds this begin the call. */
static int may_begin(const struct task *task, const struct call *call) {
    int held = task->mounts[call->mount];
    switch (call->verb) {
    case WANT: return has_room(task, call->mount);
    case DROP: return held > 0;
    case WANT_WRITE: return task->levels == 0 && has_room(task, call->mount);
    case DROP_WRITE: return held > 0 && (task->levels >> 1 & 1);
    case START:
    case TRY_START: return task->levels >> call->argument == 0;
    case END: return task->levels >> call->argument & 1;
    case BIND: return by_mounts && task->levels == 0;
    case REMOUNT: return !by_mounts && task->levels == 0;
    default: return task->levels == 0;
    }
}

static struct call draw_call(struct drawer *drawer) {
    for (;;) {
        struct call call = {.verb = drawn[rand_r(&drawer->seed) % (sizeof drawn / sizeof *drawn)]};
        call.mount = rand_r(&drawer->seed) % MOUNTS;
        call.read_only = rand_r(&drawer->seed) % 3 == 0;
        call.processor = rand_r(&drawer->seed) % 8 ? drawer->task.number % processors : rand_r(&drawer->seed) % processors;
        call.argument = 1 + rand_r(&drawer->seed) % LEVELS;
        if (call.verb == FREEZE || call.verb == THAW) call.argument = holders == 1 ? 2 : 1 + rand_r(&drawer->seed) % 2;
        // Where the superblock is remounted, mounts are mostly left alone.
        if (!by_mounts && (call.verb == WANT || call.verb == WANT_WRITE) && rand_r(&drawer->seed) % 4) continue;
        if (may_begin(&drawer->task, &call)) return call;
    }
}

/* Makes a call and notes its record. Calls that aren't the module's have stamps of their own around them. */
static void make_call(struct drawer *drawer, struct call call) {
    int count = atomic_load(&drawer->count);
    need(count < RECORDS, "room for a record");
    struct record *record = &drawer->records[count];
    int own = call.verb == BIND || call.verb == REMOUNT;
    record->call = call;
    if (own) stamp(&drawer->task.stamps.begun);
    unsigned long long begun = drawer->task.stamps.begun;
    record->answer = perform(&drawer->task, &call);
    if (own) {
        drawer->task.stamps.begun = begun;
        stamp(&drawer->task.stamps.returned);
    }
    record->stamps = drawer->task.stamps;
    atomic_store(&drawer->count, count + 1);
}

/* Waits for a time of any order of magnitude. */
static void wait_a_while(struct drawer *drawer) {
    int bits = rand_r(&drawer->seed) % 20;
    for (volatile long spin = bits < 4 ? 0 : rand_r(&drawer->seed) & ((1L << (bits < 16 ? bits : 10)) - 1); spin > 0; spin--) {}
    if (bits == 19) sched_yield();
}

/* Gives back all that the thread holds, the highest level first. */
static void end_drawer(struct drawer *drawer) {
    int processor = drawer->task.number % processors;
    for (int level = LEVELS; level > 0; level--)
        if (drawer->task.levels >> level & 1) make_call(drawer, (struct call){.verb = END, .argument = level, .processor = processor});
    for (int mount = 0; mount < MOUNTS; mount++)
        while (drawer->task.mounts[mount]) make_call(drawer, (struct call){.verb = DROP, .mount = mount, .processor = processor});
}

static void *draw_calls(void *given) {
    struct drawer *drawer = given;
    for (long i = 0; i < drawer->calls; i++) {
        wait_a_while(drawer);
        make_call(drawer, draw_call(drawer));
    }
    end_drawer(drawer);
    atomic_store(&drawer->ended, 1);
    return NULL;
}

static int all_ended(void) {
    int ended = 1;
    for (int i = 0; i < DRAWERS; i++) ended = ended && atomic_load(&drawers[i].ended);
    return ended;
}

static long all_counts(void) {
    long sum = 0;
    for (int i = 0; i < DRAWERS; i++) sum += atomic_load(&drawers[i].count);
    return sum;
}

static void thaw_all(struct drawer *keeper) {
    for (int holder = 3 - holders; holder <= 2; holder++) make_call(keeper, (struct call){.verb = THAW, .argument = holder});
}

/* Thaws whenever no call has returned for a while, until all have ended. */
static void keep_going(struct drawer *keeper) {
    long seen = -1, since = now();
    while (!all_ended()) {
        if (all_counts() != seen) seen = all_counts(), since = now();
        if (now() - since > STUCK) thaw_all(keeper), since = now();
        usleep(1000);
    }
}

/* One line of a history: a begin or a return. */
struct line {
    unsigned long long at;
    const struct record *record;
    int task;
};

static int compare_lines(const void *a, const void *b) {
    const struct line *left = a, *right = b;
    return left->at < right->at ? -1 : left->at > right->at;
}

static void say_line(const struct line *line) {
    static const char *const words[VERBS] = {[WANT] = "want", [DROP] = "drop", [WANT_WRITE] = "wantwrite", [DROP_WRITE] = "dropwrite",
                                             [START] = "start", [TRY_START] = "trystart", [END] = "end", [BIND] = "change",
                                             [REMOUNT] = "remount", [FREEZE] = "freeze", [THAW] = "thaw"};
    const struct call *call = &line->record->call;
    const char *way = call->read_only ? "ro" : "rw";
    if (line->at == line->record->stamps.returned) {
        if (line->record->answer) say("%llu %d return errno %d\n", line->at, line->task, line->record->answer);
        else say("%llu %d return ok\n", line->at, line->task);
        return;
    }
    switch (call->verb) {
    case BIND: say("%llu %d begin change %d %s\n", line->at, line->task, call->mount, way); break;
    case REMOUNT: say("%llu %d begin remount %s\n", line->at, line->task, way); break;
    case FREEZE:
    case THAW: say("%llu %d begin %s %s\n", line->at, line->task, words[call->verb], call->argument == 1 ? "kernel" : "user"); break;
    case START:
    case TRY_START:
    case END: say("%llu %d begin %s %d %d\n", line->at, line->task, words[call->verb], call->argument, call->processor); break;
    default: say("%llu %d begin %s %d %d\n", line->at, line->task, words[call->verb], call->mount, call->processor);
    }
}

static void say_history(void) {
    static struct line lines[2 * RECORDS * (DRAWERS + 1)];
    int size = 0, calls = 0;
    for (int i = 0; i <= DRAWERS; i++)
        for (int j = 0; j < atomic_load(&drawers[i].count); j++, calls++) {
            const struct record *record = &drawers[i].records[j];
            lines[size++] = (struct line){record->stamps.begun, record, i};
            lines[size++] = (struct line){record->stamps.returned, record, i};
        }
    qsort(lines, size, sizeof *lines, compare_lines);
    for (int i = 0; i < size; i++) say_line(&lines[i]);
    say("recorded %d\n", calls);
}

static void begin_drawer(struct drawer *drawer, int number, long calls, unsigned seed) {
    struct record *records = drawer->records ? drawer->records : calloc(RECORDS, sizeof *records);
    need(records != NULL, "room for records");
    memset(drawer, 0, sizeof *drawer);
    drawer->records = records;
    drawer->task.number = number;
    drawer->calls = calls;
    drawer->seed = seed * 16 + number + 1;
}

void record_history(char *words) {
    char changes[16];
    unsigned seed;
    long calls;
    pthread_t threads[DRAWERS];
    need(sscanf(words, "%ld %u %15s %d", &calls, &seed, changes, &holders) == 4, "a history's words");
    by_mounts = strcmp(changes, "mounts") == 0;
    for (int i = 0; i <= DRAWERS; i++) begin_drawer(&drawers[i], i, calls, seed);
    for (int i = 0; i < DRAWERS; i++) need(pthread_create(&threads[i], NULL, draw_calls, &drawers[i]) == 0, "a thread");
    keep_going(&drawers[DRAWERS]);
    for (int i = 0; i < DRAWERS; i++) pthread_join(threads[i], NULL);
    struct drawer *keeper = &drawers[DRAWERS];
    thaw_all(keeper);
    if (!by_mounts) make_call(keeper, (struct call){.verb = REMOUNT});
    for (int i = 0; by_mounts && i < MOUNTS; i++) make_call(keeper, (struct call){.verb = BIND, .mount = i});
    say_history();
}
