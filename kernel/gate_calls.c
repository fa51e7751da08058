/* The calls of the module's device: an open file of it for each mount. */
#define _GNU_SOURCE
#include <errno.h>
#include <fcntl.h>
#include <sched.h>
#include <stdio.h>
#include <string.h>
#include <sys/ioctl.h>
#include <sys/syscall.h>
#include <unistd.h>

#include "guest.h"
#include "module/gates.h"

/* 0 where the module isn't loaded. */
static int gates[MOUNTS];

/* Opens the device at /m0 to /m2, where there is one. */
void open_gates(void) {
    if (access("/dev/gates", F_OK)) return;
    for (int i = 0; i < MOUNTS; i++) {
        const char path[] = {'/', 'm', '0' + i, 0};
        int at = open(path, O_RDONLY | O_CLOEXEC);
        gates[i] = open("/dev/gates", O_RDWR | O_CLOEXEC);
        need(at >= 0 && gates[i] > 0 && ioctl(gates[i], GATES_MOUNT, at) == 0, "the device at a mount");
        close(at);
    }
}

int have_gates(void) { return gates[0] > 0; }

/* Closes the device and unloads the module. No call is under way, and a kernel may be built without the unloading of modules. */
void unload_gates(void) {
    if (!have_gates()) return;
    for (int i = 0; i < MOUNTS; i++) need(close(gates[i]) == 0, "the device's end");
    need(syscall(SYS_delete_module, "gates", O_NONBLOCK) == 0 || errno == ENOSYS, "the module's end");
}

static const unsigned long commands[VERBS] = {
    [FREEZE] = GATES_FREEZE,          [THAW] = GATES_THAW,   [WANT] = GATES_WANT,           [DROP] = GATES_DROP,
    [WANT_WRITE] = GATES_WANT_WRITE,  [START] = GATES_START, [DROP_WRITE] = GATES_DROP_WRITE, [TRY_START] = GATES_TRYSTART,
    [END] = GATES_END,
};

/* Lets the calling thread run on this processor alone. */
static void move_to(int processor) {
    cpu_set_t one;
    CPU_ZERO(&one);
    CPU_SET(processor % processors, &one);
    need(sched_setaffinity(0, sizeof one, &one) == 0, "a processor");
}

/* Whether the task holds what the call is to give back. */
static int holds_enough(const struct task *task, const struct call *call) {
    switch (call->verb) {
    case DROP: return task->mounts[call->mount] > 0;
    case DROP_WRITE: return task->mounts[call->mount] > 0 && (task->levels >> 1 & 1);
    case END: return task->levels >> call->argument & 1;
    default: return 1;
    }
}

/* Notes what a call that was granted has changed of what the task holds. */
static void note(struct task *task, const struct call *call) {
    int takes = call->verb == WANT || call->verb == WANT_WRITE, gives = call->verb == DROP || call->verb == DROP_WRITE;
    task->mounts[call->mount] += takes - gives;
    if (call->verb == START || call->verb == TRY_START) task->levels |= 1u << call->argument;
    if (call->verb == END) task->levels &= ~(1u << call->argument);
    if (call->verb == WANT_WRITE) task->levels |= 1u << 1;
    if (call->verb == DROP_WRITE) task->levels &= ~(1u << 1);
}

/* Does a call of the gates, and hands out its errno. One that gives back what the task doesn't hold is EDEADLK, and not done: the gates call
 * that Order. */
int call_gates(struct task *task, const struct call *call) {
    struct gates_call given = {.argument = call->argument, .hook = call->hook, .error = call->error};
    if (commands[call->verb] == 0) return ENOSYS;
    if (!holds_enough(task, call)) return EDEADLK;
    if (call->verb != FREEZE && call->verb != THAW) move_to(call->processor);
    int answer = ioctl(gates[call->mount], commands[call->verb], &given) < 0 ? errno : 0;
    task->stamps = (struct stamps){given.begun, given.returned};
    if (answer == 0) note(task, call);
    return answer;
}

/* Gives back all that a task holds which has no call under way. */
void give_back(struct task *task) {
    for (int level = LEVELS; level > 0; level--)
        if (task->levels >> level & 1) call_gates(task, &(struct call){.verb = END, .argument = level});
    for (int mount = 0; mount < MOUNTS; mount++)
        while (task->mounts[mount]) call_gates(task, &(struct call){.verb = DROP, .mount = mount});
}

/* Takes one freeze away, whoever holds it; false where there is none. */
int thaw_holders(void) {
    struct gates_call kernel = {.argument = GATES_KERNEL}, user = {.argument = GATES_USER};
    struct gates_words words;
    if (gates[0] == 0) return 0;
    need(ioctl(gates[0], GATES_WORDS, &words) == 0, "the words");
    if (words.kernel_freezes) return ioctl(gates[0], GATES_THAW, &kernel), 1;
    if (words.user_freezes) return ioctl(gates[0], GATES_THAW, &user), 1;
    return 0;
}

/* Moves the clock of the module on, for calls that aren't its own. */
void stamp(unsigned long long *at) {
    struct gates_call given = {0};
    need(ioctl(gates[0], GATES_STAMP, &given) == 0, "a stamp");
    *at = given.returned;
}

/* Whether the readers of each level would take its fast path; true where the module isn't loaded. */
int are_levels_idle(void) {
    struct gates_words words;
    if (!have_gates()) return 1;
    need(ioctl(gates[0], GATES_WORDS, &words) == 0, "the words");
    return !words.levels[0].state && !words.levels[1].state && !words.levels[2].state;
}

/* Says a word that isn't 0. */
static void say_word(const char *name, long value) {
    if (value) say(" %s %ld", name, value);
}

static void say_numbered(const char *name, int number, long value) {
    char numbered[LINE];
    snprintf(numbered, sizeof numbered, "%s%d", name, number);
    say_word(numbered, value);
}

static void say_counts(const char *name, int number, const int *counts) {
    char counted[LINE / 2];
    for (int i = 0; i < processors && i < GATES_PROCESSORS; i++) {
        snprintf(counted, sizeof counted, "%s%d.cpu", name, number);
        say_numbered(counted, i, counts[i]);
    }
}

/* Says the words behind the gates that aren't 0: "words NAME VALUE ..". */
void say_words(void) {
    struct gates_words words[MOUNTS];
    for (int i = 0; i < MOUNTS; i++) need(ioctl(gates[i], GATES_WORDS, &words[i]) == 0, "the words");
    const struct gates_words *first = &words[0];
    say("words");
    say_word("umount", first->umount);
    say_word("stage", first->stage);
    say_word("kernel", first->kernel_freezes);
    say_word("user", first->user_freezes);
    say_word("sb", first->read_only);
    say_word("remount", first->remount);
    say_word("removed", first->removed);
    for (int i = 0; i < MOUNTS; i++) {
        say_numbered("flags", i, words[i].mount_flags);
        say_counts("mount", i, words[i].writers);
    }
    for (int i = 0; i < LEVELS; i++) {
        say_numbered("block", i + 1, first->levels[i].block);
        say_numbered("state", i + 1, first->levels[i].state);
        say_numbered("entered", i + 1, first->levels[i].entered);
        say_counts("level", i + 1, first->levels[i].readers);
    }
    say("\n");
}
