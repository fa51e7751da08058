/* The guest's init: makes mounts of one ext4 on a RAM disk, does what it reads from the second serial line, and answers on it.
 *
 *   hello                   version TEXT                      /proc/version
 *   T CALL                  T ok | T errno N | T inside | T waits FUNCTION, and the flags behind it
 *   race ROUNDS SECONDS SEED CALL[,CALL..] ..                 seen COUNT ANSWERS, for each row of answers; then raced ROUNDS
 *   restore                 restored: nothing is under way, frozen, open or read-only
 *   words                   words NAME VALUE ..: those behind the gates that aren't 0, by the module
 *   history CALLS SEED CHANGES HOLDERS     what threads have called at once (histories.c)
 *   off                     the module is unloaded, and the guest ends
 *
 * T is a task, 0 to 3: a thread of its own. A call is one of
 *
 *   open M, close M         open for writing of a file at mount M (0 to 2), and its close
 *   touch M                 utimensat of a path at mount M
 *   write M                 a write to the file that the task has open at M
 *   fault M                 a page fault for writing in a mapping of that file (faults.c); flush M by fsync of it
 *   begin M, end            the same, held up in the middle by its buffer's page until 'end': it answers 'inside', and 'end' as a write
 *   remove M                makes a file at mount M, opens it for reading, and removes it; release closes it
 *   bind M ro|rw            remount of the mount, by MS_REMOUNT and MS_BIND; setattr M ro|rw by mount_setattr
 *   remount ro|rw           the superblock, by fsconfig; spare ro|rw by mount with MS_REMOUNT at a mount that no other call uses
 *   remount ro|rw reconfigure 22           the same, with an option that ext4 refuses once it is asked: EINVAL
 *   freeze, thaw            FIFREEZE, FITHAW
 *   freeze user sync 5      FIFREEZE while each write to the disk fails, so that what is dirty can't be written: EIO (mapped.c)
 *   look                    whether what the task waited in is done now
 *
 * and, where the module is loaded, by its device (module/gates.h), on processor P:
 *
 *   want M P, drop M P      __mnt_want_write, __mnt_drop_write at mount M
 *   wantwrite M P, dropwrite M P
 *   start L P, trystart L P, end L P       of level L, 1 to 3
 *   freeze H, thaw H        freeze_super, thaw_super for a holder: kernel or user, with '+' behind it where it may nest. Behind it 'sync N',
 *                           'freeze N' or 'unfreeze N' may stand: that part of the file system fails with errno N
 *
 * The flags are those of /proc/self/mountinfo: the superblock's, then each mount's own, as 'rw:rw,ro,rw'. In a race a call's words are
 * joined by '.', as bind.0.ro. Its answers stand for each task in order, and for each of its calls: 0, an errno, or w where it waits. */
#define _GNU_SOURCE
#include <errno.h>
#include <fcntl.h>
#include <linux/fs.h>
#include <linux/mount.h>
#include <linux/userfaultfd.h>
#include <poll.h>
#include <pthread.h>
#include <sched.h>
#include <stdarg.h>
#include <stdatomic.h>
#include <stdio.h>
#include <stdlib.h>
#include <string.h>
#include <sys/ioctl.h>
#include <sys/mman.h>
#include <sys/mount.h>
#include <sys/reboot.h>
#include <sys/stat.h>
#include <sys/statvfs.h>
#include <sys/syscall.h>
#include <termios.h>
#include <time.h>
#include <unistd.h>

#include "guest.h"

/* Each verb's word, and its arguments: a mount, a way (ro or rw), a level, a processor, a holder, or a part of the file system that fails and its
 * errno; the last two may be left out. */
static const struct {
    const char *word, *arguments;
} verbs[VERBS] = {
    [OPEN] = {"open", "m"},           [CLOSE] = {"close", "m"},          [TOUCH] = {"touch", "m"},
    [WRITE] = {"write", "m"},         [BEGIN] = {"begin", "m"},          [REMOVE] = {"remove", "m"},
    [FAULT] = {"fault", "m"},         [FLUSH] = {"flush", "m"},          [RELEASE] = {"release", ""},
    [BIND] = {"bind", "mw"},          [SETATTR] = {"setattr", "mw"},     [REMOUNT] = {"remount", "wfe"},
    [SPARE] = {"spare", "w"},         [FREEZE] = {"freeze", "hfe"},      [THAW] = {"thaw", "hfe"},
    [WANT] = {"want", "mp"},          [DROP] = {"drop", "mp"},
    [WANT_WRITE] = {"wantwrite", "mp"}, [DROP_WRITE] = {"dropwrite", "mp"}, [START] = {"start", "lp"},
    [TRY_START] = {"trystart", "lp"}, [END] = {"end", "lp"},
};

struct task tasks[TASKS];
int processors;
static int root, faults, line_out;

/* In a race: how many tasks there are, and how many have ended, which only wakes who looks. */
static int racers;
static atomic_int ended;
static char written[PAGE] __attribute__((aligned(PAGE)));

void say(const char *form, ...) {
    char text[1024];
    va_list words;
    va_start(words, form);
    int size = vsnprintf(text, sizeof text, form, words);
    va_end(words);
    for (int sent = 0; sent < size;) {
        ssize_t some = write(line_out, text + sent, size - sent);
        if (some > 0) sent += some;
    }
}

/* Ends the guest, and says what failed. */
void need(int holds, const char *what) {
    if (holds) return;
    if (line_out) say("failed %s: errno %d\n", what, errno);
    dprintf(2, "init: %s: errno %d\n", what, errno);
    sync();
    reboot(RB_POWER_OFF);
    for (;;) pause();
}

static int result(long answer) { return answer < 0 ? errno : 0; }

static int open_file(struct task *task, int mount) {
    char path[LINE];
    snprintf(path, sizeof path, "/m%d/file%d", mount, task->number);
    int file = open(path, O_RDWR | O_CLOEXEC);
    if (file < 0) return errno;
    if (task->opens[mount] == OPENS) return close(file), EMFILE;
    task->opened[mount][task->opens[mount]++] = file;
    return 0;
}

static int close_file(struct task *task, int mount) {
    if (task->opens[mount] == 0) return EBADF;
    return result(close(task->opened[mount][--task->opens[mount]]));
}

/* The file that the task opened last at the mount, or -1. */
static int last_file(const struct task *task, int mount) { return task->opens[mount] ? task->opened[mount][task->opens[mount] - 1] : -1; }

static int write_file(struct task *task, int mount, const char *from) {
    enum { BYTES = 512 };
    return result(pwrite(last_file(task, mount), from, BYTES, 0));
}

static int touch(int mount) {
    char path[LINE];
    snprintf(path, sizeof path, "/m%d/touched", mount);
    return result(utimensat(AT_FDCWD, path, NULL, 0));
}

static int remove_open(struct task *task, int mount) {
    char path[LINE];
    snprintf(path, sizeof path, "/m%d/removed%d", mount, task->number);
    int file = open(path, O_RDONLY | O_CREAT | O_CLOEXEC, 0644);
    if (file < 0) return errno;
    task->removed = file;
    return result(unlink(path));
}

static int release(struct task *task) {
    int file = task->removed;
    task->removed = 0;
    return result(close(file));
}

static int bind_mount(int mount, int read_only) {
    char path[LINE];
    snprintf(path, sizeof path, "/m%d", mount);
    return result(syscall(SYS_mount, NULL, path, NULL, MS_REMOUNT | MS_BIND | (read_only ? MS_RDONLY : 0), NULL));
}

static int set_attribute(int mount, int read_only) {
    char path[LINE];
    snprintf(path, sizeof path, "/m%d", mount);
    struct mount_attr wanted = {0};
    if (read_only) wanted.attr_set = MOUNT_ATTR_RDONLY;
    else wanted.attr_clr = MOUNT_ATTR_RDONLY;
    return result(syscall(SYS_mount_setattr, AT_FDCWD, path, 0, &wanted, sizeof wanted));
}

/* By fsconfig. ext4 parses `nombcache`, and refuses it when it is to reconfigure itself. */
static int remount(int read_only, int fails) {
    int context = syscall(SYS_fspick, AT_FDCWD, "/m0", FSPICK_CLOEXEC);
    if (context < 0) return errno;
    int failed = result(syscall(SYS_fsconfig, context, FSCONFIG_SET_FLAG, read_only ? "ro" : "rw", NULL, 0));
    if (failed == 0 && fails) failed = result(syscall(SYS_fsconfig, context, FSCONFIG_SET_FLAG, "nombcache", NULL, 0));
    if (failed == 0) failed = result(syscall(SYS_fsconfig, context, FSCONFIG_CMD_RECONFIGURE, NULL, NULL, 0));
    close(context);
    return failed;
}

static int remount_spare(int read_only) {
    return result(syscall(SYS_mount, NULL, "/spare", NULL, MS_REMOUNT | (read_only ? MS_RDONLY : 0), NULL));
}

/* A freeze that fails has something to write, which is all that it loses. The sync before it may tell of what the one before that has lost. */
static int freeze(const struct call *call) {
    if (call->hook == 0) return result(ioctl(root, FIFREEZE, 0));
    syncfs(root);
    need(utimensat(AT_FDCWD, "/dirty/touched", NULL, 0) == 0, "something dirty");
    let_disk_fail(1);
    int answer = result(ioctl(root, FIFREEZE, 0));
    let_disk_fail(0);
    return answer;
}

int perform(struct task *task, const struct call *call) {
    switch (call->verb) {
    case OPEN: return open_file(task, call->mount);
    case CLOSE: return close_file(task, call->mount);
    case TOUCH: return touch(call->mount);
    case WRITE: return write_file(task, call->mount, written);
    case BEGIN: return write_file(task, call->mount, task->page);
    case FAULT: return fault_in(task, last_file(task, call->mount));
    case FLUSH: return result(fsync(last_file(task, call->mount)));
    case REMOVE: return remove_open(task, call->mount);
    case RELEASE: return release(task);
    case BIND: return bind_mount(call->mount, call->read_only);
    case SETATTR: return set_attribute(call->mount, call->read_only);
    case REMOUNT: return remount(call->read_only, call->hook != 0);
    case SPARE: return remount_spare(call->read_only);
    case FREEZE: return call->argument && have_gates() ? call_gates(task, call) : freeze(call);
    case THAW: return call->argument && have_gates() ? call_gates(task, call) : result(ioctl(root, FITHAW, 0));
    default: return call_gates(task, call);
    }
}

void wake(atomic_int *word) { syscall(SYS_futex, word, 1 /* FUTEX_WAKE */, 1, NULL, NULL, 0); }

/* Sleeps while the word has this value, and for so many microseconds at most; without end where they are 0. */
void sleep_at(atomic_int *word, int value, long most) {
    struct timespec end = {0, most * 1000};
    syscall(SYS_futex, word, 0 /* FUTEX_WAIT */, value, most ? &end : NULL, NULL, 0);
}

/* The calls of a task, one list after the other. In a race it spins for the begin of the round, and then for its delay. */
static void *run_task(void *given) {
    struct task *task = given;
    atomic_store(&task->thread, syscall(SYS_gettid));
    for (int seen = 0;; seen++) {
        while (atomic_load(&task->asked) == seen) {
            if (atomic_load(&task->racing)) sched_yield();
            else sleep_at(&task->asked, seen, 0);
        }
        for (volatile long spin = task->delay; spin > 0; spin--) {}
        for (int i = 0; i < task->count; i++) {
            task->answers[i] = perform(task, &task->calls[i]);
            atomic_fetch_add(&task->done, 1);
        }
        atomic_store(&task->taken, seen + 1);
        if (atomic_fetch_add(&ended, 1) + 1 == racers) wake(&ended);
    }
    return NULL;
}

static void ask(struct task *task) {
    atomic_store(&task->done, 0);
    atomic_fetch_add(&task->asked, 1);
    wake(&task->asked);
}

static int is_idle(struct task *task) { return atomic_load(&task->taken) == atomic_load(&task->asked); }

/* Those in which a call waits for another task. /proc has no functions of locks, but their callers: percpu_rwsem_wait is a reader's of a
 * level, freeze_super a freeze's for a level's readers or for s_umount, and all others those of s_umount. */
static const char *const waits[] = {"percpu_rwsem_wait", "freeze_super", "thaw_super", "path_mount", "__do_sys_fsconfig", "vfs_fsconfig_locked",
                                    "super_lock", "wait_for_partially_frozen", "vfs_cmd_reconfigure"};

/* Which of these a thread sleeps in; NULL where it runs, or sleeps for another reason. `name` is the function's name, and "0" where it runs. */
static const char *where_asleep(struct task *task, char name[LINE]) {
    char path[LINE];
    snprintf(path, sizeof path, "/proc/%d/wchan", atomic_load(&task->thread));
    int file = open(path, O_RDONLY | O_CLOEXEC);
    ssize_t size = file < 0 ? 0 : read(file, name, LINE - 1);
    if (file >= 0) close(file);
    name[size > 0 ? size : 0] = 0;
    // The compiler may have split a function: freeze_super.part.0.
    name[strcspn(name, ".")] = 0;
    for (int i = 0; i < (int)(sizeof waits / sizeof *waits); i++)
        if (strcmp(name, waits[i]) == 0) return waits[i];
    return NULL;
}

long now(void) {
    struct timespec time;
    clock_gettime(CLOCK_MONOTONIC, &time);
    return time.tv_sec * 1000000 + time.tv_nsec / 1000;
}

/* Notes which tasks miss the page of their buffer. */
static void read_faults(void) {
    struct pollfd fault = {faults, POLLIN, 0};
    struct uffd_msg message;
    while (poll(&fault, 1, 0) == 1 && read(faults, &message, sizeof message) == sizeof message)
        for (int i = 0; i < TASKS; i++)
            if ((message.arg.pagefault.address & -(unsigned long)PAGE) == (unsigned long)tasks[i].page) tasks[i].held_up = 1;
}

/* Waits until the task's call is done (0), or it sleeps in a function of the kernel in which it waits for another task (1), or a page of its
 * buffer is missing (2). All others rest or sleep, so a reader of a level sleeps for good; who else sleeps may do so for a thread of the
 * kernel's, and has to for 20 ms. In a function that isn't known it has to for 2 s. */
static int settle(struct task *task, const char **name) {
    static char text[LINE];
    long since = 0;
    while (!is_idle(task)) {
        read_faults();
        if (task->held_up) return 2;
        const char *known = where_asleep(task, text);
        *name = known ? known : text;
        if (known == NULL && (*text == 0 || strcmp(text, "0") == 0)) since = 0;
        else if (known == waits[0]) return 1;
        else if (since == 0) since = now();
        else if (now() - since > (known ? 20000 : 2000000)) return 1;
        if (since) usleep(1000);
        else sched_yield();
    }
    return 0;
}

/* The flags of the superblock and of each mount, as /proc/self/mountinfo shows them. */
static void flags(char *text) {
    char line[1024], at[LINE], own[LINE], super[LINE];
    char mounts[MOUNTS][3] = {"??", "??", "??"}, all[3] = "??";
    FILE *list = fopen("/proc/self/mountinfo", "re");
    need(list != NULL, "mountinfo");
    while (fgets(line, sizeof line, list)) {
        char *dash = strstr(line, " - ");
        if (dash == NULL || sscanf(line, "%*s %*s %*s %*s %255s %255s", at, own) != 2) continue;
        if (at[0] != '/' || at[1] != 'm' || at[2] < '0' || at[2] >= '0' + MOUNTS) continue;
        if (sscanf(dash, " - %*s %*s %255s", super) != 1) continue;
        memcpy(mounts[at[2] - '0'], own, 2);
        memcpy(all, super, 2);
    }
    fclose(list);
    sprintf(text, "%s:%s,%s,%s", all, mounts[0], mounts[1], mounts[2]);
}

static void answer(struct task *task) {
    char state[LINE];
    const char *name;
    int settled = settle(task, &name);
    flags(state);
    if (settled == 1) say("%d waits %s %s\n", task->number, name, state);
    else if (settled == 2) say("%d inside %s\n", task->number, state);
    else if (task->answers[0] == 0) say("%d ok %s\n", task->number, state);
    else say("%d errno %d %s\n", task->number, task->answers[0], state);
}

/* Reads one argument of a call; false where it is none. */
static int read_argument(char kind, const char *word, struct call *call) {
    static const char *const holders[] = {"kernel", "user", "", "", "kernel+", "user+"};
    static const char *const hooks[] = {"sync", "freeze", "unfreeze", "reconfigure"};
    int number = word && *word >= '0' && *word <= '9' ? atoi(word) : -1;
    switch (kind) {
    case 'm': return call->mount = number, number >= 0 && number < MOUNTS;
    case 'l': return call->argument = number, number >= 1 && number <= LEVELS;
    case 'p': return call->processor = number, number >= 0;
    case 'w': return call->read_only = word != NULL && strcmp(word, "ro") == 0, word != NULL;
    case 'e': return call->error = word ? number : 0, word == NULL || number > 0;
    case 'f':
        for (int i = 0; word && i < (int)(sizeof hooks / sizeof *hooks); i++)
            if (strcmp(word, hooks[i]) == 0) call->hook = i + 1;
        return word == NULL || call->hook > 0;
    default:
        for (int i = 0; word && i < (int)(sizeof holders / sizeof *holders); i++)
            if (strcmp(word, holders[i]) == 0) call->argument = i + 1;
        return word == NULL || call->argument > 0;
    }
}

/* Reads a call's words, which are separated by spaces or dots; false where they are none. */
static int read_call(char *words, struct call *call) {
    char *rest = NULL;
    char *verb = strtok_r(words, " .", &rest);
    for (int i = 0; verb && i < VERBS; i++) {
        if (strcmp(verb, verbs[i].word)) continue;
        *call = (struct call){.verb = i};
        for (const char *kind = verbs[i].arguments; *kind; kind++)
            if (!read_argument(*kind, strtok_r(NULL, " .", &rest), call)) return 0;
        return 1;
    }
    return 0;
}

/* Gives the missing page of a write that is held up. */
static void give_page(struct task *task) {
    read_faults();
    task->held_up = 0;
    struct uffdio_copy copy = {(unsigned long)task->page, (unsigned long)written, PAGE, 0, 0};
    ioctl(faults, UFFDIO_COPY, &copy);
}

/* Begins a call of a task, or looks at the one that it has under way. */
static void do_line(char *line) {
    struct task *task = &tasks[(line[0] - '0') & 3];
    char *words = line + 2;
    if (strcmp(words, "look") == 0) return answer(task);
    if (strcmp(words, "end") == 0) return give_page(task), answer(task);
    need(is_idle(task) && read_call(words, &task->calls[0]), "a call that can be done");
    if (task->calls[0].verb == BEGIN) madvise(task->page, PAGE, MADV_DONTNEED);
    task->count = 1;
    task->delay = 0;
    ask(task);
    answer(task);
}

static int are_idle(int count) {
    int idle = 1;
    for (int i = 0; i < count; i++) idle = idle && is_idle(&tasks[i]);
    return idle;
}

/* What a look at the tasks of a race found: how many are not done, how many of these wait for a level, and since when that is so. */
struct look {
    int waiting, readers;
    long since;
};

/* Whether each task of a race is done, or waits for another for good. A reader of a level that was asleep in two looks, with all others done
 * before the second, is woken by nobody any more. Where a freeze or a remount is left as well, all have to sleep for 50 ms, since what it waits
 * for may be a thread of the kernel's. */
static int is_quiet(int count, struct look *before) {
    struct look look = {0, 0, before->since};
    for (int i = 0; i < count; i++) {
        if (is_idle(&tasks[i])) continue;
        char text[LINE];
        const char *name = where_asleep(&tasks[i], text);
        if (name == NULL) return *before = (struct look){-1, 0, 0}, 0;
        look.waiting++;
        look.readers += name == waits[0];
    }
    int same = look.waiting == before->waiting;
    if (!same || look.since == 0) look.since = now();
    *before = look;
    return look.waiting == 0 || (same && (look.readers == look.waiting || now() - look.since > 50000));
}

/* Whether a mount or the superblock is read-only. */
static int is_read_only(void) {
    struct statvfs found;
    for (int i = 0; i < MOUNTS; i++) {
        const char path[] = {'/', 'm', '0' + i, 0};
        need(statvfs(path, &found) == 0, "statvfs");
        if (found.f_flag & ST_RDONLY) return 1;
    }
    return 0;
}

/* Makes all as it was: nothing frozen, nothing open, nothing read-only. */
static void restore(void) {
    while (!are_idle(TASKS)) {
        for (int i = 0; i < TASKS; i++) {
            if (is_idle(&tasks[i])) give_back(&tasks[i]);
            else give_page(&tasks[i]);
        }
        if (!thaw_holders()) ioctl(root, FITHAW, 0);
        sched_yield();
    }
    while (thaw_holders() || ioctl(root, FITHAW, 0) == 0) {}
    for (int i = 0; i < TASKS; i++) {
        give_back(&tasks[i]);
        for (int mount = 0; mount < MOUNTS; mount++)
            while (tasks[i].opens[mount]) close_file(&tasks[i], mount);
        if (tasks[i].removed) release(&tasks[i]);
    }
    if (is_read_only())
        need(remount(0, 0) == 0 && bind_mount(0, 0) == 0 && bind_mount(1, 0) == 0 && bind_mount(2, 0) == 0, "all writable again");
}

struct row {
    char answers[LINE];
    long seen;
};

static void count_row(struct row *rows, const char *answers) {
    for (int i = 0; i < ROWS; i++) {
        if (rows[i].seen == 0) strcpy(rows[i].answers, answers);
        if (strcmp(rows[i].answers, answers)) continue;
        rows[i].seen++;
        return;
    }
}

static void read_answers(int count, char *text) {
    *text = 0;
    for (int i = 0; i < count; i++) {
        int done = atomic_load(&tasks[i].done);
        for (int j = 0; j < tasks[i].count; j++) {
            text += sprintf(text, "%s", j ? "," : i ? " " : "");
            text += j < done ? sprintf(text, "%d", tasks[i].answers[j]) : sprintf(text, "w");
        }
    }
}

/* In half of the rounds it waits until a thaw's callbacks have run, if they do soon, so that readers are on their fast path again. */
static void await_idle(unsigned *seed) {
    long end = now() + (rand_r(seed) & 1 ? 200000 : 0);
    while (!are_levels_idle() && now() < end) usleep(1000);
}

/* A delay of loops that do nothing: of any order of magnitude, so that calls overlap in each of their parts. */
static long draw_delay(unsigned *seed) {
    int bits = rand_r(seed) % 20;
    return bits < 4 ? 0 : rand_r(seed) & ((1L << bits) - 1);
}

static void race(char *words) {
    static struct row rows[ROWS];
    char *rest = NULL, *inner = NULL, text[LINE];
    long rounds = atol(strtok_r(words, " ", &rest)), end = now() + atol(strtok_r(NULL, " ", &rest)) * 1000000;
    unsigned seed = atoi(strtok_r(NULL, " ", &rest));
    int count = 0;
    for (char *list; count < TASKS && (list = strtok_r(NULL, " ", &rest)); count++) {
        tasks[count].count = 0;
        for (char *call = strtok_r(list, ",", &inner); call; call = strtok_r(NULL, ",", &inner))
            need(tasks[count].count < CALLS && read_call(call, &tasks[count].calls[tasks[count].count++]), "a race's call");
    }
    memset(rows, 0, sizeof rows);
    racers = count;
    for (int i = 0; i < count; i++) {
        atomic_store(&tasks[i].racing, 1);
        wake(&tasks[i].asked);
    }
    long round = 0;
    for (; round < rounds && now() < end; round++) {
        struct look before = {-1, 0, 0};
        await_idle(&seed);
        for (int i = 0; i < count; i++) tasks[i].delay = draw_delay(&seed);
        for (int i = 0; i < count; i++) atomic_store(&tasks[i].done, 0);
        atomic_store(&ended, 0);
        for (int i = 0; i < count; i++) atomic_fetch_add(&tasks[i].asked, 1);
        for (int seen = atomic_load(&ended); !are_idle(count) && !is_quiet(count, &before); seen = atomic_load(&ended))
            sleep_at(&ended, seen, 1000);
        read_answers(count, text);
        count_row(rows, text);
        restore();
    }
    for (int i = 0; i < count; i++) atomic_store(&tasks[i].racing, 0);
    for (int i = 0; i < ROWS && rows[i].seen; i++) say("seen %ld %s\n", rows[i].seen, rows[i].answers);
    say("raced %ld\n", round);
}

/* Loads the modules that /modules lists, in its order: each with its parameters behind its path. */
static void load_modules(void) {
    char line[LINE];
    FILE *list = fopen("/modules", "re");
    need(list != NULL, "/modules");
    while (fgets(line, sizeof line, list)) {
        char *parameters = line + strcspn(line, " ");
        parameters[strcspn(parameters, "\n")] = 0;
        *parameters++ = 0;
        int file = open(line, O_RDONLY | O_CLOEXEC);
        need(file >= 0 && syscall(SYS_finit_module, file, parameters, 0) == 0, line);
        close(file);
    }
    fclose(list);
}

static void fill_disk(void) {
    static char block[1 << 16];
    ssize_t size;
    int from = open("/disk.ext4", O_RDONLY | O_CLOEXEC), to = open("/dev/ram0", O_WRONLY | O_CLOEXEC);
    need(from >= 0 && to >= 0, "the RAM disk of brd (BLK_DEV_RAM)");
    while ((size = read(from, block, sizeof block)) > 0) need(write(to, block, size) == size, "a block of the disk");
    close(from);
    need(close(to) == 0, "the disk's end");
}

/* Mounts /m0 to /m2, /spare and /dirty, and makes the files. A file that stays open keeps its name in the dentry cache: an open for writing of
 * another one takes level 1 for a moment. */
static void make_mounts(void) {
    char path[LINE];
    for (int i = 0; i < MOUNTS; i++) {
        snprintf(path, sizeof path, "/m%d", i);
        mkdir(path, 0755);
        if (i == 0) need(mount(map_disk(), "/m0", "ext4", 0, "") == 0, "the mount");
        else need(mount("/m0", path, NULL, MS_BIND, NULL) == 0, "a mount more");
    }
    mkdir("/spare", 0755);
    need(mount("/m0", "/spare", NULL, MS_BIND, NULL) == 0, "the spare mount");
    mkdir("/dirty", 0755);
    need(mount("/m0", "/dirty", NULL, MS_BIND, NULL) == 0, "the mount to make something dirty at");
    for (int i = 0; i <= TASKS; i++) {
        if (i < TASKS) snprintf(path, sizeof path, "/m0/file%d", i);
        else strcpy(path, "/m0/touched");
        int file = open(path, O_WRONLY | O_CREAT | O_CLOEXEC, 0644);
        need(write(file, path, PAGE / 16) > 0 && fsync(file) == 0 && close(file) == 0, "a file");
        need(open(path, O_RDONLY | O_CLOEXEC) >= 0, "a file that stays open");
    }
    root = open("/m0", O_RDONLY | O_CLOEXEC);
    need(root >= 0, "the root");
}

/* A page for each task that is missing until it is given, and faults that say so. */
static void make_pages(void) {
    struct uffdio_api api = {UFFD_API, 0, 0};
    faults = syscall(SYS_userfaultfd, O_CLOEXEC | O_NONBLOCK);
    need(faults >= 0 && ioctl(faults, UFFDIO_API, &api) == 0, "userfaultfd");
    for (int i = 0; i < TASKS; i++) {
        tasks[i].page = mmap(NULL, PAGE, PROT_READ | PROT_WRITE, MAP_PRIVATE | MAP_ANONYMOUS, -1, 0);
        struct uffdio_register range = {{(unsigned long)tasks[i].page, PAGE}, UFFDIO_REGISTER_MODE_MISSING, 0};
        need(tasks[i].page != MAP_FAILED && ioctl(faults, UFFDIO_REGISTER, &range) == 0, "a missing page");
    }
}

static void make_tasks(void) {
    for (int i = 0; i < TASKS; i++) {
        pthread_t thread;
        tasks[i].number = i;
        need(pthread_create(&thread, NULL, run_task, &tasks[i]) == 0, "a thread");
        while (atomic_load(&tasks[i].thread) == 0) usleep(100);
        cpu_set_t one;
        CPU_ZERO(&one);
        CPU_SET(i % processors, &one);
        need(pthread_setaffinity_np(thread, sizeof one, &one) == 0, "a processor");
    }
}

static void hello(void) {
    char text[LINE] = "";
    int file = open("/proc/version", O_RDONLY | O_CLOEXEC);
    need(read(file, text, sizeof text - 1) > 0, "the version");
    close(file);
    say("processors %d\nversion %s", processors, text);
}

int main(void) {
    char line[1024];
    mkdir("/dev", 0755);
    mkdir("/proc", 0755);
    need(mount("dev", "/dev", "devtmpfs", 0, NULL) == 0 && mount("proc", "/proc", "proc", 0, NULL) == 0, "/dev and /proc");
    int console = open("/dev/ttyS1", O_RDWR | O_NOCTTY | O_CLOEXEC);
    struct termios raw;
    need(console >= 0 && tcgetattr(console, &raw) == 0, "/dev/ttyS1");
    cfmakeraw(&raw);
    cfsetspeed(&raw, B115200);
    need(tcsetattr(console, TCSANOW, &raw) == 0, "the line's speed");
    line_out = console;
    processors = sysconf(_SC_NPROCESSORS_ONLN);
    load_modules();
    fill_disk();
    make_mounts();
    make_pages();
    make_faulters();
    make_tasks();
    open_gates();
    say("ready\n");
    FILE *lines = fdopen(dup(console), "r");
    while (lines && fgets(line, sizeof line, lines)) {
        line[strcspn(line, "\r\n")] = 0;
        if (strcmp(line, "hello") == 0) hello();
        else if (strncmp(line, "race ", 5) == 0) race(line + 5);
        else if (strcmp(line, "restore") == 0) restore(), say("restored\n");
        else if (strcmp(line, "words") == 0) say_words();
        else if (strncmp(line, "history ", 8) == 0) record_history(line + 8);
        else if (strcmp(line, "off") == 0) break;
        else do_line(line);
    }
    unload_gates();
    reboot(RB_POWER_OFF);
    return 0;
}
