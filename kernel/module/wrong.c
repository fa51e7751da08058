// SPDX-License-Identifier: GPL-2.0 OR MIT
/*
 * What goes wrong on purpose, so that a comparison has to fail. Nothing does
 * unless the module is loaded with a parameter that says so.
 */
#include <linux/atomic.h>
#include <linux/cache.h>
#include <linux/delay.h>
#include <linux/kprobes.h>
#include <linux/module.h>
#include <linux/percpu-rwsem.h>
#include <linux/preempt.h>
#include <linux/rcu_sync.h>
#include <linux/string.h>

#include "inner.h"

static char *wrong = "";
module_param(wrong, charp, 0444);
MODULE_PARM_DESC(wrong, "what goes wrong: ends_twice (each 8th end of a level), no_grace_period (in a freeze)");

/*
 * Readers may take their time between their look at a level and their count,
 * as a grace period waits for them. Nothing goes wrong by that alone.
 */
static bool slow;
module_param(slow, bool, 0444);
MODULE_PARM_DESC(slow, "a reader of a level waits between its look and its count");

#define EACH 8
#define WAIT_MS 5

bool gates_ends_twice(void)
{
	static atomic_t ends = ATOMIC_INIT(0);

	return strcmp(wrong, "ends_twice") == 0 && atomic_inc_return(&ends) % EACH == 0;
}

/*
 * The fast path of percpu_down_read, and time inside it. False if @level isn't
 * idle, or the module wasn't loaded as slow; nothing is done then.
 */
bool gates_start_slowly(struct percpu_rw_semaphore *level)
{
	bool idle;

	if (!slow)
		return false;
	preempt_disable();
	idle = rcu_sync_is_idle(&level->rss);
	if (idle) {
		mdelay(WAIT_MS);
		this_cpu_inc(*level->read_count);
	}
	preempt_enable();
	return idle;
}

/* At most so many bytes has rcu_sync_enter, which is what waits for a grace period. */
#define ENTER_SIZE 512
static unsigned long enter __ro_after_init;

static noinline void do_nothing(void)
{
	barrier();
}

/*
 * A freeze's synchronize_rcu returns at once. The probe is at its first
 * instruction, where the stack has the address that it returns to.
 */
static int skip_grace_period(struct kprobe *probe, struct pt_regs *regs)
{
	unsigned long caller = *(unsigned long *)kernel_stack_pointer(regs);

	if (caller - enter >= ENTER_SIZE)
		return 0;
	instruction_pointer_set(regs, (unsigned long)do_nothing);
	return 1;
}

/* With a second handler the probe isn't made a jump, which would skip nothing. */
static void pass(struct kprobe *probe, struct pt_regs *regs, unsigned long flags)
{
}

static struct kprobe grace_period = {
	.symbol_name = "synchronize_rcu",
	.pre_handler = skip_grace_period,
	.post_handler = pass,
};

static bool probed;

int gates_begin_wrong(void)
{
	int error;

	if (!*wrong || strcmp(wrong, "ends_twice") == 0)
		return 0;
	if (strcmp(wrong, "no_grace_period"))
		return -EINVAL;
	enter = (unsigned long)gates_address_of("rcu_sync_enter");
	if (!enter)
		return -ENOENT;
	error = register_kprobe(&grace_period);
	probed = !error;
	return error;
}

void gates_end_wrong(void)
{
	if (probed)
		unregister_kprobe(&grace_period);
}
