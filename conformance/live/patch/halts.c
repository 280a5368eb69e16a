/*
 * Paravirtual spinlocks without a hypervisor: Linux's own code of the queue, with another halt and another kick. A halt waits until a
 * counter of the processor rises, and a kick raises it. The look at the byte and the event of the halt are one for the interrupts of
 * the processor, as with KVM, where interrupts are disabled between the look and the halt.
 */
#include <linux/atomic.h>
#include <linux/cache.h>
#include <linux/hardirq.h>
#include <linux/init.h>
#include <linux/irqflags.h>
#include <linux/moduleparam.h>
#include <linux/printk.h>
#include <linux/processor.h>
#include <linux/qlock_ring.h>
#include <linux/smp.h>
#include <asm/paravirt.h>
#include <asm/qspinlock.h>

static struct {
	atomic_t kicks;
} ____cacheline_aligned kicked[NR_CPUS];

/* How many turns a waiter spins before it halts. */
int ring_spins = 1 << 15;
core_param(ring_spins, ring_spins, int, 0644);

/* The lock for which a context of a processor is about to wait: pv_wait is told the byte alone. */
void *ring_waits_for[NR_CPUS * 4];

static void counted_halt(u8 *byte, u8 value)
{
	int cpu = smp_processor_id();
	void *lock = ring_waits_for[cpu * 4 + interrupt_context_level()];
	unsigned long flags;
	int seen;

	if (in_nmi())
		return;
	local_irq_save(flags);
	seen = atomic_read(&kicked[cpu].kicks);
	smp_mb();
	if (READ_ONCE(*byte) != value) {
		local_irq_restore(flags);
		return;
	}
	ring_tell(lock, RING_HALT);
	local_irq_restore(flags);
	while (atomic_read(&kicked[cpu].kicks) == seen)
		cpu_relax();
	smp_mb();
	ring_tell(lock, RING_WAKE);
}

static void counted_kick(int cpu)
{
	atomic_inc(&kicked[cpu].kicks);
}

/* Without this call, the unlock would be patched to one store, which tells nothing. */
__visible void told_unlock(struct qspinlock *lock)
{
	ring_tell(lock, RING_RELEASE);
	smp_store_release(&lock->locked, 0);
}
PV_CALLEE_SAVE_REGS_THUNK(told_unlock);

void __init ring_native_locks(void)
{
	pv_ops.lock.queued_spin_unlock = PV_CALLEE_SAVE(told_unlock);
}

void __init ring_halting_locks(void)
{
	__pv_init_lock_hash();
	pv_ops.lock.queued_spin_lock_slowpath = __pv_queued_spin_lock_slowpath;
	pv_ops.lock.queued_spin_unlock = PV_CALLEE_SAVE(__pv_queued_spin_unlock);
	pv_ops.lock.wait = counted_halt;
	pv_ops.lock.kick = counted_kick;
	pr_info("live: paravirtual spinlocks with counted halts\n");
}
