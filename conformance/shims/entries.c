/*
 * Names for the harness to call: the kernel's inline functions, and its waiting by a halt.
 */
#include <linux/spinlock.h>
#include "lock_events.h"

/* The lock that x86 takes under a hypervisor is not in asm-generic. */
#ifndef CONFORMANCE_GENERIC
const int shim_has_test_and_set = 1;
#else
const int shim_has_test_and_set = 0;
void queued_spin_lock_slowpath(struct qspinlock *lock, u32 val)
{
	pv_queued_spin_lock_slowpath(lock, val);
}
#endif

void enter_lock(arch_spinlock_t *l) { arch_spin_lock(l); }
int enter_try(arch_spinlock_t *l) { return arch_spin_trylock(l); }
void enter_unlock(arch_spinlock_t *l) { arch_spin_unlock(l); }
void enter_read(arch_rwlock_t *l) { arch_read_lock(l); }
int enter_tryread(arch_rwlock_t *l) { return arch_read_trylock(l); }
void enter_runlock(arch_rwlock_t *l) { arch_read_unlock(l); }
void enter_write(arch_rwlock_t *l) { arch_write_lock(l); }
int enter_trywrite(arch_rwlock_t *l) { return arch_write_trylock(l); }
void enter_wunlock(arch_rwlock_t *l) { arch_write_unlock(l); }

/* How a guest's waiter halts: the text of one function of arch/x86, as the hypervisor is. */
#if defined(CONFORMANCE_HYPERV)
/* To read this register is the halt. */
#define HV_X64_MSR_GUEST_IDLE 0
#define rdmsrl(number, value) do { (value) = (number); halt(); } while (0)
#define local_irq_save(flags) ((flags) = 0)
#define local_irq_restore(flags) ((void)(flags))
#include "hv_qlock_wait.inc"
void shim_wait(u8 *word, u8 value) { hv_qlock_wait(word, value); }
#elif defined(CONFORMANCE_XEN)
/* A kick is an event, which stays pending until a wait clears it. The count of nested waits is the processor's own. */
static DEFINE_PER_CPU_ALIGNED(atomic_t, xen_qlock_wait_nest);
static const int lock_kicker_irq = 1;
#undef this_cpu_ptr
#undef atomic_read
#define this_cpu_ptr(p) ((typeof(p))shim_of_processor((p), shim_processor()))
#define __this_cpu_read(variable) (variable)
#define atomic_read(v) ((v)->counter)
#define atomic_inc(v) ((void)(v)->counter++)
#define atomic_dec(v) ((void)(v)->counter--)
#define xen_test_irq_pending(irq) ((void)(irq), shim_has_event())
#define xen_clear_irq_pending(irq) shim_clear_event()
#define xen_poll_irq(irq) shim_poll(SHIM_AT(halt))
#include "xen_qlock_wait.inc"
void shim_wait(u8 *word, u8 value) { xen_qlock_wait(word, value); }
#else
#include "kvm_wait.inc"
void shim_wait(u8 *word, u8 value) { kvm_wait(word, value); }
#endif

_Static_assert(sizeof(arch_spinlock_t) == 4, "a spinlock is one word");
_Static_assert(sizeof(arch_rwlock_t) == 8, "a reader-writer lock is a word and its wait lock");
const char *const lock_event_names[] = {
#undef LOCK_EVENT
#define LOCK_EVENT(name) #name,
#include "lock_events_list.h"
	0
};
