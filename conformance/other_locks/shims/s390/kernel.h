/* Stands for each kernel header that s390's spinlock includes. */
#ifndef OTHER_LOCKS_KERNEL_H
#define OTHER_LOCKS_KERNEL_H
#include <stdlib.h>
#include <string.h>
#include "../common.h"

#define __LINUX_SPINLOCK_TYPES_RAW_H
#define __aligned(n) __attribute__((aligned(n)))
#define typecheck(type, x) ((void)0)
#define early_initcall(f) static int (*shim_initcall_##f)(void) __attribute__((unused)) = f
#define __setup(text, f) static int (*shim_setup_##f)(char *) __attribute__((unused)) = f
#define simple_strtoul strtoul

struct lowcore {
	int spinlock_lockval, spinlock_index;
};
extern struct lowcore *shim_lowcore(void);
#define get_lowcore() shim_lowcore()

extern int shim_compare_exchange(int *word, int old, int new, const char *function);
extern int shim_add(int *word, int value, const char *function);
extern void shim_release(int *word, const char *function);
#define __atomic_cmpxchg_bool(p, old, new) shim_compare_exchange((p), (old), (new), __func__)
#define __atomic_add(v, p) shim_add((p), (v), __func__)
#define __atomic_add_barrier(v, p) shim_add((p), (v), __func__)
#define __atomic_add_const(v, p) shim_add((p), (v), __func__)
#define __atomic_add_const_barrier(v, p) shim_add((p), (v), __func__)

#define smp_yield_cpu(cpu) ((void)(cpu), shim_yield(__func__))
#define arch_vcpu_is_preempted(cpu) shim_is_preempted(cpu)
#define MACHINE_IS_LPAR 1
#define CIF_DEDICATED_CPU 0
#define test_cpu_flag(flag) 1 /* a processor of its own: without, s390 does not queue */
extern int shim_is_interrupt(void);
#define in_interrupt() shim_is_interrupt()
#endif
