/* In place of <linux/sched.h>: why a waiter of the optimistic spin queue gives up. */
#ifndef CONFORMANCE_ASKING_H
#define CONFORMANCE_ASKING_H
#include "kernel.h"

extern int shim_is_asked(void);
#define need_resched()		shim_is_asked()
#define vcpu_is_preempted(cpu)	false
#endif
