/*
 * <asm/qspinlock.h> of an architecture that adds nothing to asm-generic but the choice between the native and the
 * paravirtual code at run time: asm-generic's own release is the native one.
 */
#ifndef CONFORMANCE_ASM_QSPINLOCK_H
#define CONFORMANCE_ASM_QSPINLOCK_H
#include "kernel.h"
#include <asm-generic/qspinlock.h>

#define native_queued_spin_unlock(l)	(queued_spin_unlock)(l)
#define queued_spin_unlock(l)		pv_queued_spin_unlock(l)
#endif
