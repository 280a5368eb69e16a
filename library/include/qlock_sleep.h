/* Threads of Linux that sleep while their processor has halted (PV), until whoever kicks it wakes them.
 *
 *     static qlock_bed beds[2];                       // one for each processor, all zeros
 *     qlock_sleep_lock(&cpus[me], 0, &beds[me]);
 *     ..
 *     qlock_wake_unlock(&cpus[me], 0, beds);
 *
 * In a domain whose threads sleep so, each release is by qlock_wake_unlock: one by qlock_unlock wakes nobody.
 * In the other families both work, and nobody sleeps.
 */
#ifndef QLOCK_SLEEP_H
#define QLOCK_SLEEP_H

#include "qlock.h"

#include <linux/futex.h>
#include <sched.h>
#include <sys/syscall.h>
#include <unistd.h>

#ifdef __cplusplus
extern "C" {
#else
long syscall(long number, ...);
#endif

/* Where the thread of a processor sleeps: how often it was woken. A line of the cache each. */
typedef struct qlock_bed {
    uint32_t woken_;
    char apart_[60];
} qlock_bed;

/* Sleeps until a kick of the processor is remembered, or for no reason. It counts before it looks: who wakes
 * kicks first and counts then, so that no wake is lost. */
static inline void qlock_sleep(qlock_cpu *cpu, qlock_bed *bed) {
    uint32_t woken = __atomic_load_n(&bed->woken_, __ATOMIC_SEQ_CST), kicked = 1;
    qlock_is_kicked(cpu, &kicked);
    if (!kicked) {
        syscall(SYS_futex, &bed->woken_, FUTEX_WAIT_PRIVATE, woken, NULL, NULL, 0);
    }
}

/* Wakes the thread of a processor that was kicked. */
static inline void qlock_wake(qlock_bed *bed) {
    __atomic_add_fetch(&bed->woken_, 1, __ATOMIC_SEQ_CST);
    syscall(SYS_futex, &bed->woken_, FUTEX_WAKE_PRIVATE, 1, NULL, NULL, 0);
}

/* Polls a call until it does not wait. While it waits it pauses, and yields at one poll in 64; while its
 * processor has halted it sleeps. */
static inline uint32_t qlock_sleep_wait(qlock_cpu *cpu, uint32_t answer, qlock_bed *bed) {
    for (unsigned polls = 1; answer == QLOCK_WAITS || answer == QLOCK_HALTS; polls++) {
        if (answer == QLOCK_HALTS) {
            qlock_sleep(cpu, bed);
        } else if (polls % 64 == 0) {
            sched_yield();
        } else {
            qlock_pause(NULL);
        }
        answer = qlock_poll(cpu);
    }
    return answer;
}

/* Acquires a spinlock. `bed` is that of this processor. */
static inline uint32_t qlock_sleep_lock(qlock_cpu *cpu, uint32_t lock, qlock_bed *bed) {
    return qlock_sleep_wait(cpu, qlock_begin(cpu, lock), bed);
}

/* Frees a spinlock, and wakes the thread whose processor it has kicked. `beds` are those of all processors, by
 * their numbers. */
static inline uint32_t qlock_wake_unlock(qlock_cpu *cpu, uint32_t lock, qlock_bed *beds) {
    uint32_t kicked = QLOCK_NOBODY, answer;
    do {
        answer = qlock_unlock_kick(cpu, lock, &kicked);
    } while (answer == QLOCK_AGAIN);
    if (answer == QLOCK_DONE && kicked != QLOCK_NOBODY) {
        qlock_wake(&beds[kicked]);
    }
    return answer;
}

#ifdef __cplusplus
}
#endif
#endif
