/* AGAIN, which no release is known to answer. Linked with --wrap=qlock_unlock_kick, which answers it three times
 * before it frees: who frees by qlock_wake_unlock goes on until the lock is free. */
#include "qlock_sleep.h"
#include <stdio.h>

enum { TIMES = 3, LOCK = 0 };

static unsigned calls;
uint32_t __real_qlock_unlock_kick(qlock_cpu *cpu, uint32_t lock, uint32_t *kicked);

uint32_t __wrap_qlock_unlock_kick(qlock_cpu *cpu, uint32_t lock, uint32_t *kicked) {
    calls++;
    return calls <= TIMES ? QLOCK_AGAIN : __real_qlock_unlock_kick(cpu, lock, kicked);
}

int main(void) {
    static const uint8_t kinds[1] = {QLOCK_SPIN};
    static const uint32_t sockets[1] = {0};
    qlock_cpu cpu[1] = {QLOCK_CPU_INIT};
    qlock_bed beds[1] = {0};
    uint32_t holds = 1;
    if (qlock_open(QLOCK_PV, kinds, 1, sockets, 1, 10, cpu, 1) != QLOCK_DONE
        || qlock_sleep_lock(cpu, LOCK, beds) != QLOCK_DONE
        || qlock_wake_unlock(cpu, LOCK, beds) != QLOCK_DONE
        || qlock_holds(cpu, LOCK, &holds) != QLOCK_DONE
        || qlock_close(cpu) != QLOCK_DONE) {
        puts("again: a call gave another answer");
        return 1;
    }
    if (holds || calls != TIMES + 1) {
        printf("again: freed by %u calls, and %s\n", calls, holds ? "held" : "not held");
        return 1;
    }
    printf("again: freed by the call behind %u that answered 15\n", TIMES);
    return 0;
}
