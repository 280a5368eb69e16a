#include "qlock.h"
#include <stdio.h>

int main(void) {
    static qlock_cpu cpus[2];
    const uint8_t kinds[1] = {QLOCK_SPIN};
    const uint32_t sockets[2] = {0, 0};
    if (qlock_open(QLOCK_NATIVE, kinds, 1, sockets, 2, 0, cpus, 2) != QLOCK_DONE) return 1;
    if (qlock_lock(&cpus[0], 0) != QLOCK_DONE) return 1;
    printf("another try: %s\n", qlock_try_lock(&cpus[1], 0) == QLOCK_BUSY ? "busy" : "free");
    if (qlock_unlock(&cpus[0], 0) != QLOCK_DONE) return 1;
    return qlock_close(&cpus[0]) + qlock_close(&cpus[1]);
}
