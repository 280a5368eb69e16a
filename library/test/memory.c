/* Want of memory: for each N the Nth allocation of an opening fails, and all behind it. Linked with
 * --wrap=malloc and the like. Each is answered MEMORY, all handles are empty then, and no block is left. */
#include "qlock.h"
#include <stdio.h>
#include <stdlib.h>
#include <string.h>

static long left = -1, blocks;
void *__real_malloc(size_t size);
void *__real_realloc(void *old, size_t size);
void __real_free(void *old);

static int fails(void) {
    if (left > 0) {
        left--;
        return 0;
    }
    return left == 0;
}

void *__wrap_malloc(size_t size) {
    void *made = fails() ? NULL : __real_malloc(size);
    blocks += made != NULL;
    return made;
}

void *__wrap_realloc(void *old, size_t size) {
    void *made = fails() ? NULL : __real_realloc(old, size);
    blocks += made != NULL && old == NULL;
    return made;
}

void __wrap_free(void *old) {
    blocks -= old != NULL;
    __real_free(old);
}

enum { CPUS = 3, WRONG = -1 };

/* An opening whose allocations fail behind the nth: 1 if none did, 0 if it was answered, or WRONG. */
static int opens(uint32_t family, long n) {
    static const uint32_t sockets[CPUS] = {0, 1, 0};
    const uint8_t kinds[2] = {QLOCK_SPIN, family == QLOCK_PV ? QLOCK_SPIN : QLOCK_RW};
    qlock_cpu c[CPUS];
    memset(c, 0, sizeof c);
    blocks = 0;
    left = n;
    uint32_t answer = qlock_open(family, kinds, 2, sockets, CPUS, 16, c, CPUS);
    left = -1;
    for (int i = 0; i < CPUS; i++) {
        uint32_t closed = answer == QLOCK_DONE ? qlock_close(&c[i]) : qlock_poll(&c[i]);
        if (closed != (answer == QLOCK_DONE ? QLOCK_DONE : QLOCK_CLOSED)) {
            return WRONG;
        }
    }
    return blocks != 0 || (answer != QLOCK_DONE && answer != QLOCK_MEMORY) ? WRONG : answer == QLOCK_DONE;
}

int main(void) {
    static const uint32_t families[4] = {QLOCK_VIRT, QLOCK_NATIVE, QLOCK_CNA, QLOCK_PV};
    long answered = 0;
    for (int f = 0; f < 4; f++) {
        long n = 0;
        int opened;
        while ((opened = opens(families[f], n)) == 0) {
            n++;
        }
        if (opened == WRONG || n < 3) {
            printf("memory: family %u, allocation %ld: wrong, %ld blocks left\n", families[f], n, blocks);
            return 1;
        }
        answered += n;
    }
    printf("memory: %ld failing allocations answered in four families, %ld blocks left\n", answered, blocks);
    return 0;
}
