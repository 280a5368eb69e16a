/* Each answer of each function, by two processors on one thread. */
#include "qlock.h"
#include <stdio.h>
#include <stdlib.h>

static const uint8_t kinds[2] = {QLOCK_SPIN, QLOCK_RW};
static const uint32_t sockets[2] = {0, 0};
enum { SPIN = 0, RW = 1, NONE = 2 };

#define IS(call, answer) is_code(__LINE__, #call, call, answer)
#define EQUALS(value, wanted) is(__LINE__, #value, value, wanted)

static unsigned met[QLOCK_AGAIN + 1];

static void is(int line, const char *call, uint32_t got, uint32_t wanted) {
    if (got != wanted) {
        printf("answers.c:%d: %s answers %u, not %u\n", line, call, got, wanted);
        exit(1);
    }
}

/* A call, whose code counts as met. */
static void is_code(int line, const char *call, uint32_t got, uint32_t wanted) {
    is(line, call, got, wanted);
    met[got]++;
}

static void looks(qlock_cpu *cpu, uint32_t lock, uint32_t holds, uint32_t locked, uint32_t contended) {
    uint32_t yes[3] = {9, 9, 9};
    IS(qlock_holds(cpu, lock, &yes[0]), QLOCK_DONE);
    IS(qlock_is_locked(cpu, lock, &yes[1]), QLOCK_DONE);
    IS(qlock_is_contended(cpu, lock, &yes[2]), QLOCK_DONE);
    EQUALS(yes[0], holds);
    EQUALS(yes[1], locked);
    EQUALS(yes[2], contended);
}

static void empty_handles(void) {
    qlock_cpu c = QLOCK_CPU_INIT;
    uint32_t yes = 9;
    IS(qlock_close(&c), QLOCK_CLOSED);
    IS(qlock_try_lock(&c, SPIN), QLOCK_CLOSED);
    IS(qlock_begin(&c, SPIN), QLOCK_CLOSED);
    IS(qlock_unlock(&c, SPIN), QLOCK_CLOSED);
    IS(qlock_unlock_kick(&c, SPIN, &yes), QLOCK_CLOSED);
    IS(qlock_try_read(&c, RW), QLOCK_CLOSED);
    IS(qlock_begin_read(&c, RW), QLOCK_CLOSED);
    IS(qlock_read_unlock(&c, RW), QLOCK_CLOSED);
    IS(qlock_try_write(&c, RW), QLOCK_CLOSED);
    IS(qlock_begin_write(&c, RW), QLOCK_CLOSED);
    IS(qlock_write_unlock(&c, RW), QLOCK_CLOSED);
    IS(qlock_poll(&c), QLOCK_CLOSED);
    IS(qlock_holds(&c, SPIN, &yes), QLOCK_CLOSED);
    IS(qlock_is_locked(&c, SPIN, &yes), QLOCK_CLOSED);
    IS(qlock_is_contended(&c, SPIN, &yes), QLOCK_CLOSED);
    IS(qlock_is_kicked(&c, &yes), QLOCK_CLOSED);
    EQUALS(yes, 9);
}

static void openings(qlock_cpu *c) {
    static const uint8_t many[QLOCK_MOST_LOCKS + 1] = {0}, bad[1] = {2};
    IS(qlock_open(QLOCK_PV, kinds, 2, sockets, 2, 10, c, 2), QLOCK_RANGE);
    IS(qlock_open(QLOCK_PV, kinds, 1, sockets, 2, 0, c, 2), QLOCK_RANGE);
    IS(qlock_open(QLOCK_PV, kinds, 1, sockets, 2, 65536, c, 2), QLOCK_RANGE);
    IS(qlock_open(QLOCK_PV, kinds, 0, sockets, 2, 10, c, 2), QLOCK_RANGE);
    IS(qlock_open(4, kinds, 2, sockets, 2, 10, c, 2), QLOCK_RANGE);
    IS(qlock_open(QLOCK_NATIVE, kinds, 0, sockets, 2, 10, c, 2), QLOCK_RANGE);
    IS(qlock_open(QLOCK_NATIVE, many, QLOCK_MOST_LOCKS + 1, sockets, 2, 10, c, 2), QLOCK_RANGE);
    IS(qlock_open(QLOCK_NATIVE, kinds, 2, sockets, 0, 10, c, 0), QLOCK_RANGE);
    IS(qlock_open(QLOCK_NATIVE, kinds, 2, sockets, 2, 10, c, 1), QLOCK_RANGE);
    IS(qlock_open(QLOCK_NATIVE, bad, 1, sockets, 2, 10, c, 2), QLOCK_RANGE);
    IS(qlock_close(c), QLOCK_CLOSED);
}

/* Ends the call that waits. */
static void polls(qlock_cpu *c) {
    uint32_t answer = qlock_poll(c);
    for (int n = 0; answer == QLOCK_WAITS && n < 100; n++) {
        answer = qlock_poll(c);
    }
    IS(answer, QLOCK_DONE);
    IS(qlock_poll(c), QLOCK_IDLE);
}

/* A call waits: nothing else may be asked of its processor but looks and polls. */
static void pending(qlock_cpu *c) {
    uint32_t yes = 9;
    IS(qlock_poll(c), QLOCK_WAITS);
    IS(qlock_try_lock(c, SPIN), QLOCK_PENDING);
    IS(qlock_begin(c, SPIN), QLOCK_PENDING);
    IS(qlock_unlock(c, SPIN), QLOCK_PENDING);
    IS(qlock_try_read(c, RW), QLOCK_PENDING);
    IS(qlock_begin_read(c, RW), QLOCK_PENDING);
    IS(qlock_read_unlock(c, RW), QLOCK_PENDING);
    IS(qlock_try_write(c, RW), QLOCK_PENDING);
    IS(qlock_begin_write(c, RW), QLOCK_PENDING);
    IS(qlock_write_unlock(c, RW), QLOCK_PENDING);
    IS(qlock_close(c), QLOCK_IN_USE);
    IS(qlock_holds(c, SPIN, &yes), QLOCK_DONE);
    EQUALS(yes, 0);
}

static void spinlocks(qlock_cpu *c, int shows_waiters) {
    uint32_t yes = 9;
    IS(qlock_unlock(c, SPIN), QLOCK_NOT_HELD);
    IS(qlock_begin(c, NONE), QLOCK_NO_LOCK);
    IS(qlock_try_lock(c, NONE), QLOCK_NO_LOCK);
    IS(qlock_unlock(c, NONE), QLOCK_NO_LOCK);
    IS(qlock_holds(c, NONE, &yes), QLOCK_NO_LOCK);
    IS(qlock_is_locked(c, NONE, &yes), QLOCK_NO_LOCK);
    IS(qlock_is_contended(c, NONE, &yes), QLOCK_NO_LOCK);
    EQUALS(yes, 9);
    IS(qlock_begin(c, RW), QLOCK_WRONG_KIND);
    IS(qlock_try_lock(c, RW), QLOCK_WRONG_KIND);
    IS(qlock_unlock(c, RW), QLOCK_WRONG_KIND);
    IS(qlock_poll(c), QLOCK_IDLE);
    looks(c, SPIN, 0, 0, 0);
    IS(qlock_try_lock(c, SPIN), QLOCK_DONE);
    IS(qlock_begin(c, SPIN), QLOCK_HELD);
    IS(qlock_try_lock(c, SPIN), QLOCK_HELD);
    IS(qlock_close(c), QLOCK_IN_USE);
    looks(c, SPIN, 1, 1, 0);
    IS(qlock_try_lock(c + 1, SPIN), QLOCK_BUSY);
    IS(qlock_begin(c + 1, SPIN), QLOCK_WAITS);
    looks(c, SPIN, 1, 1, shows_waiters);
    pending(c + 1);
    IS(qlock_unlock(c, SPIN), QLOCK_DONE);
    polls(c + 1);
    IS(qlock_unlock(c + 1, SPIN), QLOCK_DONE);
    IS(qlock_begin(c, SPIN), QLOCK_DONE);
    IS(qlock_unlock(c, SPIN), QLOCK_DONE);
    looks(c, SPIN, 0, 0, 0);
}

/* A queue head halts at once where it may spin for one turn, and a waiter behind it too. Whoever frees the lock
 * kicks the head alone, and says so; and a head that takes the lock leaves the next one to the release. */
static void halts(qlock_cpu *c) {
    uint32_t yes = 9, kicked = 9;
    IS(qlock_begin(c, SPIN), QLOCK_DONE);
    IS(qlock_begin(c + 1, SPIN), QLOCK_HALTS);
    IS(qlock_poll(c + 1), QLOCK_HALTS);
    IS(qlock_begin(c + 1, SPIN), QLOCK_PENDING);
    IS(qlock_unlock_kick(c + 1, SPIN, &kicked), QLOCK_PENDING);
    IS(qlock_close(c + 1), QLOCK_IN_USE);
    looks(c, SPIN, 1, 1, 1);
    looks(c + 1, SPIN, 0, 1, 1);
    /* One that comes now looks whether it may take the lock past the head. */
    IS(qlock_begin(c + 2, SPIN), QLOCK_WAITS);
    IS(qlock_poll(c + 2), QLOCK_WAITS);
    IS(qlock_is_kicked(c + 1, &yes), QLOCK_DONE);
    EQUALS(yes, 0);
    EQUALS(kicked, 9);
    IS(qlock_unlock_kick(c, SPIN, &kicked), QLOCK_DONE);
    EQUALS(kicked, 1);
    IS(qlock_is_kicked(c + 1, &yes), QLOCK_DONE);
    EQUALS(yes, 1);
    IS(qlock_is_kicked(c, &yes), QLOCK_DONE);
    EQUALS(yes, 0);
    looks(c + 1, SPIN, 0, 0, 1);
    IS(qlock_try_lock(c, SPIN), QLOCK_BUSY);
    IS(qlock_poll(c + 1), QLOCK_DONE);
    IS(qlock_is_kicked(c + 1, &yes), QLOCK_DONE);
    EQUALS(yes, 0);
    looks(c + 1, SPIN, 1, 1, 0);
    IS(qlock_poll(c + 2), QLOCK_HALTS);
    IS(qlock_unlock(c + 1, SPIN), QLOCK_DONE);
    IS(qlock_poll(c + 2), QLOCK_DONE);
    IS(qlock_unlock_kick(c + 2, SPIN, &kicked), QLOCK_DONE);
    EQUALS(kicked, QLOCK_NOBODY);
    IS(qlock_unlock_kick(c + 2, SPIN, &kicked), QLOCK_NOT_HELD);
    IS(qlock_unlock_kick(c + 2, RW, &kicked), QLOCK_NO_LOCK);
    EQUALS(kicked, QLOCK_NOBODY);
    looks(c, SPIN, 0, 0, 0);
}

/* A head that was kicked finds the lock taken past it: it does not halt again, since nobody would kick it. */
static void is_passed(qlock_cpu *c) {
    uint32_t kicked = 9;
    IS(qlock_begin(c, SPIN), QLOCK_DONE);
    IS(qlock_begin(c + 1, SPIN), QLOCK_HALTS);
    IS(qlock_begin(c + 2, SPIN), QLOCK_WAITS);
    IS(qlock_unlock_kick(c, SPIN, &kicked), QLOCK_DONE);
    EQUALS(kicked, 1);
    IS(qlock_poll(c + 2), QLOCK_DONE);
    IS(qlock_poll(c + 1), QLOCK_WAITS);
    IS(qlock_poll(c + 1), QLOCK_WAITS);
    IS(qlock_unlock_kick(c + 2, SPIN, &kicked), QLOCK_DONE);
    EQUALS(kicked, QLOCK_NOBODY);
    IS(qlock_poll(c + 1), QLOCK_DONE);
    IS(qlock_poll(c + 1), QLOCK_IDLE);
    IS(qlock_unlock(c + 1, SPIN), QLOCK_DONE);
}

/* It has no reader-writer locks. */
static void enters_nothing(qlock_cpu *c) {
    IS(qlock_begin(c, RW), QLOCK_NO_LOCK);
    IS(qlock_begin_read(c, SPIN), QLOCK_WRONG_KIND);
    IS(qlock_begin_write(c, SPIN), QLOCK_WRONG_KIND);
    IS(qlock_try_read(c, SPIN), QLOCK_WRONG_KIND);
    IS(qlock_try_write(c, SPIN), QLOCK_WRONG_KIND);
    IS(qlock_read_unlock(c, SPIN), QLOCK_WRONG_KIND);
    IS(qlock_write_unlock(c, SPIN), QLOCK_WRONG_KIND);
    IS(qlock_begin_read(c, NONE), QLOCK_NO_LOCK);
    IS(qlock_unlock(c, SPIN), QLOCK_NOT_HELD);
    IS(qlock_poll(c), QLOCK_IDLE);
    IS(qlock_try_lock(c, SPIN), QLOCK_DONE);
    IS(qlock_begin(c, SPIN), QLOCK_HELD);
    IS(qlock_begin_read(c, SPIN), QLOCK_WRONG_KIND);
    IS(qlock_close(c), QLOCK_IN_USE);
    IS(qlock_unlock(c, SPIN), QLOCK_DONE);
}

static void halting(void) {
    static const uint32_t places[3] = {0, 0, 0};
    qlock_cpu c[3] = {QLOCK_CPU_INIT, QLOCK_CPU_INIT, QLOCK_CPU_INIT};
    IS(qlock_open(QLOCK_PV, kinds, 1, places, 3, 1, c, 3), QLOCK_DONE);
    IS(qlock_open(QLOCK_PV, kinds, 1, places, 3, 1, c, 3), QLOCK_IN_USE);
    enters_nothing(c);
    halts(c);
    is_passed(c);
    for (int i = 0; i < 3; i++) {
        IS(qlock_close(c + i), QLOCK_DONE);
    }
    /* With two turns to spin a head spins for one. */
    IS(qlock_open(QLOCK_PV, kinds, 1, places, 2, 2, c, 2), QLOCK_DONE);
    IS(qlock_begin(c, SPIN), QLOCK_DONE);
    IS(qlock_begin(c + 1, SPIN), QLOCK_WAITS);
    IS(qlock_poll(c + 1), QLOCK_HALTS);
    IS(qlock_unlock(c, SPIN), QLOCK_DONE);
    IS(qlock_poll(c + 1), QLOCK_DONE);
    IS(qlock_unlock(c + 1, SPIN), QLOCK_DONE);
    IS(qlock_close(c), QLOCK_DONE);
    IS(qlock_close(c + 1), QLOCK_DONE);
}

static void readers_and_writers(qlock_cpu *c) {
    IS(qlock_read_unlock(c, RW), QLOCK_NOT_HELD);
    IS(qlock_write_unlock(c, RW), QLOCK_NOT_HELD);
    IS(qlock_begin_read(c, NONE), QLOCK_NO_LOCK);
    IS(qlock_begin_write(c, NONE), QLOCK_NO_LOCK);
    IS(qlock_try_read(c, NONE), QLOCK_NO_LOCK);
    IS(qlock_try_write(c, NONE), QLOCK_NO_LOCK);
    IS(qlock_read_unlock(c, NONE), QLOCK_NO_LOCK);
    IS(qlock_write_unlock(c, NONE), QLOCK_NO_LOCK);
    IS(qlock_begin_read(c, SPIN), QLOCK_WRONG_KIND);
    IS(qlock_begin_write(c, SPIN), QLOCK_WRONG_KIND);
    IS(qlock_try_read(c, SPIN), QLOCK_WRONG_KIND);
    IS(qlock_try_write(c, SPIN), QLOCK_WRONG_KIND);
    IS(qlock_read_unlock(c, SPIN), QLOCK_WRONG_KIND);
    IS(qlock_write_unlock(c, SPIN), QLOCK_WRONG_KIND);
    /* Two readers, and a writer that waits for both. */
    IS(qlock_begin_read(c, RW), QLOCK_DONE);
    IS(qlock_write_unlock(c, RW), QLOCK_WRONG_MANNER);
    IS(qlock_try_read(c, RW), QLOCK_HELD);
    IS(qlock_begin_read(c, RW), QLOCK_HELD);
    IS(qlock_begin_write(c, RW), QLOCK_HELD);
    IS(qlock_try_read(c + 1, RW), QLOCK_DONE);
    IS(qlock_read_unlock(c + 1, RW), QLOCK_DONE);
    IS(qlock_try_write(c + 1, RW), QLOCK_BUSY);
    looks(c, RW, 1, 1, 0);
    IS(qlock_begin_write(c + 1, RW), QLOCK_WAITS);
    looks(c, RW, 1, 1, 1);
    pending(c + 1);
    IS(qlock_read_unlock(c, RW), QLOCK_DONE);
    IS(qlock_try_read(c, RW), QLOCK_BUSY);
    polls(c + 1);
    /* The writer, and a reader that waits for it. */
    IS(qlock_read_unlock(c + 1, RW), QLOCK_WRONG_MANNER);
    IS(qlock_try_write(c + 1, RW), QLOCK_HELD);
    IS(qlock_try_read(c, RW), QLOCK_BUSY);
    IS(qlock_begin_read(c, RW), QLOCK_WAITS);
    pending(c);
    IS(qlock_write_unlock(c + 1, RW), QLOCK_DONE);
    polls(c);
    IS(qlock_close(c), QLOCK_IN_USE);
    IS(qlock_read_unlock(c, RW), QLOCK_DONE);
    IS(qlock_try_write(c, RW), QLOCK_DONE);
    IS(qlock_write_unlock(c, RW), QLOCK_DONE);
    IS(qlock_begin_write(c, RW), QLOCK_DONE);
    IS(qlock_write_unlock(c, RW), QLOCK_DONE);
    looks(c, RW, 0, 0, 0);
}

int main(void) {
    empty_handles();
    for (uint32_t family = QLOCK_VIRT; family <= QLOCK_CNA; family++) {
        qlock_cpu c[2] = {QLOCK_CPU_INIT, QLOCK_CPU_INIT};
        openings(c);
        IS(qlock_open(family, kinds, 2, sockets, 2, 10, c, 2), QLOCK_DONE);
        IS(qlock_open(family, kinds, 2, sockets, 2, 10, c, 2), QLOCK_IN_USE);
        spinlocks(c, family != QLOCK_VIRT);
        readers_and_writers(c);
        IS(qlock_close(c), QLOCK_DONE);
        IS(qlock_close(c), QLOCK_CLOSED);
        IS(qlock_close(c + 1), QLOCK_DONE);
    }
    halting();
    for (uint32_t code = 0; code <= QLOCK_AGAIN; code++) {
        if (code != QLOCK_MEMORY && code != QLOCK_AGAIN && met[code] == 0) {
            printf("answers: no call answers %u\n", code);
            return 1;
        }
    }
    puts("answers: each as it should be, in four families; every code but 13 and 15 was met");
    return 0;
}
