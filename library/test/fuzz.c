/* fuzz CALLS SEED: random calls on eight handles, right ones and wrong ones, beside a model. Each answer
 * has to be the model's. The domain has two spinlocks and two reader-writer locks, or in PV four spinlocks,
 * whose waiters spin for one turn; calls name two more, which it does not have. Once all handles are closed,
 * a domain of a random family is opened. */
#include "qlock.h"
#include <stdio.h>
#include <stdlib.h>
#include <string.h>

enum { CPUS = 8, LOCKS = 4, NAMED = 6, NOBODY = -1 };
enum place { FREE, IN_LINE, AT_HEAD, LOOKS };
enum call { TRY, BEGIN, FREES, TRY_READ, BEGIN_READ, FREES_READ, TRY_WRITE, BEGIN_WRITE, FREES_WRITE, CALLS };
enum { POLL = CALLS, HOLDS, LOCKED, CONTENDED, FREES_KICK, KICKED, CLOSE, OPEN };

static const uint8_t mixed[LOCKS] = {QLOCK_SPIN, QLOCK_RW, QLOCK_SPIN, QLOCK_RW}, spinlocks[LOCKS] = {0};
static const uint8_t *kinds = mixed;
static const uint32_t sockets[CPUS] = {0, 1, 0, 1, 0, 1, 0, 1};
static qlock_cpu cpus[CPUS];

/* The model. A queue is a spinlock, or the wait lock of a reader-writer lock. */
typedef struct { int owner, line[CPUS], waiters, slow; } queue;
typedef struct { queue queue; int readers, writer, announced; } lock_state;
typedef struct { int open, holds[LOCKS], writes[LOCKS], place, hashed, asleep, kicked; uint32_t lock; enum call call; } cpu_state;

static lock_state locks[LOCKS];
static cpu_state states[CPUS];
static uint32_t family;

/* Takes a queue, if it is this one's turn: the first in line; in VIRT whoever looks first. */
static int takes(queue *q, int me, int waits) {
    int at = 0;
    while (at < q->waiters && q->line[at] != me) {
        at++;
    }
    if (q->owner != NOBODY || (family != QLOCK_VIRT && (waits ? at != 0 : q->waiters != 0))) {
        if (!waits) {
            q->line[q->waiters++] = me;
        }
        return 0;
    }
    if (waits) {
        memmove(&q->line[at], &q->line[at + 1], (q->waiters - at - 1) * sizeof(int));
        q->waiters--;
    }
    q->owner = me;
    return 1;
}

/* With the wait lock: it is in, or looks on at the head. */
static int enters(lock_state *l, int me, int writes, int looked) {
    if (writes ? l->readers == 0 && l->writer == NOBODY : l->writer == NOBODY) {
        l->readers += !writes && !looked;
        l->writer = writes ? me : NOBODY;
        l->announced = 0;
        l->queue.owner = NOBODY;
        return 1;
    }
    l->readers += !writes && !looked;
    l->announced = writes;
    return 0;
}

/* In PV: one in the queue, whose turn it is to run. Only its head may take the lock. If it cannot, it enters
 * the hash and makes the byte slow, unless it is in the hash already; where the byte is slow it halts, and so
 * does each one behind. A head that takes the lock enters the next one into the hash, which has halted. */
static uint32_t heads(queue *q, int me) {
    cpu_state *c = &states[me];
    int is_head = q->line[0] == me;
    if (is_head && q->owner == NOBODY) {
        q->owner = me;
        memmove(&q->line[0], &q->line[1], --q->waiters * sizeof(int));
        q->slow = q->waiters != 0;
        if (q->slow) {
            states[q->line[0]].hashed = 1;
        }
        return QLOCK_DONE;
    }
    q->slow |= is_head && !c->hashed;
    c->hashed |= is_head;
    c->asleep = is_head ? q->slow : 1;
    return c->asleep ? QLOCK_HALTS : QLOCK_WAITS;
}

/* Goes on with a call of PV: it looks whether it may take the lock past the queue, or joins it. */
static uint32_t turns(int me) {
    cpu_state *c = &states[me];
    queue *q = &locks[c->lock].queue;
    uint32_t answer = QLOCK_DONE;
    if (c->place == LOOKS && q->owner == NOBODY) {
        q->owner = me;
    } else if (c->place == LOOKS && q->waiters != 0) {
        return QLOCK_WAITS;
    } else if (c->asleep && !c->kicked) {
        return QLOCK_HALTS;
    } else {
        if (c->place == LOOKS) {
            q->line[q->waiters++] = me;
            c->hashed = 0;
        }
        c->kicked &= !c->asleep;
        c->place = IN_LINE;
        c->asleep = 0;
        answer = heads(q, me);
    }
    if (answer == QLOCK_DONE) {
        c->place = FREE;
        c->holds[c->lock] = 1;
    }
    return answer;
}

/* Goes on with a call that waits, or that has just begun to. */
static uint32_t goes_on(int me, int waits) {
    cpu_state *c = &states[me];
    lock_state *l = &locks[c->lock];
    int writes = c->call == BEGIN_WRITE;
    if (family == QLOCK_PV) {
        c->place = waits ? c->place : LOOKS;
        return turns(me);
    }
    if (c->place != AT_HEAD && !takes(&l->queue, me, waits)) {
        c->place = IN_LINE;
        return QLOCK_WAITS;
    }
    if (c->call != BEGIN && !enters(l, me, writes, c->place == AT_HEAD)) {
        c->place = AT_HEAD;
        return QLOCK_WAITS;
    }
    c->place = FREE;
    c->holds[c->lock] = 1;
    c->writes[c->lock] = writes;
    return QLOCK_DONE;
}

/* The first row of a call that takes a lock: whether it has it by that. */
static int at_once(lock_state *l, int me, enum call call) {
    if (call == TRY || call == BEGIN) {
        if (l->queue.owner == NOBODY && (l->queue.waiters == 0 || family == QLOCK_VIRT)) {
            l->queue.owner = me;
            return 1;
        }
    } else if (l->writer == NOBODY && !l->announced && (call == TRY_READ || call == BEGIN_READ || l->readers == 0)) {
        l->readers += call == TRY_READ || call == BEGIN_READ;
        l->writer = call == TRY_WRITE || call == BEGIN_WRITE ? me : NOBODY;
        return 1;
    }
    return 0;
}

static uint32_t frees(cpu_state *c, uint32_t lock, enum call call) {
    lock_state *l = &locks[lock];
    if (call != FREES && c->writes[lock] != (call == FREES_WRITE)) {
        return QLOCK_WRONG_MANNER;
    }
    c->holds[lock] = 0;
    l->readers -= call == FREES_READ;
    l->writer = call == FREES_WRITE ? NOBODY : l->writer;
    l->queue.owner = call == FREES ? NOBODY : l->queue.owner;
    return QLOCK_DONE;
}

/* Frees, and tells whom that has kicked: the head of a queue whose lock is slow. */
static uint32_t frees_kick(cpu_state *c, uint32_t lock, uint32_t *kicked) {
    queue *q = &locks[lock].queue;
    *kicked = q->slow ? (uint32_t)q->line[0] : QLOCK_NOBODY;
    if (q->slow) {
        states[q->line[0]].kicked = 1;
    }
    q->slow = 0;
    return frees(c, lock, FREES);
}

static uint32_t model_call(int me, uint32_t lock, enum call call, uint32_t *kicked) {
    cpu_state *c = &states[me];
    int is_free = call == FREES || call == FREES_READ || call == FREES_WRITE;
    if (c->place != FREE) {
        return QLOCK_PENDING;
    }
    if (lock >= LOCKS) {
        return QLOCK_NO_LOCK;
    }
    if (kinds[lock] != (call > FREES)) {
        return QLOCK_WRONG_KIND;
    }
    if (c->holds[lock] != is_free) {
        return is_free ? QLOCK_NOT_HELD : QLOCK_HELD;
    }
    if (is_free) {
        return call == FREES ? frees_kick(c, lock, kicked) : frees(c, lock, call);
    }
    if (at_once(&locks[lock], me, call)) {
        c->holds[lock] = 1;
        c->writes[lock] = call == TRY_WRITE || call == BEGIN_WRITE;
        return QLOCK_DONE;
    }
    if (call == TRY || call == TRY_READ || call == TRY_WRITE) {
        return QLOCK_BUSY;
    }
    c->lock = lock;
    c->call = call;
    return goes_on(me, 0);
}

static uint32_t model_look(int me, uint32_t lock, int what, uint32_t *yes) {
    if (lock >= LOCKS) {
        return QLOCK_NO_LOCK;
    }
    lock_state *l = &locks[lock];
    int is_rw = kinds[lock] == QLOCK_RW;
    if (what == HOLDS) {
        *yes = states[me].holds[lock];
    } else if (what == LOCKED) {
        *yes = is_rw ? l->writer != NOBODY || l->readers != 0 : l->queue.owner != NOBODY;
    } else {
        *yes = is_rw ? l->queue.owner != NOBODY : family != QLOCK_VIRT && l->queue.waiters != 0;
    }
    return QLOCK_DONE;
}

static uint32_t model(int me, uint32_t lock, int what, uint32_t *yes) {
    cpu_state *c = &states[me];
    uint32_t kicked = *yes;
    if (!c->open) {
        return QLOCK_CLOSED;
    }
    if (what == POLL) {
        return c->place == FREE ? QLOCK_IDLE : goes_on(me, 1);
    }
    if (what == CLOSE) {
        int used = c->place != FREE;
        for (int i = 0; i < LOCKS; i++) {
            used |= c->holds[i];
        }
        c->open = used;
        return used ? QLOCK_IN_USE : QLOCK_DONE;
    }
    if (what == KICKED) {
        *yes = c->kicked;
        return QLOCK_DONE;
    }
    if (what == FREES_KICK) {
        return model_call(me, lock, FREES, yes);
    }
    return what < CALLS ? model_call(me, lock, (enum call)what, &kicked) : model_look(me, lock, what, yes);
}

/* The same by the library. */
static uint32_t library(int me, uint32_t lock, int what, uint32_t *yes) {
    qlock_cpu *cpu = &cpus[me];
    switch (what) {
    case TRY: return qlock_try_lock(cpu, lock);
    case BEGIN: return qlock_begin(cpu, lock);
    case FREES: return qlock_unlock(cpu, lock);
    case TRY_READ: return qlock_try_read(cpu, lock);
    case BEGIN_READ: return qlock_begin_read(cpu, lock);
    case FREES_READ: return qlock_read_unlock(cpu, lock);
    case TRY_WRITE: return qlock_try_write(cpu, lock);
    case BEGIN_WRITE: return qlock_begin_write(cpu, lock);
    case FREES_WRITE: return qlock_write_unlock(cpu, lock);
    case POLL: return qlock_poll(cpu);
    case HOLDS: return qlock_holds(cpu, lock, yes);
    case LOCKED: return qlock_is_locked(cpu, lock, yes);
    case CONTENDED: return qlock_is_contended(cpu, lock, yes);
    case FREES_KICK: return qlock_unlock_kick(cpu, lock, yes);
    case KICKED: return qlock_is_kicked(cpu, yes);
    default: return qlock_close(cpu);
    }
}

static int any_open(void) {
    for (int i = 0; i < CPUS; i++) {
        if (states[i].open) {
            return 1;
        }
    }
    return 0;
}

/* An opening, of a family that may be none, and with kinds that the family may not have. */
static void opens(uint32_t asked, int spins, uint32_t answers[2]) {
    const uint8_t *asked_kinds = spins ? spinlocks : mixed;
    answers[0] = asked > QLOCK_PV ? QLOCK_RANGE : any_open() ? QLOCK_IN_USE : asked == QLOCK_PV && !spins ? QLOCK_RANGE : QLOCK_DONE;
    if (answers[0] == QLOCK_DONE) {
        family = asked;
        kinds = asked_kinds;
        memset(locks, 0, sizeof locks);
        memset(states, 0, sizeof states);
        for (int i = 0; i < LOCKS; i++) {
            locks[i].writer = locks[i].queue.owner = NOBODY;
        }
        for (int i = 0; i < CPUS; i++) {
            states[i].open = 1;
        }
    }
    answers[1] = qlock_open(asked, asked_kinds, LOCKS, sockets, CPUS, asked == QLOCK_PV, cpus, CPUS);
}

static uint64_t state = 1;

static uint32_t below(uint32_t limit) {
    state = state * 6364136223846793005u + 1442695040888963407u;
    return (uint32_t)(state >> 33) % limit;
}

/* What comes next. A domain is used for 4,096 calls; then calls free, poll and close until no handle is open. */
static int picks(long n) {
    static const int ends[] = {POLL, FREES, FREES_READ, FREES_WRITE, CLOSE};
    static int ending;
    ending = any_open() && (ending || n % 4096 == 4095);
    if (!any_open() ? below(4) != 0 : below(2000) == 0) {
        return OPEN;
    }
    if (ending) {
        return ends[below(sizeof ends / sizeof *ends)];
    }
    return below(2000) == 0 ? CLOSE : below(5) ? (int)below(CLOSE) : POLL;
}

/* Whoever waits has locks with lower numbers only, so that no circle of them waits for ever: a call that would
 * wait otherwise is made a try. */
static int in_order(int me, uint32_t lock, int what) {
    for (uint32_t i = lock + 1; i < LOCKS; i++) {
        if (states[me].holds[i]) {
            return what == BEGIN ? TRY : what == BEGIN_READ ? TRY_READ : what == BEGIN_WRITE ? TRY_WRITE : what;
        }
    }
    return what;
}

int main(int argc, char **argv) {
    long calls = argc > 1 ? atol(argv[1]) : 1000000, met[QLOCK_AGAIN + 1] = {0};
    state = argc > 2 ? strtoull(argv[2], NULL, 10) : 1;
    for (long n = 0; n < calls; n++) {
        int me = below(CPUS), what = picks(n);
        uint32_t lock = below(10) ? below(LOCKS) : below(NAMED), yes[2] = {9, 9}, answers[2];
        what = in_order(me, lock, what);
        if (what == OPEN) {
            uint32_t asked = below(5);
            opens(asked, below(8) == 0 ? asked != QLOCK_PV : asked == QLOCK_PV, answers);
        } else {
            answers[0] = model(me, lock, what, &yes[0]);
            answers[1] = library(me, lock, what, &yes[1]);
        }
        if (answers[0] != answers[1] || yes[0] != yes[1]) {
            printf("fuzz: call %ld, family %u: call %d of %d on %u answers %u, %u, and not %u, %u\n", n, family, what, me, lock,
                   answers[1], yes[1], answers[0], yes[0]);
            return 1;
        }
        met[answers[1]]++;
    }
    printf("fuzz: %ld calls answered as by the model;", calls);
    for (int i = 0; i <= QLOCK_AGAIN; i++) {
        printf(" %d: %ld", i, met[i]);
    }
    puts("");
    return 0;
}
