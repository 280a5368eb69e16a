/* threads THREADS TURNS: THREADS threads take TURNS turns each, in each family: with a spinlock, and in a
 * reader-writer lock, where every fourth turn is a writer's. Two numbers that one of them guards have to be
 * equal whenever somebody looks. Built with -fsanitize=thread it tells a race on them too. In PV, which has
 * spinlocks alone, a thread sleeps while its processor has halted, or yields and polls, by turns: one that
 * nobody wakes stops the test, which is then killed. */
#define _POSIX_C_SOURCE 200809L
#include "qlock_sleep.h"
#include <pthread.h>
#include <sched.h>
#include <stdio.h>
#include <stdlib.h>

enum { SPIN = 0, RW = 1, MOST = QLOCK_MOST_CPUS };

typedef struct { char before[64]; long a, b; char behind[64]; } guarded;

static guarded data[2];
static qlock_cpu cpus[MOST];
static qlock_bed beds[MOST];
static long turns, writes[MOST], sleeps[MOST];
static pthread_barrier_t start;

/* The library is not built for the sanitizer: tell it what the locks order. */
#if defined(__SANITIZE_THREAD__)
void __tsan_acquire(void *at);
void __tsan_release(void *at);
#else
static void __tsan_acquire(void *at) { (void)at; }
static void __tsan_release(void *at) { (void)at; }
#endif

static void must(int line, int well) {
    if (!well) {
        printf("threads.c:%d: not so\n", line);
        exit(1);
    }
}
#define MUST(what) must(__LINE__, what)

static void yields(void *data) {
    unsigned *times = data;
    if (++*times % 8 == 0) {
        sched_yield();
    } else {
        qlock_pause(NULL);
    }
}

/* Others run while this thread has a lock, so that they wait for it. */
static void lingers(long turn) {
    if (turn % 16 == 0) {
        sched_yield();
    }
}

static void changes(guarded *g) {
    MUST(g->a == g->b);
    g->a++;
    lingers(g->a);
    g->b++;
}

static void spin_turn(qlock_cpu *cpu, long turn, unsigned *times) {
    uint32_t answer = turn % 3 ? qlock_begin(cpu, SPIN) : qlock_try_lock(cpu, SPIN);
    if (answer == QLOCK_BUSY) {
        answer = qlock_begin(cpu, SPIN);
    }
    MUST(qlock_wait(cpu, answer, yields, times) == QLOCK_DONE);
    __tsan_acquire(&data[SPIN]);
    changes(&data[SPIN]);
    __tsan_release(&data[SPIN]);
    MUST(qlock_unlock(cpu, SPIN) == QLOCK_DONE);
}

static void write_turn(qlock_cpu *cpu, unsigned *times) {
    MUST(qlock_wait(cpu, qlock_begin_write(cpu, RW), yields, times) == QLOCK_DONE);
    __tsan_acquire(&data[RW]);
    changes(&data[RW]);
    __tsan_release(&data[RW]);
    MUST(qlock_write_unlock(cpu, RW) == QLOCK_DONE);
}

static void read_turn(qlock_cpu *cpu, long turn, unsigned *times) {
    uint32_t answer = turn % 3 ? qlock_begin_read(cpu, RW) : qlock_try_read(cpu, RW);
    if (answer == QLOCK_BUSY) {
        answer = qlock_begin_read(cpu, RW);
    }
    MUST(qlock_wait(cpu, answer, yields, times) == QLOCK_DONE);
    __tsan_acquire(&data[RW]);
    MUST(data[RW].a == data[RW].b);
    lingers(turn);
    MUST(data[RW].a == data[RW].b);
    __tsan_release(&data[RW]);
    MUST(qlock_read_unlock(cpu, RW) == QLOCK_DONE);
}

static void *runs(void *given) {
    qlock_cpu *cpu = given;
    unsigned times = 0;
    pthread_barrier_wait(&start);
    for (long turn = 0; turn < turns; turn++) {
        spin_turn(cpu, turn, &times);
        if (turn % 4 == 0) {
            write_turn(cpu, &times);
            writes[cpu - cpus]++;
        } else {
            read_turn(cpu, turn, &times);
        }
    }
    return NULL;
}

/* A turn in which the thread sleeps while its processor has halted; in one of eight it yields in place of that. */
static void halting_turn(qlock_cpu *cpu, long turn, unsigned *times) {
    long me = cpu - cpus;
    uint32_t answer = turn % 3 ? qlock_begin(cpu, SPIN) : qlock_try_lock(cpu, SPIN);
    if (answer == QLOCK_BUSY) {
        answer = qlock_begin(cpu, SPIN);
    }
    sleeps[me] += answer == QLOCK_HALTS;
    if (turn % 8 == 0) {
        MUST(qlock_wait(cpu, answer, yields, times) == QLOCK_DONE);
    } else {
        MUST(qlock_sleep_wait(cpu, answer, &beds[me]) == QLOCK_DONE);
    }
    __tsan_acquire(&data[SPIN]);
    changes(&data[SPIN]);
    __tsan_release(&data[SPIN]);
    if (turn % 2) {
        MUST(qlock_wake_unlock(cpu, SPIN, beds) == QLOCK_DONE);
        return;
    }
    uint32_t kicked = 9;
    MUST(qlock_unlock_kick(cpu, SPIN, &kicked) == QLOCK_DONE);
    if (kicked != QLOCK_NOBODY) {
        qlock_wake(&beds[kicked]);
    }
}

static void *halts(void *given) {
    qlock_cpu *cpu = given;
    unsigned times = 0;
    pthread_barrier_wait(&start);
    for (long turn = 0; turn < turns; turn++) {
        halting_turn(cpu, turn, &times);
    }
    return NULL;
}

/* Each thread has a processor. They begin together: on a busy machine one that begins by itself may be done before the
 * next is there. */
static void run_all(long threads, void *(*body)(void *)) {
    pthread_t made[MOST];
    MUST(pthread_barrier_init(&start, NULL, threads) == 0);
    for (long i = 0; i < threads; i++) {
        MUST(pthread_create(&made[i], NULL, body, &cpus[i]) == 0);
    }
    for (long i = 0; i < threads; i++) {
        MUST(pthread_join(made[i], NULL) == 0);
    }
    MUST(pthread_barrier_destroy(&start) == 0);
}

/* Waiters spin for so many turns before they halt. */
static void halting_runs(long threads, uint32_t spins) {
    static const uint8_t kinds[1] = {QLOCK_SPIN};
    uint32_t sockets[MOST] = {0};
    long slept = 0;
    for (long i = 0; i < threads; i++) {
        sleeps[i] = 0;
    }
    data[SPIN].a = data[SPIN].b = 0;
    MUST(qlock_open(QLOCK_PV, kinds, 1, sockets, threads, spins, cpus, threads) == QLOCK_DONE);
    run_all(threads, halts);
    for (long i = 0; i < threads; i++) {
        slept += sleeps[i];
        MUST(qlock_close(&cpus[i]) == QLOCK_DONE);
    }
    MUST(data[SPIN].a == threads * turns && data[SPIN].b == data[SPIN].a);
    MUST(threads == 1 || spins != 1 || slept != 0);
}

static void family_runs(uint32_t family, long threads) {
    static const uint8_t kinds[2] = {QLOCK_SPIN, QLOCK_RW};
    uint32_t sockets[MOST] = {0};
    long written = 0;
    for (long i = 0; i < threads; i++) {
        sockets[i] = i % 2;
        writes[i] = 0;
    }
    data[SPIN].a = data[SPIN].b = data[RW].a = data[RW].b = 0;
    MUST(qlock_open(family, kinds, 2, sockets, threads, 16, cpus, threads) == QLOCK_DONE);
    run_all(threads, runs);
    for (long i = 0; i < threads; i++) {
        written += writes[i];
        MUST(qlock_close(&cpus[i]) == QLOCK_DONE);
    }
    MUST(data[SPIN].a == threads * turns && data[SPIN].b == data[SPIN].a);
    MUST(data[RW].a == written && data[RW].b == written);
}

int main(int argc, char **argv) {
    long threads = argc > 1 ? atol(argv[1]) : 4;
    turns = argc > 2 ? atol(argv[2]) : 20000;
    MUST(0 < threads && threads <= MOST && 0 < turns);
    for (uint32_t family = QLOCK_VIRT; family <= QLOCK_CNA; family++) {
        family_runs(family, threads);
    }
    halting_runs(threads, 1);
    halting_runs(threads, 100);
    printf("threads: %ld threads, %ld turns each, in four families\n", threads, turns);
    return 0;
}
