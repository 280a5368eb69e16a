/* library LOCK bare|work THREADS TURNS: THREADS threads take LOCK and free it TURNS times each. Under it lies nothing, or two numbers
 * that each turn raises by one. LOCK is virt, native, cna or pv of the C library, or pv-sleeps, which is pv by the calls of
 * qlock_sleep.h; or mutex, spin or mcs: those of POSIX threads, and the queued lock of Concurrency Kit (built with -DWITH_CK); or inline or
 * calls: a word that is exchanged from 0 to 1 and back, with no other test, in the loop itself, and by a function each, as from any library.
 * Writes "right", and to standard error the microseconds from the first thread's start to the last one's end, as lk_race does. A waiter of
 * the C library yields at each 64th look. In pv its processor halts when its 32,768 turns are over, and it goes on looking; in pv-sleeps it
 * sleeps then. bench/library.py compiles and runs this. */
#define _GNU_SOURCE
#include "qlock_sleep.h"
#include <pthread.h>
#include <sched.h>
#include <stdio.h>
#include <stdlib.h>
#include <string.h>
#include <time.h>

#ifdef WITH_CK
#include <ck_spinlock.h>
static ck_spinlock_mcs_t mcs = CK_SPINLOCK_MCS_INITIALIZER;
#endif

/* The most processors; how often CNA hands off past one that stands aside, and how many turns a waiter of PV spins. */
enum { MOST = QLOCK_MOST_CPUS, THRESHOLD = 16, SPINS = 32768 };

static struct { char before[128]; long a, b; char behind[112]; } value;
/* The word of `inline` and `calls`. */
static struct { char before[128]; uint64_t word; char behind[120]; } least;
static struct { char before[128]; pthread_mutex_t mutex; pthread_spinlock_t spin; char behind[128]; } posix;
static struct { qlock_cpu cpu; char behind[112]; } seats[MOST];
static qlock_bed beds[MOST];
static long turns;
static int works;

static void work(void) {
    if (works) {
        value.a++;
        value.b++;
    }
}

static void yields(void *data) {
    unsigned *looks = data;
    if (++*looks % 64 == 0) {
        sched_yield();
    } else {
        qlock_pause(NULL);
    }
}

static void *by_library(void *given) {
    qlock_cpu *cpu = &seats[(size_t)given].cpu;
    unsigned looks = 0;
    for (long turn = 0; turn < turns; turn++) {
        if (qlock_wait(cpu, qlock_begin(cpu, 0), yields, &looks) != QLOCK_DONE) {
            abort();
        }
        work();
        if (qlock_unlock(cpu, 0) != QLOCK_DONE) {
            abort();
        }
    }
    return NULL;
}

static void *by_sleep(void *given) {
    qlock_cpu *cpu = &seats[(size_t)given].cpu;
    for (long turn = 0; turn < turns; turn++) {
        if (qlock_sleep_lock(cpu, 0, &beds[(size_t)given]) != QLOCK_DONE) {
            abort();
        }
        work();
        if (qlock_wake_unlock(cpu, 0, beds) != QLOCK_DONE) {
            abort();
        }
    }
    return NULL;
}

static void *by_mutex(void *given) {
    (void)given;
    for (long turn = 0; turn < turns; turn++) {
        pthread_mutex_lock(&posix.mutex);
        work();
        pthread_mutex_unlock(&posix.mutex);
    }
    return NULL;
}

static void *by_spin(void *given) {
    (void)given;
    for (long turn = 0; turn < turns; turn++) {
        pthread_spin_lock(&posix.spin);
        work();
        pthread_spin_unlock(&posix.spin);
    }
    return NULL;
}

static inline int exchanges(uint64_t from, uint64_t to) {
    return __atomic_compare_exchange_n(&least.word, &from, to, 0, __ATOMIC_SEQ_CST, __ATOMIC_SEQ_CST);
}

static __attribute__((noinline)) int takes(void) {
    return exchanges(0, 1);
}

static __attribute__((noinline)) int frees(void) {
    return exchanges(1, 0);
}

static void *by_exchanges(void *given) {
    unsigned looks = 0;
    (void)given;
    for (long turn = 0; turn < turns; turn++) {
        while (!exchanges(0, 1)) {
            yields(&looks);
        }
        work();
        exchanges(1, 0);
    }
    return NULL;
}

static void *by_calls(void *given) {
    unsigned looks = 0;
    (void)given;
    for (long turn = 0; turn < turns; turn++) {
        while (!takes()) {
            yields(&looks);
        }
        work();
        if (!frees()) {
            abort();
        }
    }
    return NULL;
}

#ifdef WITH_CK
static void *by_mcs(void *given) {
    ck_spinlock_mcs_context_t node;
    (void)given;
    for (long turn = 0; turn < turns; turn++) {
        ck_spinlock_mcs_lock(&mcs, &node);
        work();
        ck_spinlock_mcs_unlock(&mcs, &node);
    }
    return NULL;
}
#endif

static const struct { const char *name; void *(*runs)(void *); int family; } locks[] = {
    {"virt", by_library, QLOCK_VIRT}, {"native", by_library, QLOCK_NATIVE}, {"cna", by_library, QLOCK_CNA},
    {"pv", by_library, QLOCK_PV}, {"pv-sleeps", by_sleep, QLOCK_PV},
    {"mutex", by_mutex, -1}, {"spin", by_spin, -1}, {"inline", by_exchanges, -1}, {"calls", by_calls, -1},
#ifdef WITH_CK
    {"mcs", by_mcs, -1},
#endif
};

/* The processors of a domain with one spinlock; they stand on two sockets in turn. */
static int opens(int family, long threads) {
    static qlock_cpu made[MOST];
    const uint8_t kinds[1] = {QLOCK_SPIN};
    uint32_t sockets[MOST] = {0};
    for (long i = 0; i < threads; i++) {
        sockets[i] = i % 2;
    }
    if (qlock_open(family, kinds, 1, sockets, threads, family == QLOCK_PV ? SPINS : THRESHOLD, made, threads) != QLOCK_DONE) {
        return 0;
    }
    for (long i = 0; i < threads; i++) {
        seats[i].cpu = made[i];
    }
    return 1;
}

static long race(void *(*runs)(void *), long threads) {
    pthread_t made[MOST];
    struct timespec began, ended;
    clock_gettime(CLOCK_MONOTONIC, &began);
    for (long i = 0; i < threads; i++) {
        if (pthread_create(&made[i], NULL, runs, (void *)i) != 0) {
            abort();
        }
    }
    for (long i = 0; i < threads; i++) {
        pthread_join(made[i], NULL);
    }
    clock_gettime(CLOCK_MONOTONIC, &ended);
    return (ended.tv_sec - began.tv_sec) * 1000000 + (ended.tv_nsec - began.tv_nsec) / 1000;
}

int main(int argc, char **argv) {
    long threads = argc == 5 ? atol(argv[3]) : 0;
    turns = argc == 5 ? atol(argv[4]) : 0;
    works = argc == 5 && strcmp(argv[2], "work") == 0;
    for (size_t i = 0; 0 < threads && threads <= MOST && 0 < turns && i < sizeof locks / sizeof *locks; i++) {
        if (strcmp(argv[1], locks[i].name) != 0) {
            continue;
        }
        pthread_mutex_init(&posix.mutex, NULL);
        pthread_spin_init(&posix.spin, PTHREAD_PROCESS_PRIVATE);
        if (locks[i].family >= 0 && !opens(locks[i].family, threads)) {
            return 1;
        }
        long took = race(locks[i].runs, threads);
        long wanted = works ? threads * turns : 0;
        puts(value.a == wanted && value.b == wanted ? "right" : "wrong");
        fprintf(stderr, "%ld microseconds\n", took);
        return value.a != wanted || value.b != wanted;
    }
    fputs("library: LOCK bare|work THREADS TURNS\n", stderr);
    return 2;
}
