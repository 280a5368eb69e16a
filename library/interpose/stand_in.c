/* Domains in place of mutexes.
 *
 * A mutex gets a domain of its own when it is first used: one lock, and as many processors as it is to have
 * seats. A thread takes a seat for as long as it waits for the mutex or has it. So threads may come and go,
 * there may be more of them than seats, a thread may have any number of mutexes, and may free them in any
 * order: a seat knows one mutex alone. Whoever finds no seat free waits for one, which comes: each seat
 * belongs to a thread that wants or has this very mutex. Were a domain shared by several mutexes, that
 * would be a new way to deadlock.
 *
 * The pointer to what stands in for a mutex lies in the mutex itself, in the two words that the C library
 * has for lists of robust mutexes. A mutex that is made, statically or by pthread_mutex_init, has zeros
 * there. One that was copied has the pointer of another, and is told by its address.
 */
#include "stand_in.h"
#include "counts.h"
#include "heap.h"
#include "qlock_sleep.h"
#include "setup.h"
#include <errno.h>
#include <sched.h>
#include <stdatomic.h>
#include <stdint.h>
#include <string.h>
#include <sys/syscall.h>
#include <time.h>
#include <unistd.h>

/* The threshold is that of `cna`, and in `pv` for how many turns a waiter spins. */
enum { NOBODY = -1, BUCKETS = 4096, THRESHOLD = 64 };

/* Looks with a pause, and looks with a yield, before those with a sleep of so many nanoseconds; and how long
 * a yield takes where the processors are in demand. */
enum { PAUSES = 32, YIELDS = 1024, SLEEP = 50000, LONG = 200000 };

struct seat {
    _Alignas(HEAP_LINE) qlock_cpu cpu;
    qlock_bed bed; /* where its thread sleeps that has halted */
};

struct stand_in {
    _Atomic(pthread_mutex_t *) mutex; /* for which it stands in; NULL: for none */
    _Atomic uint64_t taken;           /* a bit for each seat that a thread has */
    atomic_int holder;                /* the seat that has the lock, written under the lock */
    atomic_uint born;                 /* the generation that opened its domain */
    struct stand_in *next;            /* in its bucket, or of those that are spare */
    struct seat seats[];
};

_Static_assert(sizeof((pthread_mutex_t *)0)->__data.__list == 2 * sizeof(void *),
               "the C library keeps two words for lists of robust mutexes");

/* Guards what follows, and the heap. It is recursive because a fork holds it (below) while the program's
 * own handlers run, which may use a mutex for the first time. */
static pthread_mutex_t registry = PTHREAD_RECURSIVE_MUTEX_INITIALIZER_NP;
static struct stand_in *buckets[BUCKETS];
static struct stand_in *spare;

/* Rises in each forked child, whose domains are all opened anew. */
static atomic_uint generation;

/* Stands for all mutexes that got no memory, and are left to pthreads for good. */
static struct stand_in none;

static _Atomic(struct stand_in *) *slot(pthread_mutex_t *mutex)
{
    return (void *)&mutex->__data.__list;
}

static struct stand_in **bucket(pthread_mutex_t *mutex)
{
    return &buckets[((uintptr_t)mutex >> 3) * 0x9e3779b97f4a7c15u >> 52];
}

static uint64_t bit(int seat)
{
    return (uint64_t)1 << seat;
}

static void must_be_done(const char *call, uint32_t answer)
{
    if (answer != QLOCK_DONE)
        give_up(call, answer);
}

/* Yields, and says whether that took long. On a busy machine it takes a turn of each other thread, and the
 * thread that comes back is behind them again; a thread that sleeps soon has its processor. */
static bool yields_for_long(void)
{
    struct timespec began, now;
    clock_gettime(CLOCK_MONOTONIC, &began);
    sched_yield();
    clock_gettime(CLOCK_MONOTONIC, &now);
    return now.tv_sec != began.tv_sec || now.tv_nsec - began.tv_nsec > LONG;
}

/* First pauses, since the holder may be about to free the mutex; then yields, since it may not run, as
 * where there are more threads than processors; and at last sleeps, so that a mutex that is held for long
 * costs little. By the system call itself, because the C library's function is a point of cancellation,
 * and pthread_mutex_lock is none. */
void rest(void *data)
{
    static const struct timespec sleep = {0, SLEEP};
    unsigned *times = data;
    int had = errno;
    if (*times < PAUSES)
        qlock_pause(NULL);
    else if (*times < PAUSES + YIELDS && yields_for_long())
        *times = PAUSES + YIELDS;
    else if (*times >= PAUSES + YIELDS)
        syscall(SYS_clock_nanosleep, CLOCK_MONOTONIC, 0, &sleep, NULL);
    if (*times < PAUSES + YIELDS)
        ++*times;
    errno = had;
}

/* Opens a domain at the seats, which were never used or are given up with all that they have. */
static bool opens(struct stand_in *s)
{
    static const uint8_t kinds[1] = {QLOCK_SPIN};
    uint32_t sockets[MOST_SEATS];
    qlock_cpu cpus[MOST_SEATS];
    memset(cpus, 0, sizeof cpus);
    for (unsigned i = 0; i < setup.seats; i++)
        sockets[i] = i % setup.sockets;
    uint32_t answer = qlock_open(setup.family, kinds, 1, sockets, setup.seats, THRESHOLD, cpus,
                                 setup.seats);
    if (answer == QLOCK_MEMORY)
        return false;
    must_be_done("qlock_open", answer);
    count(DOMAINS);
    for (unsigned i = 0; i < setup.seats; i++)
        s->seats[i].cpu = cpus[i];
    atomic_store(&s->taken, 0);
    atomic_store(&s->born, atomic_load(&generation));
    return true;
}

/* In a forked child: a new domain, and the mutex is taken if it was.
 *
 * Of the old domain nothing is kept. Threads that are not in the child may have been in the middle of a
 * call, and may stand in its queue. But `holder` is good: if the thread that forked has the mutex, it wrote
 * that itself. If another thread had it, nobody in the child will free it, as with pthreads. A thread that
 * had the lock and had not written so has changed nothing under it; and one that was about to free it, and
 * had written so, has changed all. In both cases the mutex is free. */
static void renews(struct stand_in *s)
{
    bool was_taken = atomic_load(&s->holder) != NOBODY;
    if (!opens(s))
        give_up("no memory for a domain in a forked child", 0);
    if (was_taken) {
        must_be_done("qlock_begin", qlock_begin(&s->seats[0].cpu, 0));
        atomic_store(&s->holder, 0);
        atomic_store(&s->taken, bit(0));
    }
}

static bool is_old(struct stand_in *s)
{
    return atomic_load(&s->born) != atomic_load(&generation);
}

/* A new one, for no mutex yet, or NULL. */
static struct stand_in *makes(void)
{
    struct stand_in *s = spare;
    if (s) {
        spare = s->next;
        if (is_old(s))
            renews(s);
        return s;
    }
    s = heap_cut(sizeof *s + setup.seats * sizeof(struct seat));
    if (!s)
        return NULL;
    atomic_store(&s->holder, NOBODY);
    return opens(s) ? s : NULL;
}

static void leaves_bucket(struct stand_in *s, pthread_mutex_t *mutex)
{
    struct stand_in **at = bucket(mutex);
    while (*at && *at != s)
        at = &(*at)->next;
    if (*at)
        *at = s->next;
    atomic_store(&s->mutex, NULL);
}

/* What stood in for an earlier mutex at this address, whose memory was made anew, so that it serves again:
 * programs in C++ make a mutex on the stack, and never destroy it. If it is held, nobody will free it: so
 * a forked child makes the mutexes anew that its parent locked before the fork. If others wait besides,
 * which no correct program does, it is given up. */
static struct stand_in *of_address(pthread_mutex_t *mutex)
{
    struct stand_in *s = *bucket(mutex);
    while (s && atomic_load(&s->mutex) != mutex)
        s = s->next;
    if (!s)
        return NULL;
    if (is_old(s))
        renews(s);
    int holder = atomic_load(&s->holder);
    if (holder == NOBODY || (atomic_load(&s->taken) == bit(holder) && give(s)))
        return s;
    leaves_bucket(s, mutex);
    return NULL;
}

/* Under the registry's lock, for a mutex that has no pointer, or a wrong one. */
static struct stand_in *adopts(pthread_mutex_t *mutex)
{
    struct stand_in *s = of_address(mutex);
    if (!s) {
        s = makes();
        if (!s) {
            tell_once(NO_MEMORY);
            return &none;
        }
        atomic_store(&s->mutex, mutex);
        s->next = *bucket(mutex);
        *bucket(mutex) = s;
    }
    return s;
}

/* Whether it may be used for this mutex, as it is. */
static bool is_good(struct stand_in *s, pthread_mutex_t *mutex)
{
    return s == &none || (s && atomic_load(&s->mutex) == mutex && !is_old(s));
}

/* One thread at a time, so two that use a new mutex get the same. */
static struct stand_in *makes_good(pthread_mutex_t *mutex)
{
    real.mutex_lock(&registry);
    struct stand_in *s = atomic_load(slot(mutex));
    if (!is_good(s, mutex)) {
        if (s && atomic_load(&s->mutex) == mutex)
            renews(s);
        else
            s = adopts(mutex);
        atomic_store(slot(mutex), s);
    }
    real.mutex_unlock(&registry);
    return s;
}

struct stand_in *stand_in_of(pthread_mutex_t *mutex)
{
    struct stand_in *s = atomic_load(slot(mutex));
    if (!is_good(s, mutex))
        s = makes_good(mutex);
    return s == &none ? NULL : s;
}

/* Takes a seat, if one is free: on the thread's socket first, so that `cna` knows who is near. From here
 * until it leaves the seat, this thread alone makes calls on its handle. The exchanges on `taken` are
 * sequentially consistent, which is what the library asks of a handle that goes from thread to thread. */
static int sits(struct stand_in *s)
{
    uint64_t had = atomic_load(&s->taken);
    for (;;) {
        uint64_t free = setup.all & ~had, near = free & setup.near[socket_now()];
        if (!free)
            return NOBODY;
        int seat = __builtin_ctzll(near ? near : free);
        if (atomic_compare_exchange_weak(&s->taken, &had, had | bit(seat)))
            return seat;
    }
}

static void leaves(struct stand_in *s, int seat)
{
    atomic_fetch_and(&s->taken, ~bit(seat));
}

/* The lock is this thread's. That nobody else has it is the library's promise, and looked at here. */
static void comes_to_hold(struct stand_in *s, int seat)
{
    int other = atomic_load_explicit(&s->holder, memory_order_relaxed);
    if (other != NOBODY)
        give_up("two threads have one mutex: seats by 64", other * 64 + seat);
    atomic_store_explicit(&s->holder, seat, memory_order_relaxed);
    count(TAKEN);
}

static int sits_at_last(struct stand_in *s)
{
    unsigned times = 0;
    int seat = sits(s);
    while (seat == NOBODY) {
        if (times == 0)
            count(CROWDED);
        tell_once(IS_CROWDED);
        rest(&times);
        seat = sits(s);
    }
    return seat;
}

/* A rest; in `pv` a sleep until the processor is kicked, where it has halted. */
static void rests(struct seat *seat, uint32_t answer, unsigned *times)
{
    if (answer != QLOCK_HALTS) {
        rest(times);
        return;
    }
    int had = errno;
    qlock_sleep(&seat->cpu, &seat->bed);
    errno = had;
}

void take(struct stand_in *s)
{
    unsigned times = 0;
    int seat = sits_at_last(s);
    qlock_cpu *cpu = &s->seats[seat].cpu;
    uint32_t answer = qlock_begin(cpu, 0);
    if (answer == QLOCK_WAITS || answer == QLOCK_HALTS)
        count(WAITED);
    for (; answer == QLOCK_WAITS || answer == QLOCK_HALTS; answer = qlock_poll(cpu))
        rests(&s->seats[seat], answer, &times);
    must_be_done("qlock_begin or qlock_poll", answer);
    comes_to_hold(s, seat);
}

/* If no seat is free, somebody has the mutex or is about to. */
bool try_take(struct stand_in *s)
{
    int seat = sits(s);
    if (seat != NOBODY) {
        uint32_t answer = qlock_try_lock(&s->seats[seat].cpu, 0);
        if (answer == QLOCK_DONE) {
            comes_to_hold(s, seat);
            return true;
        }
        if (answer != QLOCK_BUSY)
            give_up("qlock_try_lock", answer);
        leaves(s, seat);
    }
    count(MISSED);
    return false;
}

/* `holder` is read and written under the lock. Behind the release the mutex itself is not touched: who
 * takes it next may destroy it, and free its memory, while this thread still leaves its seat. The memory of
 * seats stays, so whoever sleeps there can be woken. */
bool give(struct stand_in *s)
{
    int seat = atomic_load_explicit(&s->holder, memory_order_relaxed);
    if (seat == NOBODY)
        return false;
    atomic_store_explicit(&s->holder, NOBODY, memory_order_relaxed);
    uint32_t kicked = QLOCK_NOBODY;
    must_be_done("qlock_unlock_kick", qlock_unlock_kick(&s->seats[seat].cpu, 0, &kicked));
    leaves(s, seat);
    if (kicked != QLOCK_NOBODY)
        qlock_wake(&s->seats[kicked].bed);
    return true;
}

/* A mutex that was never used has none. Threads that freed the mutex before this may still leave their seats.
 * They touch nothing else, so another mutex can have the stand-in: its threads take other seats. */
bool retire(pthread_mutex_t *mutex)
{
    struct stand_in *s = atomic_load(slot(mutex));
    if (!s || s == &none || atomic_load(&s->mutex) != mutex)
        return true;
    s = stand_in_of(mutex);
    if (atomic_load(&s->holder) != NOBODY)
        return false;
    real.mutex_lock(&registry);
    leaves_bucket(s, mutex);
    atomic_store(slot(mutex), NULL);
    s->next = spare;
    spare = s;
    real.mutex_unlock(&registry);
    return true;
}

/* The thread that forks has the registry, so in the child it and the heap are whole. */
void before_fork(void)
{
    real.mutex_lock(&registry);
}

void behind_fork(void)
{
    real.mutex_unlock(&registry);
}

void in_forked_child(void)
{
    static const pthread_mutex_t made = PTHREAD_RECURSIVE_MUTEX_INITIALIZER_NP;
    registry = made;
    atomic_fetch_add(&generation, 1);
}
