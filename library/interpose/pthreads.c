/* Mutexes and condition variables of pthreads over the library, by LD_PRELOAD.
 *
 * A mutex that fits is never locked in pthreads: what keeps threads apart is the library alone. A mutex
 * that does not fit is pthreads' alone. Which of the two it is can be told from the mutex at any time, since
 * its kind never changes while it is in use.
 *
 * A condition variable stays pthreads' own, with a mutex of this file in the place of the program's, its
 * shadow. A thread that waits has the shadow from before it frees its mutex until pthreads has it among
 * those that wait. A thread that signals takes the shadow. So no signal comes between the two: one that
 * comes when the mutex was free finds the thread waiting. The shadow is one of a few, by the address of the
 * condition variable. With a shadow in hand nothing is waited for but pthreads' own wait, which frees it,
 * so nobody holds one for long, and it adds no deadlock.
 */
#include "counts.h"
#include "setup.h"
#include "stand_in.h"
#include <dlfcn.h>
#include <errno.h>
#include <pthread.h>
#include <sched.h>
#include <stdatomic.h>
#include <stdint.h>
#include <string.h>
#include <time.h>

#define EXPORT __attribute__((visibility("default")))

enum { SHADOWS = 256, BILLION = 1000000000 };

/* The bits of a mutex's kind in the C library. Those above say how its hardware elision is set. */
enum { TYPE = 3, ROBUST = 16, INHERITS = 32, PROTECTS = 64, SHARED = 128, KIND = 255 };

struct shadow {
    _Alignas(64) pthread_mutex_t mutex;
};

struct pthreads real;
static struct shadow shadows[SHADOWS];
static atomic_bool has_started, is_starting;

static void find(void *place, const char *name)
{
    void *at = dlsym(RTLD_NEXT, name);
    if (!at)
        give_up(name, 0);
    memcpy(place, &at, sizeof at);
}

static void find_all(void)
{
    find(&real.mutex_lock, "pthread_mutex_lock");
    find(&real.mutex_trylock, "pthread_mutex_trylock");
    find(&real.mutex_timedlock, "pthread_mutex_timedlock");
    find(&real.mutex_clocklock, "pthread_mutex_clocklock");
    find(&real.mutex_unlock, "pthread_mutex_unlock");
    find(&real.mutex_destroy, "pthread_mutex_destroy");
    find(&real.cond_wait, "pthread_cond_wait");
    find(&real.cond_timedwait, "pthread_cond_timedwait");
    find(&real.cond_clockwait, "pthread_cond_clockwait");
    find(&real.cond_signal, "pthread_cond_signal");
    find(&real.cond_broadcast, "pthread_cond_broadcast");
}

/* A forked child has one thread, so no shadow is anybody's. */
static void in_child(void)
{
    memset(shadows, 0, sizeof shadows);
    in_forked_child();
}

/* At the first call, which may come before this object's constructor: from that of another. */
static void start(void)
{
    while (atomic_exchange(&is_starting, true))
        sched_yield();
    if (!atomic_load(&has_started)) {
        find_all();
        read_setup();
        atomic_store(&has_started, true);
        pthread_atfork(before_fork, behind_fork, in_child);
    }
    atomic_store(&is_starting, false);
}

__attribute__((constructor)) static void starts(void)
{
    start();
}

/* Why a mutex is left to pthreads, by the bits of the C library's kinds. One that is robust has the bit of
 * those shared by processes too. */
static enum notice why_left(int kind)
{
    if (kind & ROBUST)
        return IS_ROBUST;
    if (kind & (INHERITS | PROTECTS))
        return HAS_PRIORITY;
    if (kind & SHARED)
        return IS_SHARED;
    return (kind & TYPE) == PTHREAD_MUTEX_RECURSIVE_NP ? IS_RECURSIVE : CHECKS_ERRORS;
}

/* Whether it is of a kind that fits. A mutex that was destroyed has -1 there, and pthreads answers. */
static bool fits(pthread_mutex_t *mutex)
{
    if (!atomic_load_explicit(&has_started, memory_order_acquire))
        start();
    int kind = mutex->__data.__kind & KIND;
    return kind == PTHREAD_MUTEX_TIMED_NP || kind == PTHREAD_MUTEX_ADAPTIVE_NP;
}

/* A lock or a try of this mutex goes to pthreads. If its kind fits, the reason was said before. */
static void leave(pthread_mutex_t *mutex)
{
    count(LEFT);
    if (!fits(mutex) && mutex->__data.__kind != -1)
        tell_once(why_left(mutex->__data.__kind));
}

/* What stands in for a mutex; NULL: it is left to pthreads. */
static struct stand_in *interposed(pthread_mutex_t *mutex)
{
    return fits(mutex) ? stand_in_of(mutex) : NULL;
}

EXPORT int pthread_mutex_lock(pthread_mutex_t *mutex)
{
    struct stand_in *s = interposed(mutex);
    if (!s) {
        leave(mutex);
        return real.mutex_lock(mutex);
    }
    take(s);
    return 0;
}

EXPORT int pthread_mutex_trylock(pthread_mutex_t *mutex)
{
    struct stand_in *s = interposed(mutex);
    if (!s) {
        leave(mutex);
        return real.mutex_trylock(mutex);
    }
    return try_take(s) ? 0 : EBUSY;
}

EXPORT int pthread_mutex_unlock(pthread_mutex_t *mutex)
{
    struct stand_in *s = interposed(mutex);
    if (!s)
        return real.mutex_unlock(mutex);
    return give(s) ? 0 : EPERM;
}

EXPORT int pthread_mutex_destroy(pthread_mutex_t *mutex)
{
    if (fits(mutex) && !retire(mutex))
        return EBUSY;
    return real.mutex_destroy(mutex);
}

static bool is_time(const struct timespec *t)
{
    return 0 <= t->tv_nsec && t->tv_nsec < BILLION;
}

static bool is_clock(clockid_t clock)
{
    return clock == CLOCK_REALTIME || clock == CLOCK_MONOTONIC;
}

static bool is_past(clockid_t clock, const struct timespec *t)
{
    struct timespec now;
    clock_gettime(clock, &now);
    return now.tv_sec > t->tv_sec || (now.tv_sec == t->tv_sec && now.tv_nsec >= t->tv_nsec);
}

/* Who waits in a queue can't leave it, so this tries again and again, and those in the queue come first. */
static int take_until(struct stand_in *s, clockid_t clock, const struct timespec *t)
{
    unsigned times = 0;
    while (!try_take(s)) {
        if (!is_time(t))
            return EINVAL;
        if (is_past(clock, t))
            return ETIMEDOUT;
        rest(&times);
    }
    return 0;
}

EXPORT int pthread_mutex_timedlock(pthread_mutex_t *mutex, const struct timespec *t)
{
    struct stand_in *s = interposed(mutex);
    if (!s) {
        leave(mutex);
        return real.mutex_timedlock(mutex, t);
    }
    return take_until(s, CLOCK_REALTIME, t);
}

EXPORT int pthread_mutex_clocklock(pthread_mutex_t *mutex, clockid_t clock,
                                   const struct timespec *t)
{
    struct stand_in *s = interposed(mutex);
    if (!s) {
        leave(mutex);
        return real.mutex_clocklock(mutex, clock, t);
    }
    return is_clock(clock) ? take_until(s, clock, t) : EINVAL;
}

/* How long a thread waits for a condition variable, and what it takes again then. */
struct wait {
    pthread_cond_t *condition;
    struct stand_in *mutex;
    pthread_mutex_t *shadow;
    const struct timespec *until; /* NULL: as long as it takes */
    bool has_clock;               /* `until` is of `clock`, and not of the condition variable's */
    clockid_t clock;
};

static pthread_mutex_t *shadow_of(pthread_cond_t *condition)
{
    return &shadows[((uintptr_t)condition >> 3) * 0x9e3779b97f4a7c15u >> 56].mutex;
}

static int waits(const struct wait *w, pthread_mutex_t *mutex)
{
    if (!w->until)
        return real.cond_wait(w->condition, mutex);
    if (!w->has_clock)
        return real.cond_timedwait(w->condition, mutex, w->until);
    return real.cond_clockwait(w->condition, mutex, w->clock, w->until);
}

/* Also where the thread is cancelled: its own handlers run with the mutex, as POSIX says. */
static void comes_back(void *data)
{
    const struct wait *w = data;
    real.mutex_unlock(w->shadow);
    take(w->mutex);
}

static int wait_for(struct wait *w, pthread_mutex_t *mutex)
{
    int answer;
    w->mutex = interposed(mutex);
    if (!w->mutex)
        return waits(w, mutex);
    if ((w->until && !is_time(w->until)) || (w->has_clock && !is_clock(w->clock)))
        return EINVAL;
    w->shadow = shadow_of(w->condition);
    real.mutex_lock(w->shadow);
    if (!give(w->mutex)) {
        real.mutex_unlock(w->shadow);
        return EPERM;
    }
    count(CONDITIONS);
    pthread_cleanup_push(comes_back, w);
    answer = waits(w, w->shadow);
    pthread_cleanup_pop(1);
    return answer;
}

EXPORT int pthread_cond_wait(pthread_cond_t *condition, pthread_mutex_t *mutex)
{
    struct wait w = {.condition = condition};
    return wait_for(&w, mutex);
}

EXPORT int pthread_cond_timedwait(pthread_cond_t *condition, pthread_mutex_t *mutex,
                                  const struct timespec *until)
{
    struct wait w = {.condition = condition, .until = until};
    return wait_for(&w, mutex);
}

EXPORT int pthread_cond_clockwait(pthread_cond_t *condition, pthread_mutex_t *mutex,
                                  clockid_t clock, const struct timespec *until)
{
    struct wait w = {.condition = condition, .until = until, .has_clock = true, .clock = clock};
    return wait_for(&w, mutex);
}

static int wake(pthread_cond_t *condition, bool all)
{
    if (!atomic_load_explicit(&has_started, memory_order_acquire))
        start();
    pthread_mutex_t *shadow = shadow_of(condition);
    real.mutex_lock(shadow);
    int answer = all ? real.cond_broadcast(condition) : real.cond_signal(condition);
    real.mutex_unlock(shadow);
    return answer;
}

EXPORT int pthread_cond_signal(pthread_cond_t *condition)
{
    return wake(condition, false);
}

EXPORT int pthread_cond_broadcast(pthread_cond_t *condition)
{
    return wake(condition, true);
}
