/* Checks of condition variables, and of mutexes of the other kinds. */
#include "test.h"
#include <errno.h>
#include <time.h>
#include <unistd.h>

enum { ROUNDS = 1500, SIDES = 6, GOODS = 200, ROOM = 4 };

static pthread_mutex_t mutex = PTHREAD_MUTEX_INITIALIZER;
static pthread_cond_t turned[2] = {PTHREAD_COND_INITIALIZER, PTHREAD_COND_INITIALIZER};
static int whose;

static void *plays(void *data)
{
    int side = (int)(long)data;
    MUST(pthread_mutex_lock(&mutex) == 0);
    for (int round = 0; round < ROUNDS; round++) {
        while (whose != side)
            MUST(pthread_cond_wait(&turned[side], &mutex) == 0);
        whose = 1 - side;
        if (round % 2)
            MUST(pthread_cond_signal(&turned[1 - side]) == 0);
        MUST(pthread_mutex_unlock(&mutex) == 0);
        if (round % 2 == 0)
            MUST(pthread_cond_signal(&turned[1 - side]) == 0);
        MUST(pthread_mutex_lock(&mutex) == 0);
    }
    MUST(pthread_mutex_unlock(&mutex) == 0);
    return NULL;
}

/* Two threads take turns. A signal that is lost leaves both waiting. */
void ping_pong(void)
{
    pthread_t other = thread_of(plays, (void *)1L);
    plays((void *)0L);
    join(other);
    MUST(whose == 0);
}

static pthread_cond_t changed = PTHREAD_COND_INITIALIZER;
static int stored, put, got;

static void *puts_goods(void *data)
{
    (void)data;
    for (;;) {
        MUST(pthread_mutex_lock(&mutex) == 0);
        while (stored == ROOM && put < GOODS)
            MUST(pthread_cond_wait(&changed, &mutex) == 0);
        if (put == GOODS)
            break;
        put++;
        stored++;
        MUST(stored <= ROOM);
        MUST(pthread_cond_broadcast(&changed) == 0);
        MUST(pthread_mutex_unlock(&mutex) == 0);
    }
    MUST(pthread_mutex_unlock(&mutex) == 0);
    return NULL;
}

static void *gets_goods(void *data)
{
    (void)data;
    for (;;) {
        MUST(pthread_mutex_lock(&mutex) == 0);
        while (stored == 0 && got < GOODS)
            MUST(pthread_cond_wait(&changed, &mutex) == 0);
        if (got == GOODS)
            break;
        got++;
        stored--;
        MUST(stored >= 0);
        MUST(pthread_cond_broadcast(&changed) == 0);
        MUST(pthread_mutex_unlock(&mutex) == 0);
    }
    MUST(pthread_mutex_unlock(&mutex) == 0);
    return NULL;
}

void queue(void)
{
    pthread_t threads[SIDES];
    for (int i = 0; i < SIDES; i++)
        threads[i] = thread_of(i % 2 ? puts_goods : gets_goods, NULL);
    for (int i = 0; i < SIDES; i++)
        join(threads[i]);
    MUST(put == GOODS && got == GOODS && stored == 0);
}

static pthread_cond_t opened = PTHREAD_COND_INITIALIZER;
static int waiting, is_open;

static void *waits_at_the_gate(void *data)
{
    (void)data;
    MUST(pthread_mutex_lock(&mutex) == 0);
    waiting++;
    while (!is_open)
        MUST(pthread_cond_wait(&opened, &mutex) == 0);
    MUST(pthread_mutex_unlock(&mutex) == 0);
    return NULL;
}

static int all_wait(void)
{
    MUST(pthread_mutex_lock(&mutex) == 0);
    int all = waiting == SIDES;
    is_open = all;
    MUST(pthread_mutex_unlock(&mutex) == 0);
    return all;
}

/* All wait, and one broadcast wakes all. */
void gate(void)
{
    pthread_t threads[SIDES];
    for (int i = 0; i < SIDES; i++)
        threads[i] = thread_of(waits_at_the_gate, NULL);
    while (!all_wait())
        usleep(1000);
    MUST(pthread_cond_broadcast(&opened) == 0);
    for (int i = 0; i < SIDES; i++)
        join(threads[i]);
}

static int waits_until(int clock, long ns)
{
    struct timespec t = in_ns(clock < 0 ? CLOCK_REALTIME : clock, ns);
    if (clock < 0)
        return pthread_cond_timedwait(&changed, &mutex, &t);
    return pthread_cond_clockwait(&changed, &mutex, clock, &t);
}

/* Nobody signals. The mutex is the waiter's before and behind, also where the time is wrong. */
void wait_times_out(void)
{
    static const int clocks[3] = {-1, CLOCK_REALTIME, CLOCK_MONOTONIC};
    struct timespec wrong = {1, SECOND};
    MUST(pthread_mutex_lock(&mutex) == 0);
    for (int i = 0; i < 3; i++) {
        struct timespec began = in_ns(CLOCK_MONOTONIC, 0);
        int answer = 0;
        while (answer == 0)
            answer = waits_until(clocks[i], SECOND / 50);
        MUST(answer == ETIMEDOUT);
        MUST(since(CLOCK_MONOTONIC, &began) >= SECOND / 50);
        MUST(tried_by_another(&mutex) == EBUSY);
    }
    MUST(pthread_cond_timedwait(&changed, &mutex, &wrong) == EINVAL);
    MUST(pthread_cond_clockwait(&changed, &mutex, CLOCK_PROCESS_CPUTIME_ID, &wrong) == EINVAL);
    MUST(tried_by_another(&mutex) == EBUSY);
    MUST(pthread_mutex_unlock(&mutex) == 0);
    MUST(tried_by_another(&mutex) == 0);
}

static int has_waited, was_mine;

static void has_it(void *data)
{
    (void)data;
    was_mine = tried_by_another(&mutex) == EBUSY;
    MUST(pthread_mutex_unlock(&mutex) == 0);
}

static void *waits_for_ever(void *data)
{
    (void)data;
    MUST(pthread_mutex_lock(&mutex) == 0);
    pthread_cleanup_push(has_it, NULL);
    has_waited = 1;
    for (;;)
        pthread_cond_wait(&changed, &mutex);
    pthread_cleanup_pop(1);
    return NULL;
}

/* A thread that is cancelled while it waits has the mutex when its handlers run. */
void cancelled(void)
{
    void *answer;
    pthread_t other = thread_of(waits_for_ever, NULL);
    for (int is_there = 0; !is_there; usleep(1)) {
        MUST(pthread_mutex_lock(&mutex) == 0);
        is_there = has_waited;
        MUST(pthread_mutex_unlock(&mutex) == 0);
    }
    MUST(pthread_cancel(other) == 0);
    MUST(pthread_join(other, &answer) == 0 && answer == PTHREAD_CANCELED);
    MUST(was_mine);
    MUST(tried_by_another(&mutex) == 0);
    MUST(pthread_cond_signal(&changed) == 0);
}

static void *takes_and_dies(void *data)
{
    MUST(pthread_mutex_lock(data) == 0);
    return NULL;
}

static void of_kind(pthread_mutex_t *made, int kind, int robust, int protocol)
{
    pthread_mutexattr_t a;
    MUST(pthread_mutexattr_init(&a) == 0 && pthread_mutexattr_settype(&a, kind) == 0);
    MUST(pthread_mutexattr_setrobust(&a, robust) == 0);
    MUST(pthread_mutexattr_setprotocol(&a, protocol) == 0);
    MUST(pthread_mutex_init(made, &a) == 0 && pthread_mutexattr_destroy(&a) == 0);
}

/* What the interposer leaves to pthreads. */
void other_kinds(void)
{
    static const struct timespec past = {1, 0};
    pthread_mutex_t m;
    of_kind(&m, PTHREAD_MUTEX_RECURSIVE, PTHREAD_MUTEX_STALLED, PTHREAD_PRIO_NONE);
    MUST(pthread_mutex_lock(&m) == 0 && pthread_mutex_lock(&m) == 0);
    MUST(pthread_mutex_trylock(&m) == 0);
    MUST(pthread_mutex_unlock(&m) == 0 && pthread_mutex_unlock(&m) == 0);
    MUST(tried_by_another(&m) == EBUSY);
    MUST(pthread_cond_timedwait(&changed, &m, &past) == ETIMEDOUT);
    MUST(pthread_mutex_unlock(&m) == 0 && pthread_mutex_destroy(&m) == 0);

    of_kind(&m, PTHREAD_MUTEX_ERRORCHECK, PTHREAD_MUTEX_STALLED, PTHREAD_PRIO_NONE);
    MUST(pthread_mutex_unlock(&m) == EPERM);
    MUST(pthread_mutex_lock(&m) == 0 && pthread_mutex_lock(&m) == EDEADLK);
    MUST(pthread_mutex_unlock(&m) == 0 && pthread_mutex_destroy(&m) == 0);

    of_kind(&m, PTHREAD_MUTEX_NORMAL, PTHREAD_MUTEX_ROBUST, PTHREAD_PRIO_NONE);
    join(thread_of(takes_and_dies, &m));
    MUST(pthread_mutex_lock(&m) == EOWNERDEAD && pthread_mutex_consistent(&m) == 0);
    MUST(pthread_mutex_unlock(&m) == 0 && pthread_mutex_destroy(&m) == 0);

    of_kind(&m, PTHREAD_MUTEX_NORMAL, PTHREAD_MUTEX_STALLED, PTHREAD_PRIO_INHERIT);
    MUST(pthread_mutex_lock(&m) == 0 && tried_by_another(&m) == EBUSY);
    MUST(pthread_mutex_unlock(&m) == 0 && pthread_mutex_destroy(&m) == 0);
}
