/* Checks of mutexes. */
#include "test.h"
#include <errno.h>
#include <limits.h>
#include <signal.h>
#include <stdlib.h>
#include <string.h>
#include <sys/resource.h>
#include <time.h>
#include <unistd.h>

enum { KINDS = 3, THREADS = 6, TURNS = 600, CROWD = 100, MANY = 600 };

static pthread_mutex_t statics[KINDS] = {
    PTHREAD_MUTEX_INITIALIZER, PTHREAD_ADAPTIVE_MUTEX_INITIALIZER_NP, PTHREAD_MUTEX_INITIALIZER};

/* Two numbers under a mutex, which are equal whenever nobody has it. */
struct pair {
    pthread_mutex_t *mutex;
    long a, b;
};

/* Others run meanwhile, now and then, so that they wait for the mutex. */
static void adds(struct pair *p)
{
    MUST(p->a == p->b);
    p->a++;
    if (p->a % 16 == 0)
        usleep(1);
    p->b++;
}

static void takes_somehow(pthread_mutex_t *mutex, int turn)
{
    struct timespec t = in_ns(CLOCK_REALTIME, 60L * SECOND);
    if (turn % 16 == 0) {
        MUST(pthread_mutex_timedlock(mutex, &t) == 0);
        return;
    }
    int answer = turn % 3 ? EBUSY : pthread_mutex_trylock(mutex);
    MUST(answer == 0 || answer == EBUSY);
    if (answer == EBUSY)
        MUST(pthread_mutex_lock(mutex) == 0);
}

static void *adds_often(void *data)
{
    struct pair *pairs = data;
    for (int turn = 0; turn < TURNS; turn++) {
        struct pair *p = &pairs[turn % KINDS];
        takes_somehow(p->mutex, turn);
        adds(p);
        MUST(pthread_mutex_unlock(p->mutex) == 0);
    }
    return NULL;
}

void counters(void)
{
    struct pair pairs[KINDS] = {{&statics[0], 0, 0}, {&statics[1], 0, 0}, {&statics[2], 0, 0}};
    pthread_t threads[THREADS];
    for (int i = 0; i < THREADS; i++)
        threads[i] = thread_of(adds_often, pairs);
    for (int i = 0; i < THREADS; i++)
        join(threads[i]);
    for (int i = 0; i < KINDS; i++)
        MUST(pairs[i].a == THREADS * TURNS / KINDS && pairs[i].b == pairs[i].a);
}

void tries(void)
{
    pthread_mutex_t mutex;
    MUST(pthread_mutex_init(&mutex, NULL) == 0);
    MUST(tried_by_another(&mutex) == 0);
    MUST(pthread_mutex_trylock(&mutex) == 0);
    for (int i = 0; i < CROWD; i++)
        MUST(pthread_mutex_trylock(&mutex) == EBUSY);
    MUST(tried_by_another(&mutex) == EBUSY);
    MUST(pthread_mutex_destroy(&mutex) == EBUSY);
    MUST(pthread_mutex_unlock(&mutex) == 0);
    MUST(tried_by_another(&mutex) == 0);
    MUST(pthread_mutex_destroy(&mutex) == 0);
}

static int in_time(pthread_mutex_t *mutex, int clock, long ns)
{
    if (clock < 0) {
        struct timespec t = in_ns(CLOCK_REALTIME, ns);
        return pthread_mutex_timedlock(mutex, &t);
    }
    struct timespec t = in_ns(clock, ns);
    return pthread_mutex_clocklock(mutex, clock, &t);
}

struct timed {
    pthread_mutex_t mutex;
    int clock;
};

static void *comes_too_late(void *data)
{
    struct timed *t = data;
    struct timespec began = in_ns(CLOCK_MONOTONIC, 0), wrong = {1, SECOND};
    MUST(in_time(&t->mutex, t->clock, SECOND / 50) == ETIMEDOUT);
    long took = since(CLOCK_MONOTONIC, &began);
    MUST(SECOND / 50 <= took && took < 30L * SECOND);
    MUST(pthread_mutex_timedlock(&t->mutex, &wrong) == EINVAL);
    MUST(pthread_mutex_clocklock(&t->mutex, CLOCK_PROCESS_CPUTIME_ID, &began) == EINVAL);
    return NULL;
}

static void *comes_in_time(void *data)
{
    struct timed *t = data;
    MUST(in_time(&t->mutex, t->clock, 100L * SECOND) == 0);
    MUST(pthread_mutex_unlock(&t->mutex) == 0);
    return NULL;
}

void times_out(void)
{
    static const int clocks[3] = {-1, CLOCK_REALTIME, CLOCK_MONOTONIC};
    for (int i = 0; i < 3; i++) {
        struct timed t = {PTHREAD_MUTEX_INITIALIZER, clocks[i]};
        MUST(in_time(&t.mutex, t.clock, -10) == 0);
        join(thread_of(comes_too_late, &t));
        pthread_t second = thread_of(comes_in_time, &t);
        usleep(20000);
        MUST(pthread_mutex_unlock(&t.mutex) == 0);
        join(second);
        MUST(pthread_mutex_destroy(&t.mutex) == 0);
    }
}

/* One thread has a hundred mutexes, and frees them in orders other than that of taking. */
void any_order(void)
{
    static pthread_mutex_t m[CROWD];
    for (int round = 0; round < 4; round++) {
        for (int i = 0; i < CROWD; i++) {
            MUST(round > 0 || pthread_mutex_init(&m[i], NULL) == 0);
            MUST(pthread_mutex_lock(&m[i]) == 0);
        }
        MUST(tried_by_another(&m[CROWD / 2]) == EBUSY);
        for (int i = 0; i < CROWD; i++) {
            int which = round == 0 ? i : round == 1 ? CROWD - 1 - i : i * 37 % CROWD;
            MUST(pthread_mutex_unlock(&m[which]) == 0);
            MUST(pthread_mutex_trylock(&m[which]) == 0);
            MUST(pthread_mutex_unlock(&m[which]) == 0);
        }
    }
    for (int i = 0; i < CROWD; i++)
        MUST(pthread_mutex_destroy(&m[i]) == 0);
}

static struct pair many[MANY];
static pthread_mutex_t many_of[MANY];

static void *visits(void *data)
{
    unsigned at = (unsigned)(long)data;
    for (int turn = 0; turn < 40; turn++) {
        at = at * 1103515245 + 12345;
        struct pair *p = &many[(at >> 8) % MANY];
        MUST(pthread_mutex_lock(p->mutex) == 0);
        adds(p);
        MUST(pthread_mutex_unlock(p->mutex) == 0);
    }
    return NULL;
}

/* Threads come and go, four at a time. */
void many_mutexes(void)
{
    long sum = 0;
    for (int i = 0; i < MANY; i++) {
        many[i].mutex = &many_of[i];
        MUST(pthread_mutex_init(many[i].mutex, NULL) == 0);
    }
    for (long i = 0; i < 400; i += 4) {
        pthread_t threads[4];
        for (long k = 0; k < 4; k++)
            threads[k] = thread_of(visits, (void *)(i + k));
        for (long k = 0; k < 4; k++)
            join(threads[k]);
    }
    for (int i = 0; i < MANY; i++) {
        MUST(many[i].a == many[i].b);
        sum += many[i].a;
        MUST(pthread_mutex_destroy(many[i].mutex) == 0);
    }
    MUST(sum == 400 * 40);
}

static void *adds_a_little(void *data)
{
    struct pair *p = data;
    for (int turn = 0; turn < 8; turn++) {
        MUST(pthread_mutex_lock(p->mutex) == 0);
        adds(p);
        MUST(pthread_mutex_unlock(p->mutex) == 0);
    }
    return NULL;
}

/* A hundred threads want one mutex at once: it was held until all of them were there. */
void crowd(void)
{
    pthread_mutex_t mutex = PTHREAD_MUTEX_INITIALIZER;
    struct pair p = {&mutex, 0, 0};
    pthread_t threads[CROWD];
    MUST(pthread_mutex_lock(&mutex) == 0);
    for (int i = 0; i < CROWD; i++)
        threads[i] = thread_of(adds_a_little, &p);
    usleep(20000);
    MUST(pthread_mutex_unlock(&mutex) == 0);
    for (int i = 0; i < CROWD; i++)
        join(threads[i]);
    MUST(p.a == 8 * CROWD && p.b == p.a);
    MUST(pthread_mutex_destroy(&mutex) == 0);
}

static int turn_of_a_new_one(int turn)
{
    pthread_mutex_t fresh = PTHREAD_MUTEX_INITIALIZER;
    int answer = pthread_mutex_trylock(&fresh);
    if (turn % 2 == 0)
        answer |= pthread_mutex_unlock(&fresh);
    return answer;
}

/* Destroyed and made anew; and on the stack, statically, and never destroyed, half of them held at the end.
 * Of each the memory of one is enough. */
void made_anew(void)
{
    struct rusage before, behind;
    pthread_mutex_t mutex;
    getrusage(RUSAGE_SELF, &before);
    for (int turn = 0; turn < 5000; turn++) {
        memset(&mutex, 0xa5, sizeof mutex);
        MUST(pthread_mutex_init(&mutex, NULL) == 0);
        MUST(pthread_mutex_lock(&mutex) == 0);
        MUST(pthread_mutex_unlock(&mutex) == 0);
        MUST(pthread_mutex_destroy(&mutex) == 0);
        MUST(turn_of_a_new_one(turn) == 0);
    }
    getrusage(RUSAGE_SELF, &behind);
    MUST(behind.ru_maxrss - before.ru_maxrss < 4096);
}

enum { POISON = 0xa5 };

struct counted {
    pthread_mutex_t mutex;
    int users;
};

/* POSIX: who frees a mutex last may destroy it, though others are still on their way out of unlock. Its
 * memory is another's from then on. */
static void *drops(void *data)
{
    struct counted *c = data;
    MUST(pthread_mutex_lock(&c->mutex) == 0);
    int left = --c->users;
    MUST(pthread_mutex_unlock(&c->mutex) == 0);
    if (left == 0) {
        MUST(pthread_mutex_destroy(&c->mutex) == 0);
        memset(c, POISON, sizeof *c);
    }
    return NULL;
}

void last_one_destroys(void)
{
    for (int turn = 0; turn < 500; turn++) {
        struct counted c = {.users = 3};
        const unsigned char *bytes = (void *)&c;
        MUST(pthread_mutex_init(&c.mutex, NULL) == 0);
        pthread_t first = thread_of(drops, &c), second = thread_of(drops, &c);
        drops(&c);
        join(first);
        join(second);
        for (size_t i = 0; i < sizeof c; i++)
            MUST(bytes[i] == POISON);
    }
}

/* A mutex that was used, and is free, is copied: the two are two. */
void copied(void)
{
    pthread_mutex_t one = PTHREAD_MUTEX_INITIALIZER, two;
    MUST(pthread_mutex_lock(&one) == 0 && pthread_mutex_unlock(&one) == 0);
    two = one;
    MUST(pthread_mutex_lock(&one) == 0);
    MUST(pthread_mutex_trylock(&two) == 0);
    MUST(pthread_mutex_unlock(&one) == 0);
    MUST(tried_by_another(&two) == EBUSY);
    MUST(pthread_mutex_unlock(&two) == 0);
}

static void *takes_and_ends(void *data)
{
    MUST(pthread_mutex_lock(data) == 0);
    return NULL;
}

/* What a thread had at its end stays taken. In the C library another thread can free it. */
void ended_thread(void)
{
    pthread_mutex_t mutex = PTHREAD_MUTEX_INITIALIZER;
    join(thread_of(takes_and_ends, &mutex));
    MUST(tried_by_another(&mutex) == EBUSY);
    MUST(pthread_mutex_unlock(&mutex) == 0);
    MUST(tried_by_another(&mutex) == 0);
}

/* A thread with the smallest stack uses a mutex for the first time. */
void small_stacks(void)
{
    pthread_attr_t small;
    pthread_mutex_t mutex = PTHREAD_MUTEX_INITIALIZER;
    pthread_t made;
    MUST(pthread_attr_init(&small) == 0);
    MUST(pthread_attr_setstacksize(&small, PTHREAD_STACK_MIN) == 0);
    MUST(pthread_create(&made, &small, takes_and_ends, &mutex) == 0);
    join(made);
    MUST(pthread_mutex_unlock(&mutex) == 0);
    MUST(pthread_attr_destroy(&small) == 0);
}

static void *waits_long(void *data)
{
    errno = ERANGE;
    MUST(pthread_mutex_lock(data) == 0);
    MUST(errno == ERANGE);
    MUST(pthread_mutex_unlock(data) == 0);
    return NULL;
}

static void does_nothing(int number)
{
    (void)number;
}

/* Signals come while it waits, so that a sleep of whoever waits ends early, and says so in errno. */
void errno_stays(void)
{
    pthread_mutex_t mutex = PTHREAD_MUTEX_INITIALIZER;
    struct sigaction action = {.sa_handler = does_nothing};
    MUST(sigaction(SIGUSR1, &action, NULL) == 0);
    MUST(pthread_mutex_lock(&mutex) == 0);
    pthread_t second = thread_of(waits_long, &mutex);
    for (int i = 0; i < 100; i++) {
        usleep(3000);
        MUST(pthread_kill(second, SIGUSR1) == 0);
    }
    MUST(pthread_mutex_unlock(&mutex) == 0);
    join(second);
}
