/* Checks of forks: a child has the mutexes as the thread that forked left them. */
#include "test.h"
#include <errno.h>
#include <stdatomic.h>
#include <stdlib.h>
#include <sys/mman.h>
#include <sys/resource.h>
#include <unistd.h>

enum { FORKS = 10, STORMING = 3, TURNS = 60, HUNGRY = 2000 };

static pthread_mutex_t mine = PTHREAD_MUTEX_INITIALIZER;
static pthread_mutex_t others = PTHREAD_MUTEX_INITIALIZER;
static pthread_mutex_t free_one = PTHREAD_MUTEX_INITIALIZER;
static pthread_cond_t condition = PTHREAD_COND_INITIALIZER;
static atomic_int is_there, may_go;
static long a, b;

/* Numbers that a child's threads change, as its parent's do. */
static void *adds_in_turn(void *data)
{
    for (int turn = 0; turn < TURNS; turn++) {
        MUST(pthread_mutex_lock(data) == 0);
        MUST(a == b);
        a++;
        if (turn % 32 == 0)
            usleep(1);
        b++;
        MUST(pthread_mutex_unlock(data) == 0);
    }
    return NULL;
}

static void child_works(pthread_mutex_t *mutex)
{
    long before = a;
    pthread_t one = thread_of(adds_in_turn, mutex), two = thread_of(adds_in_turn, mutex);
    join(one);
    join(two);
    MUST(a == before + 2 * TURNS && a == b);
}

static void *holds_others(void *data)
{
    (void)data;
    MUST(pthread_mutex_lock(&others) == 0);
    atomic_store(&is_there, 1);
    while (!atomic_load(&may_go))
        usleep(1000);
    MUST(pthread_mutex_unlock(&others) == 0);
    return NULL;
}

static void *wants_mine(void *data)
{
    (void)data;
    MUST(pthread_mutex_lock(&mine) == 0);
    MUST(pthread_mutex_unlock(&mine) == 0);
    return NULL;
}

/* Never comes back. */
static void child(void)
{
    alarm(60);
    MUST(pthread_mutex_trylock(&mine) == EBUSY);
    MUST(pthread_mutex_trylock(&others) == EBUSY);
    MUST(pthread_mutex_unlock(&mine) == 0);
    child_works(&mine);
    child_works(&free_one);
    MUST(pthread_mutex_init(&others, NULL) == 0);
    child_works(&others);
    MUST(pthread_cond_signal(&condition) == 0);
    _exit(0);
}

/* The forking thread has one mutex, for which others wait, and another thread has another one. */
void forks(void)
{
    MUST(pthread_mutex_lock(&free_one) == 0 && pthread_mutex_unlock(&free_one) == 0);
    MUST(pthread_mutex_lock(&mine) == 0);
    pthread_t holder = thread_of(holds_others, NULL);
    pthread_t one = thread_of(wants_mine, NULL), two = thread_of(wants_mine, NULL);
    while (!atomic_load(&is_there))
        usleep(1000);
    usleep(10000);
    pid_t made = fork();
    if (made == 0)
        child();
    MUST(is_well(made));
    MUST(pthread_mutex_unlock(&mine) == 0);
    atomic_store(&may_go, 1);
    join(holder);
    join(one);
    join(two);
    MUST(tried_by_another(&mine) == 0 && tried_by_another(&others) == 0);
}

static atomic_int storm_ends;

static void *storms(void *data)
{
    bool signals = data != NULL;
    while (!atomic_load(&storm_ends)) {
        if (signals) {
            MUST(pthread_cond_signal(&condition) == 0);
            continue;
        }
        MUST(pthread_mutex_lock(&free_one) == 0);
        MUST(a == b);
        a++;
        b++;
        MUST(pthread_mutex_unlock(&free_one) == 0);
    }
    return NULL;
}

/* Forks while others take and free the mutex, and signal, all the time. The thread that forks has it, as
 * those do who want to use it in the child. */
void forks_in_a_storm(void)
{
    pthread_t threads[STORMING];
    for (int i = 0; i < STORMING; i++)
        threads[i] = thread_of(storms, i == 0 ? &condition : NULL);
    for (int i = 0; i < FORKS; i++) {
        MUST(pthread_mutex_lock(&free_one) == 0);
        pid_t made = fork();
        if (made == 0) {
            alarm(60);
            MUST(pthread_mutex_unlock(&free_one) == 0);
            MUST(pthread_cond_signal(&condition) == 0);
            child_works(&free_one);
            _exit(0);
        }
        MUST(pthread_mutex_unlock(&free_one) == 0);
        MUST(is_well(made));
    }
    atomic_store(&storm_ends, 1);
    for (int i = 0; i < STORMING; i++)
        join(threads[i]);
}

static pthread_mutex_t handled = PTHREAD_MUTEX_INITIALIZER;
static int handles;

static void takes_before(void)
{
    if (handles)
        MUST(pthread_mutex_lock(&handled) == 0);
}

static void frees_behind(void)
{
    if (handles)
        MUST(pthread_mutex_unlock(&handled) == 0);
}

/* As libraries do it: a handler takes the mutex before a fork, for the first time, and frees it behind it.
 * The mutex of two processes is shared by them. */
void fork_handlers(void)
{
    pthread_mutexattr_t shared;
    pthread_mutex_t *both = mmap(NULL, sizeof *both, PROT_READ | PROT_WRITE,
                                 MAP_SHARED | MAP_ANONYMOUS, -1, 0);
    MUST(both != MAP_FAILED && pthread_mutexattr_init(&shared) == 0);
    MUST(pthread_mutexattr_setpshared(&shared, PTHREAD_PROCESS_SHARED) == 0);
    MUST(pthread_mutex_init(both, &shared) == 0 && pthread_mutex_lock(both) == 0);
    MUST(pthread_atfork(takes_before, frees_behind, frees_behind) == 0);
    handles = 1;
    pid_t made = fork();
    if (made == 0) {
        alarm(60);
        MUST(pthread_mutex_trylock(both) == EBUSY);
        MUST(tried_by_another(&handled) == 0);
        child_works(&handled);
        _exit(0);
    }
    handles = 0;
    MUST(is_well(made));
    MUST(pthread_mutex_unlock(both) == 0 && tried_by_another(&handled) == 0);
}

/* The process gets no more memory, behind its first mutex. Those that it uses for the first time then work
 * all the same. */
void no_memory(void)
{
    static pthread_mutex_t m[HUNGRY];
    struct rlimit none = {0, 0};
    MUST(pthread_mutex_lock(&mine) == 0 && pthread_mutex_unlock(&mine) == 0);
    MUST(setrlimit(RLIMIT_AS, &none) == 0);
    for (int i = 0; i < HUNGRY; i++) {
        MUST(pthread_mutex_lock(&m[i]) == 0);
        MUST(pthread_mutex_trylock(&m[i]) == EBUSY);
    }
    for (int i = 0; i < HUNGRY; i++)
        MUST(pthread_mutex_unlock(&m[i]) == 0 && pthread_mutex_destroy(&m[i]) == 0);
}
