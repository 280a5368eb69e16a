/* The tests of the interposer, which are programs of pthreads and know nothing of it. */
#ifndef TEST_H
#define TEST_H

#include <pthread.h>
#include <stdbool.h>

/* Ends the test with a line that names the place, if something is not so. */
void must(const char *file, int line, bool is_so);
#define MUST(what) must(__FILE__, __LINE__, (what))

enum { SECOND = 1000000000 };

/* Now, and so many nanoseconds. */
struct timespec in_ns(clockid_t clock, long ns);

/* The nanoseconds since then. */
long since(clockid_t clock, const struct timespec *then);

pthread_t thread_of(void *(*body)(void *), void *data);
void join(pthread_t thread);

/* What a try by another thread answers; if it is 0, the mutex was freed again. */
int tried_by_another(pthread_mutex_t *mutex);

/* Ends a child with a status, and what the parent sees of it: true for 0. */
bool is_well(pid_t child);

/* The checks, in mutex.c, wait.c and fork.c. */
void counters(void);
void tries(void);
void times_out(void);
void any_order(void);
void many_mutexes(void);
void crowd(void);
void made_anew(void);
void last_one_destroys(void);
void copied(void);
void ended_thread(void);
void small_stacks(void);
void errno_stays(void);
void other_kinds(void);
void ping_pong(void);
void queue(void);
void gate(void);
void wait_times_out(void);
void cancelled(void);
void forks(void);
void forks_in_a_storm(void);
void fork_handlers(void);
void no_memory(void);

#endif
