/* What stands in for a mutex: a domain of the library with one lock, and its seats. */
#ifndef STAND_IN_H
#define STAND_IN_H

#include <pthread.h>
#include <stdbool.h>

struct stand_in;

/* The functions of pthreads that are interposed, as they are without this. */
struct pthreads {
    int (*mutex_lock)(pthread_mutex_t *);
    int (*mutex_trylock)(pthread_mutex_t *);
    int (*mutex_timedlock)(pthread_mutex_t *, const struct timespec *);
    int (*mutex_clocklock)(pthread_mutex_t *, clockid_t, const struct timespec *);
    int (*mutex_unlock)(pthread_mutex_t *);
    int (*mutex_destroy)(pthread_mutex_t *);
    int (*cond_wait)(pthread_cond_t *, pthread_mutex_t *);
    int (*cond_timedwait)(pthread_cond_t *, pthread_mutex_t *, const struct timespec *);
    int (*cond_clockwait)(pthread_cond_t *, pthread_mutex_t *, clockid_t, const struct timespec *);
    int (*cond_signal)(pthread_cond_t *);
    int (*cond_broadcast)(pthread_cond_t *);
};
extern struct pthreads real;

/* What stands in for a mutex, made at its first use; NULL if it is left to pthreads. The mutex is not of a
 * kind that is left to them. */
struct stand_in *stand_in_of(pthread_mutex_t *mutex);

/* Takes the mutex, and waits as long as it takes. */
void take(struct stand_in *s);

/* Takes the mutex if it is free and nobody waits. */
bool try_take(struct stand_in *s);

/* Frees the mutex. False: nobody has it. */
bool give(struct stand_in *s);

/* The mutex ends. False: somebody has it. */
bool retire(pthread_mutex_t *mutex);

/* A rest between two looks; `data` is an unsigned that counts them. */
void rest(void *data);

/* What holds around a fork, of this file's own. */
void before_fork(void);
void behind_fork(void);
void in_forked_child(void);

#endif
