/*
 * A lock of one's own, and a history of it for `qlock audit` (docs/AUDIT.md). With -DBUG the lock looks and then stores, and
 * between the two another thread may take it.
 */
#include <pthread.h>
#include <sched.h>
#include <stdatomic.h>
#include "qlock_history.h"

enum { THREADS = 4, ROUNDS = 500 };

/* The lock. */
static atomic_int word;

static void lock(void)
{
#ifdef BUG
	while (atomic_load(&word))
		sched_yield();
	sched_yield(); /* so that another comes between the look and the store now and then */
	atomic_store(&word, 1);
#else
	while (atomic_exchange(&word, 1))
		sched_yield();
#endif
}

static void unlock(void)
{
	atomic_store(&word, 0);
}

/* The history. */
static int number;
static pthread_barrier_t start; /* all begin at once */

static void *work(void *unused)
{
	pthread_barrier_wait(&start);
	for (int round = 0; round < ROUNDS; round++) {
		lock();
		history_note(number, "take", "virt");
		if (round % 8 == 0)
			sched_yield(); /* the critical section */
		history_note(number, "release", NULL);
		unlock();
	}
	return unused;
}

int main(void)
{
	pthread_t threads[THREADS];

	number = history_lock("spin");
	pthread_barrier_init(&start, NULL, THREADS);
	for (int thread = 0; thread < THREADS; thread++)
		if (pthread_create(&threads[thread], NULL, work, NULL))
			return 1;
	for (int thread = 0; thread < THREADS; thread++)
		pthread_join(threads[thread], NULL);
	history_write(NULL);
	return 0;
}
