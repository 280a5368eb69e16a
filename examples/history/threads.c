/*
 * Threads that come and go, and more locks than a history has: what qlock_history.h has to be right for (run-libraries).
 *
 * threads NAME starts twenty times seventy threads, of which each takes and releases mutexes, writes the histories while some of them record,
 * and once all have ended. The histories have no more processors than there are threads at once.
 */
#include <pthread.h>
#include <sched.h>
#include "qlock_history.h"

enum { LOCKS = 100, WAVES = 20, THREADS = 70, ROUNDS = 20, MORE = 500 };

static pthread_mutex_t locks[LOCKS];
static int numbers[LOCKS];

/* Whether histories are written while these threads record. They make more rounds, so that there is something to record. */
static int is_watched(int wave)
{
	return wave % 10 == 5;
}

static void *work(void *number)
{
	int rounds = is_watched((int)(intptr_t)number / THREADS) ? MORE : ROUNDS;

	for (int round = 0; round < rounds; round++) {
		int lock = ((int)(intptr_t)number * 7 + round * 13) % LOCKS;

		pthread_mutex_lock(&locks[lock]);
		history_note(numbers[lock], "take", "fast");
		if (round % 5 == 0)
			sched_yield(); /* the critical section */
		history_note(numbers[lock], "release", NULL);
		pthread_mutex_unlock(&locks[lock]);
	}
	return NULL;
}

static void wave(int number, const char *name)
{
	pthread_t threads[THREADS];
	uint64_t half = history.last + THREADS * MORE;
	char path[4096];

	for (int thread = 0; thread < THREADS; thread++)
		if (pthread_create(&threads[thread], NULL, work, (void *)(intptr_t)(number * THREADS + thread)))
			exit(1);
	if (is_watched(number)) {
		while (history.last < half)
			sched_yield();
		if (snprintf(path, sizeof(path), "%s-%d", name, number) >= (int)sizeof(path))
			exit(1);
		history_write(path);
	}
	for (int thread = 0; thread < THREADS; thread++)
		pthread_join(threads[thread], NULL);
}

int main(int count, char **words)
{
	if (count != 2)
		return 2;
	for (int lock = 0; lock < LOCKS; lock++) {
		pthread_mutex_init(&locks[lock], NULL);
		numbers[lock] = history_lock("spin");
	}
	for (int number = 0; number < WAVES; number++)
		wave(number, words[1]);
	history_write(words[1]);
	return 0;
}
