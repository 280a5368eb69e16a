/*
 * Threads that take Linux's own queued spinlocks in user space, and write down what happens as a history for `qlock audit`.
 *
 * Linux's lock code is compiled as conformance/ compiles it: each operation on a shared word is a call of one of the functions
 * below. Each thread stands for a processor. An operation and its event are made under one mutex, so the events stand in the
 * order in which the operations took effect. That is all that a history needs; it says nothing of words or nodes.
 */
#include <pthread.h>
#include <sched.h>
#include <stdint.h>
#include <stdio.h>
#include <stdlib.h>
#include <string.h>
#include "operations.h"

enum { most_threads = 64, most_locks = 32, line_length = 32 };

/* Linux's code, by the names that conformance/shims/entries.c gives it. */
struct lock { uint32_t word; };
void enter_lock(struct lock *lock);
int enter_try(struct lock *lock);
void enter_unlock(struct lock *lock);

static struct lock locks[most_locks];
static long guarded[most_locks]; /* plain numbers, each under its lock */
static int threads, rounds, lock_count;

static pthread_mutex_t order = PTHREAD_MUTEX_INITIALIZER;
static char (*lines)[line_length];
static size_t events, room;

static __thread int processor, lock_now, is_trying;

static void fail(const char *why)
{
	fprintf(stderr, "history: %s\n", why);
	exit(1);
}

/* ---- the history ---- */

/* The next line: who, and what happened to the lock on which it acts. The caller has `order`. */
static void tell(const char *verb, const char *rest)
{
	if (events == room) {
		room = room ? 2 * room : 1024;
		lines = realloc(lines, room * sizeof(*lines));
		if (!lines)
			fail("out of memory");
	}
	snprintf(lines[events++], line_length, "%d.0 %s %d%s", processor, verb, lock_now, rest);
}

static void tell_pass(int next)
{
	char rest[16];

	snprintf(rest, sizeof(rest), " %d.0", next);
	tell("pass", rest);
}

static void print_history(void)
{
	static const char *const counts[] = { "lock_pending", "lock_slowpath", "lock_use_node2", "lock_use_node3", "lock_use_node4",
		"lock_no_node", "pv_lock_stealing", "pv_wait_node", "pv_wait_head", "pv_kick_unlock" };

	printf("qtrace 1\nmode native\ncpus %d\n", threads);
	for (int i = 0; i < lock_count; i++)
		printf("lock %d spin\n", i);
	printf("go\n");
	for (size_t i = 0; i < events; i++)
		printf("%zu %s\n", i + 1, lines[i]);
	printf("end %zu\n", events);
	for (int i = 0; i < 10; i++)
		printf("%s 0\n", counts[i]); /* an audit does not judge them */
}

/* ---- the variables of each processor, of which Linux's code has a template ---- */

extern char __start_conformance_per_cpu[], __stop_conformance_per_cpu[];
static char *copies;

static size_t copy_size(void)
{
	return (__stop_conformance_per_cpu - __start_conformance_per_cpu + 63) / 64 * 64;
}

void *shim_of_processor(const void *template, int of)
{
	return copies + of * copy_size() + ((const char *)template - __start_conformance_per_cpu);
}

void *shim_own_node(const struct shim_place *at, const void *template)
{
	(void)at;
	return shim_of_processor(template, processor);
}

int shim_processor(void) { return processor; }
int shim_processors(void) { return threads; }
int shim_in_interrupt(void) { return 0; }
int shim_spins = 1, shim_is_pv = 0;

/* ---- what an operation says ---- */

static int is_in(const struct shim_place *at, const char *function)
{
	return strcmp(at->function, function) == 0;
}

/* The event of a swap that has swapped. */
static void tell_swap(const struct shim_place *at)
{
	if (is_in(at, "queued_spin_lock"))
		tell("take", " fast");
	else if (is_in(at, "queued_spin_trylock"))
		tell("take", is_trying ? " try" : " retry");
	else if (is_in(at, "native_queued_spin_lock_slowpath"))
		tell("take", " sole");
	else
		fail("a swap at a place that is not known");
}

/* The event of a store. A flag has 4 bytes, and a link 8, which says nothing. */
static void tell_store(const struct shim_place *at, const volatile void *word, int size)
{
	if (is_in(at, "clear_pending_set_locked"))
		tell("take", " pending");
	else if (is_in(at, "set_locked"))
		tell("take", " head");
	else if (is_in(at, "queued_spin_unlock"))
		tell("release", "");
	else if (is_in(at, "native_queued_spin_lock_slowpath") && size == 4)
		tell_pass((int)(((const volatile char *)word - copies) / (long)copy_size()));
}

/* ---- the operations ---- */

static uint64_t get(const volatile void *word, int size)
{
	uint64_t value = 0;

	memcpy(&value, (const void *)word, size);
	return value;
}

static void put(volatile void *word, int size, uint64_t value)
{
	memcpy((void *)word, &value, size);
}

static void begin(void)
{
	pthread_mutex_lock(&order);
}

static void end(void)
{
	pthread_mutex_unlock(&order);
	sched_yield(); /* so that others come in between two operations */
}

uint64_t shim_load(const struct shim_place *at, const volatile void *word, int size)
{
	uint64_t value;

	(void)at;
	begin();
	value = get(word, size);
	end();
	return value;
}

int shim_ends(int ends) { return ends; }

void shim_store(const struct shim_place *at, volatile void *word, int size, uint64_t value)
{
	begin();
	put(word, size, value);
	tell_store(at, word, size);
	end();
}

uint64_t shim_swap(const struct shim_place *at, volatile void *word, int size, uint64_t expected, uint64_t value)
{
	uint64_t before;

	begin();
	before = get(word, size);
	if (before == (size == 8 ? expected : expected & ((1ull << 8 * size) - 1))) {
		put(word, size, value);
		tell_swap(at);
	}
	end();
	return before;
}

uint64_t shim_exchange(const struct shim_place *at, volatile void *word, int size, uint64_t value)
{
	uint64_t before;

	begin();
	before = get(word, size);
	put(word, size, value);
	if (!is_in(at, "xchg_tail"))
		fail("an exchange at a place that is not known");
	tell("arrive", "");
	end();
	return before;
}

/* Only the pending bit is set so. */
uint64_t shim_update(const struct shim_place *at, volatile void *word, int size, uint64_t argument)
{
	uint64_t before;

	if (at->operation != shim_or_operation)
		fail("a change at a place that is not known");
	begin();
	before = get(word, size);
	put(word, size, before | argument);
	end();
	return before;
}

void shim_leave(const struct shim_place *at) { (void)at; }
void shim_count(unsigned long event) { (void)event; }
void shim_bug(const char *function, int line) { (void)line; fail(function); }

/* The paravirtual lock is not used here. */
void shim_halt(const struct shim_place *at) { (void)at; fail("a halt"); }
void shim_kick(const struct shim_place *at, int of) { (void)at; (void)of; fail("a kick"); }
void *shim_hash(unsigned long bucket, unsigned long buckets, unsigned int *bits)
{
	(void)bucket, (void)buckets, (void)bits;
	fail("a hash");
	return NULL;
}

/* ---- the threads ---- */

/* Takes the lock, each eighth time by a try. */
static int take(int lock, int round)
{
	lock_now = lock;
	is_trying = round % 8 == 7;
	if (!is_trying) {
		enter_lock(&locks[lock]);
		return 1;
	}
	if (enter_try(&locks[lock]))
		return 1;
	begin();
	tell("miss", "");
	end();
	return 0;
}

static void *work(void *number)
{
	long taken = 0;

	processor = (int)(intptr_t)number;
	for (int round = 0; round < rounds; round++) {
		int lock = (round + processor) % lock_count;

		if (!take(lock, round))
			continue;
		guarded[lock]++;
		taken++;
		enter_unlock(&locks[lock]);
	}
	return (void *)taken;
}

static int number_of(const char *word, int most)
{
	int number = atoi(word);

	if (number < 1 || number > most)
		fail("usage: history THREADS ROUNDS LOCKS");
	return number;
}

int main(int count, char **words)
{
	pthread_t running[most_threads];
	long taken = 0, sum = 0;

	if (count != 4)
		fail("usage: history THREADS ROUNDS LOCKS");
	threads = number_of(words[1], most_threads);
	rounds = number_of(words[2], 1000000);
	lock_count = number_of(words[3], most_locks);
	copies = aligned_alloc(64, threads * copy_size());
	if (!copies)
		fail("out of memory");
	memset(copies, 0, threads * copy_size());
	for (int i = 0; i < threads; i++)
		if (pthread_create(&running[i], NULL, work, (void *)(intptr_t)i))
			fail("a thread could not be started");
	for (int i = 0; i < threads; i++) {
		void *one;

		pthread_join(running[i], &one);
		taken += (long)one;
	}
	for (int i = 0; i < lock_count; i++)
		sum += guarded[i];
	if (sum != taken)
		fail("the numbers under the locks are not those that the threads counted");
	print_history();
	return 0;
}
