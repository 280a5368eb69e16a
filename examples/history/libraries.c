/*
 * Locks that nobody here wrote, and histories of them: MCS, CLH and the reader-writer lock of Concurrency Kit (Debian's libck-dev), and a
 * mutex and a reader-writer lock of glibc. One of -DMCS, -DCLH, -DCK_RW, -DMUTEX, -DRWLOCK says which. Their texts are not touched: of MCS
 * and CLH, whose queue is told, some of the operations in them are calls of functions below.
 *
 * -DBUG plants a bug in the lock: what it is stands beside it. -DUNSETTLED leaves out who stood before, so arrivals stand where they drew
 * their numbers, and with -DEARLY they draw them before the exchange: then the audit of a right lock names a breach that never was.
 *
 * libraries NAME THREADS ROUNDS writes NAME-0.history, NAME-1.history and so on. If threads hang it writes what there is, and ends with 1.
 */
#include <pthread.h>
#include <sched.h>
#include <stdlib.h>
#include <string.h>
#include <unistd.h>
#include "qlock_history.h"

enum { LOCKS = 40, MOST_THREADS = 64, QUIET = 300 };

static int numbers[LOCKS], rounds;
static atomic_int done;
static pthread_barrier_t start; /* all begin at once */
static _Thread_local int lock_now, round_now, self;

/* Whether this take of this thread is one with a bug. */
static int is_bad(void)
{
#ifdef BUG
	return self == 1 && round_now % 16 == 15;
#else
	return 0;
#endif
}

#if defined MCS || defined CLH || defined CK_RW
#include <ck_pr.h>
#define ck_pr_stall() sched_yield() /* so that whoever is waited for gets a processor */
#endif

#if defined MCS || defined CLH
struct queued; /* a node, and the place of its arrival */
static void *arrive(void *tail, struct queued *node);

#define ck_pr_fas_ptr(tail, node) arrive(tail, (struct queued *)(node))
#ifdef MCS
static void hand_on(unsigned int *flag, unsigned int value);
static bool empty(void *tail, void *node, void *value);

#undef ck_pr_store_uint
#define ck_pr_store_uint(flag, value) hand_on(flag, value)
#define ck_pr_cas_ptr(tail, node, value) empty(tail, node, value)
#include <spinlock/mcs.h>
typedef struct ck_spinlock_mcs node_t;
#else
#include <spinlock/clh.h>
typedef ck_spinlock_clh_t node_t;
#endif
#undef ck_pr_fas_ptr
#undef ck_pr_cas_ptr

struct queued {
	node_t node;
	struct history_event *place;
};

static void *arrive(void *tail, struct queued *node)
{
	struct history_event *place = node->place = history_place();
	struct queued *old;

#ifdef EARLY
	history_arrive(numbers[lock_now], place, NULL);
	sched_yield();
	return ck_pr_fas_ptr(tail, node);
#endif
	old = ck_pr_fas_ptr(tail, node);
	if (round_now % 4 == 0)
		sched_yield(); /* so that another draws its number first now and then */
#ifdef UNSETTLED
	history_arrive(numbers[lock_now], place, NULL);
#else
	history_arrive(numbers[lock_now], place, old ? old->place : NULL);
#endif
	return old;
}
#endif

#ifdef MCS
static node_t *queues[LOCKS];
static _Thread_local struct queued own;

/* The handoff is told before it is made. The bug: it is not made. */
static void hand_on(unsigned int *flag, unsigned int value)
{
	struct queued *next = (struct queued *)((char *)flag - offsetof(node_t, locked));

	history_pass(numbers[lock_now], next->place);
	history_note(numbers[lock_now], "release", NULL);
	if (!is_bad())
		ck_pr_md_store_uint(flag, value);
}

/* The tail is taken away if nobody stands behind. The numbers are drawn before, since others may arrive behind. */
static bool empty(void *tail, void *node, void *value)
{
	uint64_t left = history_number(), released = history_number();

	if (!ck_pr_cas_ptr(tail, node, value))
		return false;
	history_tell(history_place(), left, numbers[lock_now], "leave", NULL);
	history_tell(history_place(), released, numbers[lock_now], "release", NULL);
	return true;
}

static void begin(void) { }

static void enter(void)
{
	ck_spinlock_mcs_lock(&queues[lock_now], &own.node);
	history_note(numbers[lock_now], "take", "head");
}

static void leave(void)
{
	ck_spinlock_mcs_unlock(&queues[lock_now], &own.node);
}
#elif defined CLH
static node_t *queues[LOCKS];
static struct queued unowned[LOCKS];
static _Thread_local node_t *own;

static void begin(void)
{
	own = &((struct queued *)history_memory(1, sizeof(struct queued)))->node;
}

/* The bug: a waiter does not wait for who stood before, and does so at its release only, since the nodes would be mixed up. */
static void enter(void)
{
	if (is_bad()) {
		own->wait = true;
		own->previous = arrive(&queues[lock_now], (struct queued *)own);
	} else {
		ck_spinlock_clh_lock(&queues[lock_now], own);
	}
	history_note(numbers[lock_now], "take", "sole");
}

static void leave(void)
{
	history_note(numbers[lock_now], "release", NULL);
	while (is_bad() && ck_pr_load_uint(&own->previous->wait))
		ck_pr_stall();
	ck_spinlock_clh_unlock(&own);
}
#else
#ifdef CK_RW
#include <ck_rwlock.h>
static ck_rwlock_t locks[LOCKS];
#define read_lock(lock) ck_rwlock_read_lock(lock)
#define read_unlock(lock) ck_rwlock_read_unlock(lock)
#define write_unlock(lock) ck_rwlock_write_unlock(lock)

/* The bug: the writer does not wait for readers. The rest is the library's text. */
static void write_lock(ck_rwlock_t *lock)
{
	if (!is_bad()) {
		ck_rwlock_write_lock(lock);
		return;
	}
	while (ck_pr_fas_uint(&lock->writer, 1) != 0)
		ck_pr_stall();
	ck_pr_fence_atomic_load();
}
#elif defined RWLOCK
static pthread_rwlock_t locks[LOCKS];
#define read_unlock(lock) (is_bad() ? 0 : pthread_rwlock_unlock(lock))
#define write_lock(lock) pthread_rwlock_wrlock(lock)
#define write_unlock(lock) pthread_rwlock_unlock(lock)

/* The bug: a reader does not lock. */
static void read_lock(pthread_rwlock_t *lock)
{
	if (!is_bad())
		pthread_rwlock_rdlock(lock);
}
#else
static pthread_mutex_t locks[LOCKS];

/* The bug: a thread does not lock. */
static void enter(void)
{
	if (!is_bad())
		pthread_mutex_lock(&locks[lock_now]);
	history_note(numbers[lock_now], "take", "fast");
}

static void leave(void)
{
	history_note(numbers[lock_now], "release", NULL);
	if (!is_bad())
		pthread_mutex_unlock(&locks[lock_now]);
}
#endif

static void begin(void) { }

#ifndef MUTEX
/* One take in four is a writer's, and which one goes by the round, so that it is known at the release too. */
static int is_writer(void)
{
#ifdef CK_RW
	return round_now % 4 == 3; /* the rounds of the bug are a writer's */
#else
	return round_now % 4 == 2;
#endif
}

static void enter(void)
{
	if (is_writer())
		write_lock(&locks[lock_now]);
	else
		read_lock(&locks[lock_now]);
	history_note(numbers[lock_now], is_writer() ? "wtake" : "rtake", "fast");
}

static void leave(void)
{
	history_note(numbers[lock_now], is_writer() ? "wrelease" : "rrelease", NULL);
	if (is_writer())
		write_unlock(&locks[lock_now]);
	else
		read_unlock(&locks[lock_now]);
}
#endif
#endif

/* Each lock is initialized as the library says. */
static void make(int lock)
{
#if defined MCS
	ck_spinlock_mcs_init(&queues[lock]);
#elif defined CLH
	ck_spinlock_clh_init(&queues[lock], &unowned[lock].node);
#elif defined CK_RW
	ck_rwlock_init(&locks[lock]);
#elif defined RWLOCK
	pthread_rwlock_init(&locks[lock], NULL);
#else
	pthread_mutex_init(&locks[lock], NULL);
#endif
#if defined CK_RW || defined RWLOCK
	numbers[lock] = history_lock("rw");
#else
	numbers[lock] = history_lock("spin");
#endif
}

static void *work(void *number)
{
	self = (int)(intptr_t)number;
	begin();
	pthread_barrier_wait(&start);
	for (round_now = 0; round_now < rounds; round_now++) {
		lock_now = round_now % 8 ? round_now / 8 % 2 : round_now / 8 % LOCKS; /* two of them are busy */
		enter();
		if (round_now % 4 == 0 || is_bad())
			sched_yield(); /* the critical section */
		leave();
	}
	atomic_fetch_add(&done, 1);
	return NULL;
}

/* Waits until all threads are done, or for three seconds nobody has drawn a number; whether they are done. */
static int are_done(int threads)
{
	uint64_t seen = 0;

	for (int quiet = 0; done < threads && quiet < QUIET; usleep(10000)) {
		quiet = history.last == seen ? quiet + 1 : 0;
		seen = history.last;
	}
	return done == threads;
}

int main(int count, char **words)
{
	int threads, is_done;
	pthread_t thread;

	if (count != 4 || (threads = atoi(words[2])) < 1 || threads > MOST_THREADS || (rounds = atoi(words[3])) < 1) {
		fprintf(stderr, "libraries NAME THREADS ROUNDS, of %d threads at most\n", MOST_THREADS);
		return 2;
	}
	for (int lock = 0; lock < LOCKS; lock++)
		make(lock);
	pthread_barrier_init(&start, NULL, (unsigned int)threads);
	for (int number = 0; number < threads; number++)
		if (pthread_create(&thread, NULL, work, (void *)(intptr_t)number) || pthread_detach(thread))
			return 1;
	is_done = are_done(threads);
	history_write(words[1]);
	_exit(!is_done); /* threads that hang do not end */
}
