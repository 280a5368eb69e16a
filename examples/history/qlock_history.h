/*
 * qlock_history.h: writes down what threads do to locks, as histories for `qlock audit` (docs/AUDIT.md). Copy it; it needs nothing else.
 *
 *     int lock = history_lock("spin");             before the threads start; "rw" for a reader-writer lock
 *     history_note(lock, "take", "virt");          behind a take, and before a release: history_note(lock, "release", NULL)
 *     history_write("run");                        writes run-0.history, run-1.history, .. of 32 locks each
 *
 * Of a lock with a queue the arrivals too. The node that is put in the queue carries the place, so that who comes behind finds it:
 *
 *     node->place = history_place();               before the exchange of the tail
 *     old = exchange(tail, node);
 *     history_arrive(lock, node->place, old ? old->place : NULL);      before the node is linked, and before it waits
 *
 * Why the order is right. Numbers are drawn of one counter. What is told as held lies inside what was held, because the number of a take is
 * drawn behind it, and that of a release before it. An arrival draws its number behind the exchange, so two of them may draw in the wrong
 * order. So history_write puts each behind that of who stood before. It does not come too late there: a waiter takes only behind all who
 * stood before it, and each of them has drawn the number of its arrival before its own take.
 */
#ifndef QLOCK_HISTORY_H
#define QLOCK_HISTORY_H
#include <pthread.h>
#include <stdatomic.h>
#include <stddef.h>
#include <stdint.h>
#include <stdio.h>
#include <stdlib.h>

enum { HISTORY_CHUNK = 4096, HISTORY_SHARE = 32, HISTORY_LOCKS = 4096, HISTORY_THREADS = 1024, HISTORY_FEW = 64 };

struct history_event {
	_Atomic uint64_t number; /* 0: reserved, and nothing has happened yet; stored last */
	uint64_t behind; /* how many stand between it and the event that has this number */
	const struct history_event *before; /* of an arrival: who stood before */
	const char *verb, *rest; /* texts that stay */
	int lock, thread, next; /* next: to whom a handoff goes, or -1 */
	int is_settled;
};

struct history_chunk {
	struct history_chunk *older;
	atomic_size_t used; /* rises behind each event, so that others may read what is there */
	struct history_event events[HISTORY_CHUNK];
};

static struct {
	atomic_uint_fast64_t last;
	pthread_mutex_t mutex; /* for what follows */
	struct history_chunk *chunks;
	const char *kinds[HISTORY_LOCKS];
	int locks, threads;
	int free[HISTORY_THREADS], free_count; /* numbers of threads that have ended */
	struct history_chunk *begun[HISTORY_THREADS]; /* theirs, in which there may be room */
	pthread_key_t key;
	pthread_once_t once;
} history = { .mutex = PTHREAD_MUTEX_INITIALIZER, .once = PTHREAD_ONCE_INIT };

static _Thread_local struct history_chunk *history_chunk;
static _Thread_local int history_thread = -1;

static void history_fail(const char *why)
{
	fprintf(stderr, "qlock_history: %s\n", why);
	exit(1);
}

static void *history_memory(size_t count, size_t size)
{
	void *found = calloc(count, size);

	if (!found)
		history_fail("out of memory");
	return found;
}

/* A thread that ends gives its number back. It may hold nothing then. */
static void history_leave(void *number)
{
	pthread_mutex_lock(&history.mutex);
	history.begun[(intptr_t)number - 1] = history_chunk;
	history.free[history.free_count++] = (int)(intptr_t)number - 1;
	pthread_mutex_unlock(&history.mutex);
	history_thread = -1;
}

static void history_once(void)
{
	if (pthread_key_create(&history.key, history_leave))
		history_fail("there is no key for threads");
}

/* The number of this thread: one of a thread that has ended, or a new one. */
static int history_self(void)
{
	if (history_thread >= 0)
		return history_thread;
	pthread_once(&history.once, history_once);
	pthread_mutex_lock(&history.mutex);
	history_thread = history.free_count ? history.free[--history.free_count] : history.threads++;
	if (history_thread >= HISTORY_THREADS)
		history_fail("more than 1024 threads at once");
	history_chunk = history.begun[history_thread];
	pthread_mutex_unlock(&history.mutex);
	pthread_setspecific(history.key, (void *)(intptr_t)(history_thread + 1));
	return history_thread;
}

/* The number of one more lock. */
static inline int history_lock(const char *kind)
{
	int number;

	pthread_mutex_lock(&history.mutex);
	number = history.locks++;
	pthread_mutex_unlock(&history.mutex);
	if (number >= HISTORY_LOCKS)
		history_fail("more than 4096 locks");
	history.kinds[number] = kind;
	return number;
}

/* Room for the next event of this thread, which has not happened yet. */
static inline struct history_event *history_place(void)
{
	int self = history_self();
	struct history_chunk *chunk = history_chunk;
	struct history_event *event;

	if (!chunk || chunk->used == HISTORY_CHUNK) {
		chunk = history_memory(1, sizeof(*chunk));
		pthread_mutex_lock(&history.mutex);
		chunk->older = history.chunks;
		history.chunks = chunk;
		pthread_mutex_unlock(&history.mutex);
		history_chunk = chunk;
	}
	event = &chunk->events[chunk->used];
	*event = (struct history_event){ .thread = self, .next = -1 };
	return event;
}

static inline uint64_t history_number(void)
{
	return atomic_fetch_add(&history.last, 1) + 1;
}

/* The event of this place has happened, and has that number. */
static inline void history_tell(struct history_event *event, uint64_t number, int lock, const char *verb, const char *rest)
{
	event->lock = lock;
	event->verb = verb;
	event->rest = rest;
	event->number = number;
	atomic_fetch_add(&history_chunk->used, 1);
}

static inline void history_note(int lock, const char *verb, const char *rest)
{
	uint64_t number = history_number();

	history_tell(history_place(), number, lock, verb, rest);
}

static inline void history_arrive(int lock, struct history_event *place, const struct history_event *before)
{
	place->before = before;
	history_tell(place, history_number(), lock, "arrive", NULL);
}

/* Before the handoff is made; `next` is the place of who gets it. */
static inline void history_pass(int lock, const struct history_event *next)
{
	uint64_t number = history_number();
	struct history_event *event = history_place();

	event->next = next->thread;
	history_tell(event, number, lock, "pass", NULL);
}

/* ---- what is done at the end ---- */

static int history_order(const void *first, const void *second)
{
	const struct history_event *a = *(struct history_event *const *)first, *b = *(struct history_event *const *)second;

	if (a->number != b->number)
		return a->number < b->number ? -1 : 1;
	return a->behind < b->behind ? -1 : a->behind > b->behind;
}

/* Puts an arrival behind that of who stood before, and first those before it. `room` has room for all. */
static void history_settle(struct history_event *event, struct history_event **room)
{
	size_t count = 0;

	for (; event && event->number && !event->is_settled; event = (struct history_event *)event->before)
		room[count++] = event;
	while (count--) {
		const struct history_event *before = room[count]->before;

		if (before && before->number >= room[count]->number) {
			room[count]->number = before->number;
			room[count]->behind = before->behind + 1;
		}
		room[count]->is_settled = !before || before->number;
	}
}

static void history_lines(FILE *out, struct history_event **events, size_t count, int first)
{
	static const char *const counts[] = { "lock_pending", "lock_slowpath", "lock_use_node2", "lock_use_node3", "lock_use_node4",
		"lock_no_node", "pv_lock_stealing", "pv_wait_node", "pv_wait_head", "pv_kick_unlock" };
	int threads = history.threads > 0 ? history.threads : 1;
	size_t number = 0;

	fprintf(out, "qtrace %d\nmode native\ncpus %d\n", threads > HISTORY_FEW ? 2 : 1, threads);
	for (int lock = first; lock < history.locks && lock < first + HISTORY_SHARE; lock++)
		fprintf(out, "lock %d %s\n", lock - first, history.kinds[lock]);
	fprintf(out, "go\n");
	for (size_t at = 0; at < count; at++) {
		const struct history_event *event = events[at];

		if (event->lock < first || event->lock >= first + HISTORY_SHARE)
			continue;
		fprintf(out, "%zu %d.0 %s %d", ++number, event->thread, event->verb, event->lock - first);
		if (event->next >= 0)
			fprintf(out, " %d.0", event->next);
		fprintf(out, "%s%s\n", event->rest ? " " : "", event->rest ? event->rest : "");
	}
	fprintf(out, "end %zu\n", number);
	for (int count_at = 0; count_at < 10; count_at++)
		fprintf(out, "%s 0\n", counts[count_at]); /* an audit does not judge them */
}

/* All events so far, in their order; the caller frees them. A number that is drawn later is left out, since what came before it may be missing. */
static struct history_event **history_events(size_t *count)
{
	uint64_t last = history.last;
	struct history_event **events, **room;
	size_t most = 0, found = 0;

	pthread_mutex_lock(&history.mutex);
	for (struct history_chunk *chunk = history.chunks; chunk; chunk = chunk->older)
		most += HISTORY_CHUNK;
	events = history_memory(most + 1, sizeof(*events));
	room = history_memory(most + HISTORY_THREADS + 1, sizeof(*room));
	for (struct history_chunk *chunk = history.chunks; chunk; chunk = chunk->older)
		for (size_t at = 0, used = chunk->used; at < used; at++)
			events[found++] = &chunk->events[at];
	pthread_mutex_unlock(&history.mutex);
	*count = 0;
	for (size_t at = 0; at < found; at++) {
		history_settle(events[at], room);
		if (events[at]->number <= last)
			events[(*count)++] = events[at];
	}
	qsort(events, *count, sizeof(*events), history_order);
	free(room);
	return events;
}

/* Writes a history of each 32 locks, to NAME-0.history and so on; NULL: that of the first 32 to standard output. How many were written. */
static inline int history_write(const char *name)
{
	size_t count;
	struct history_event **events = history_events(&count);
	int files = 0;

	if (!name)
		history_lines(stdout, events, count, 0);
	for (int first = 0; name && first < history.locks; first += HISTORY_SHARE, files++) {
		char path[4096];
		FILE *out;

		if (snprintf(path, sizeof(path), "%s-%d.history", name, files) >= (int)sizeof(path))
			history_fail("the name of a history is too long");
		out = fopen(path, "w");
		if (!out)
			history_fail("a history could not be written");
		history_lines(out, events, count, first);
		if (fclose(out))
			history_fail("a history could not be written");
	}
	fflush(stdout);
	free(events);
	return files;
}
#endif
