/* A ring of lock events: one counter numbers them, and an event's number is its slot. Events that no longer fit are not kept. */
#ifndef _LINUX_QLOCK_RING_H
#define _LINUX_QLOCK_RING_H

#include <linux/compiler.h>

/* The order is that of EVENTS in events.py. */
enum {
	RING_FAST = 1, RING_TRY, RING_PENDING, RING_VIRT, RING_RETRY, RING_NONODE, RING_STEAL, RING_HEAD, RING_SOLE,
	RING_RELEASE, RING_RELEASE_TRY, RING_OWING, RING_ARRIVE, RING_PASS, RING_LEAVE, RING_HALT, RING_WAKE, RING_KICK,
	RING_RFAST, RING_RIRQ, RING_RQUEUED, RING_RTRY, RING_RRELEASE, RING_WFAST, RING_WQUEUED, RING_WTRY, RING_WRELEASE,
};

extern int ring_on;
extern void ring_write(void *lock, int what, unsigned int argument, unsigned int index);

/* Tells an event, and is true, so that it can stand behind a condition. */
#define ring_tell_of(lock, what, argument, index) \
	({ if (unlikely(READ_ONCE(ring_on))) ring_write((void *)(lock), what, argument, index); 1; })
#define ring_tell(lock, what) ring_tell_of(lock, what, 0, 0)

#endif
