/* Queued locks for C and C++, proved: test-and-set (virt), queued (native), queued with handoffs within a
 * socket first (cna), and queued with waiters that halt until they are kicked (pv); spinlocks and
 * reader-writer locks.
 *
 * A domain has some locks and some processors. A qlock_cpu is a handle of one processor: the right to
 * take the domain's locks, for one thread at a time. A call names a handle and the number of a lock.
 * No call blocks. A call that does not get its lock at once waits as a value in the handle: poll it,
 * and do what you like between two polls.
 *
 * Each function meets a proved contract wherever its caller keeps what this page asks. Nothing checks a
 * caller in C. A misuse that can be seen when it runs is answered by a code, and changes nothing. What
 * cannot be seen is owed:
 *
 *   1. A handle is all zeros (QLOCK_CPU_INIT) before qlock_open. Your program never writes it otherwise,
 *      and never copies it. To move it to another place, and never use the old one again, is fine.
 *   2. One call at a time on a handle. It may go from one thread to another where a lock, a thread's
 *      start or join, or a sequentially consistent atomic orders that. Two handles need no order.
 *   3. No call from a signal handler that may interrupt a call on the same handle, and none from the
 *      forked child of a process with threads.
 *   4. malloc, realloc and free are those of one allocator, and align as C says. qlock_open uses them,
 *      and so does qlock_close.
 *   5. No pointer is null, that of an array of no elements neither, and each count is true.
 *   6. Who waits comes back: a call that is not polled to its end keeps its place in the queue, and
 *      those behind it wait for it. So does a lock that is not freed.
 *   7. In PV, who sleeps while its processor has halted is woken by whoever kicks it (qlock_unlock_kick).
 *
 * In the comments a function's last line has its answers. CLOSED can be the answer of each that takes
 * one handle, and PENDING of each that takes or frees a lock.
 */
#ifndef QLOCK_H
#define QLOCK_H

#include <stdbool.h>
#include <stddef.h>
#include <stdint.h>

#ifdef __cplusplus
extern "C" {
#endif

/* A processor of a domain. */
typedef struct qlock_cpu {
    bool used_;
    void *at_;
} qlock_cpu;

/* An empty handle. */
#define QLOCK_CPU_INIT { false, 0 }

/* How those who wait for a spinlock take turns. Where waiters are not to spin, take PV; or VIRT or NATIVE,
 * and give qlock_wait a function that yields, sleeps or runs another task. */
enum qlock_family {
    QLOCK_VIRT = 0,   /* by test-and-set: whoever is fastest, so one may starve */
    QLOCK_NATIVE = 1, /* in a queue: as they came */
    QLOCK_CNA = 2,    /* in a queue: a waiter on the holder's socket first, up to the threshold */
    QLOCK_PV = 3      /* in a queue, whose waiters spin for a while and then halt until they are kicked; one
                       * that has just come may take a free lock before them. It has spinlocks alone */
};

/* The kinds of locks. */
enum qlock_kind { QLOCK_SPIN = 0, QLOCK_RW = 1 };

/* The limits of a domain. */
enum qlock_limit { QLOCK_MOST_CPUS = 1024, QLOCK_MOST_LOCKS = 4096 };

/* What calls answer. Where it is neither DONE nor WAITS nor HALTS nor BUSY, nothing has changed. */
enum qlock_answer {
    QLOCK_DONE = 0,         /* the processor has the lock; or it has freed it; or see the call */
    QLOCK_WAITS = 1,        /* the call waits: poll it until DONE */
    QLOCK_BUSY = 2,         /* a try: somebody has the lock, waits for it, or was faster */
    QLOCK_NO_LOCK = 3,      /* the domain has no lock of this number */
    QLOCK_WRONG_KIND = 4,   /* the lock is of the other kind */
    QLOCK_HELD = 5,         /* this processor has the lock already */
    QLOCK_NOT_HELD = 6,     /* this processor does not have the lock */
    QLOCK_WRONG_MANNER = 7, /* this processor has it as its writer, not as a reader, or the other way */
    QLOCK_PENDING = 8,      /* a call of this processor waits: poll it to its end first */
    QLOCK_IDLE = 9,         /* a poll: no call of this processor waits */
    QLOCK_CLOSED = 10,      /* the handle has no processor */
    QLOCK_IN_USE = 11,      /* close: it has a lock, or a call waits; open: a handle is not empty */
    QLOCK_RANGE = 12,       /* open: a number is out of range */
    QLOCK_MEMORY = 13,      /* open: there is not enough memory; nothing was made */
    QLOCK_HALTS = 14,       /* PV: the processor has halted: poll once it is kicked. Before that a poll
                             * answers HALTS again, and changes nothing */
    QLOCK_AGAIN = 15        /* PV, to free: others came to the lock at each of 2,048 tries, and this
                             * processor has it as before: call again. While it has the lock each other
                             * processor comes once at most, and the queue head twice more. By that
                             * count no run answers so; no proof has the count */
};

/* No processor (qlock_unlock_kick). */
#define QLOCK_NOBODY UINT32_MAX

/* Makes a domain: a lock of kind kinds[i] for each i below `locks` (1 to 4096), all free, and a processor
 * on socket sockets[i] for each i below `sockets_count` (1 to 1024), which is put into cpus[i]. `cpus_count`
 * is the same number. All handles must be empty. `threshold` counts for CNA and PV. In CNA so many handoffs
 * at most pass a waiter that stands aside (0: nobody is moved aside, and waiters are served as they came). In
 * PV it is the spin bound: so many turns (1 to 65535) a waiter spins before it halts, a queue head as well.
 * Each kind is SPIN there, and sockets make no difference.
 * The arrays `kinds` and `sockets` may be gone when this returns.
 * Any thread. DONE, RANGE, IN_USE, MEMORY. */
uint32_t qlock_open(uint32_t family, const uint8_t *kinds, size_t locks, const uint32_t *sockets,
                    size_t sockets_count, uint32_t threshold, qlock_cpu *cpus, size_t cpus_count);

/* Gives a processor up. The handle is empty then. The domain ends with its last processor.
 * DONE, IN_USE. */
uint32_t qlock_close(qlock_cpu *cpu);

/* Takes a spinlock if it is free and nobody waits for it in a queue.
 * DONE, BUSY, NO_LOCK, WRONG_KIND, HELD. */
uint32_t qlock_try_lock(qlock_cpu *cpu, uint32_t lock);

/* Begins to acquire a spinlock.
 * DONE, WAITS, HALTS, NO_LOCK, WRONG_KIND, HELD. */
uint32_t qlock_begin(qlock_cpu *cpu, uint32_t lock);

/* Frees a spinlock. In PV it kicks the queue head, if that has halted.
 * DONE, AGAIN, NO_LOCK, WRONG_KIND, NOT_HELD. */
uint32_t qlock_unlock(qlock_cpu *cpu, uint32_t lock);

/* The same, and `kicked` gets the number of the processor that was kicked, or NOBODY; where the answer is not
 * DONE it keeps what it has. The number is that of the handle in the array that qlock_open filled. Whoever
 * has put the thread of that processor to sleep, wakes it now; the kick itself is remembered by the domain.
 * In the other families nobody is kicked.
 * DONE, AGAIN, NO_LOCK, WRONG_KIND, NOT_HELD. */
uint32_t qlock_unlock_kick(qlock_cpu *cpu, uint32_t lock, uint32_t *kicked);

/* Enters a reader-writer lock as a reader, if no writer is in it or waits at its head.
 * DONE, BUSY, NO_LOCK, WRONG_KIND, HELD. */
uint32_t qlock_try_read(qlock_cpu *cpu, uint32_t lock);

/* Begins to enter a reader-writer lock as a reader.
 * DONE, WAITS, NO_LOCK, WRONG_KIND, HELD. */
uint32_t qlock_begin_read(qlock_cpu *cpu, uint32_t lock);

/* Leaves a reader-writer lock, as a reader.
 * DONE, NO_LOCK, WRONG_KIND, NOT_HELD, WRONG_MANNER. */
uint32_t qlock_read_unlock(qlock_cpu *cpu, uint32_t lock);

/* Enters a reader-writer lock as its writer, if nobody is in it and no writer waits at its head.
 * DONE, BUSY, NO_LOCK, WRONG_KIND, HELD. */
uint32_t qlock_try_write(qlock_cpu *cpu, uint32_t lock);

/* Begins to enter a reader-writer lock as its writer.
 * DONE, WAITS, NO_LOCK, WRONG_KIND, HELD. */
uint32_t qlock_begin_write(qlock_cpu *cpu, uint32_t lock);

/* Leaves a reader-writer lock, as its writer.
 * DONE, NO_LOCK, WRONG_KIND, NOT_HELD, WRONG_MANNER. */
uint32_t qlock_write_unlock(qlock_cpu *cpu, uint32_t lock);

/* Goes on with the call that waits, of whatever kind, up to its next failed look at the lock, or in PV up to
 * a halt.
 * DONE, WAITS, HALTS, IDLE. */
uint32_t qlock_poll(qlock_cpu *cpu);

/* Looks. `yes` gets 1 or 0 where the answer is DONE, and keeps what it has else. What the last three tell
 * may have changed when they return, and no proof says what they tell: tests do. That somebody waits for
 * a spinlock of VIRT cannot be seen, and `yes` is 0; in PV it is seen of those in the queue. is_kicked tells
 * whether a kick of this processor is remembered, so that a poll of its halted call goes on: DONE alone.
 * DONE, NO_LOCK. */
uint32_t qlock_holds(qlock_cpu *cpu, uint32_t lock, uint32_t *yes);
uint32_t qlock_is_locked(qlock_cpu *cpu, uint32_t lock, uint32_t *yes);
uint32_t qlock_is_contended(qlock_cpu *cpu, uint32_t lock, uint32_t *yes);
uint32_t qlock_is_kicked(qlock_cpu *cpu, uint32_t *yes);

/* One pause of the machine, for a loop that polls. */
static inline void qlock_pause(void *unused) {
    (void)unused;
#if defined(__x86_64__) || defined(__i386__)
    __builtin_ia32_pause();
#elif defined(__aarch64__)
    __asm__ volatile("yield");
#endif
}

/* Polls a call until it does not wait. `answer` is what begin answered. Between two polls it calls
 * `relax(data)`: a pause, a yield, a sleep, or what your scheduler has. It does not sleep for a kick:
 * qlock_sleep.h has that for threads of Linux, and shows how a scheduler does it. */
static inline uint32_t qlock_wait(qlock_cpu *cpu, uint32_t answer, void (*relax)(void *), void *data) {
    if (answer == QLOCK_DONE) {
        return answer;
    }
    while (answer == QLOCK_WAITS || answer == QLOCK_HALTS) {
        relax(data);
        answer = qlock_poll(cpu);
    }
    return answer;
}

/* Acquire, and enter as a reader or as the writer; they spin with a pause until it is done. */
static inline uint32_t qlock_lock(qlock_cpu *cpu, uint32_t lock) {
    return qlock_wait(cpu, qlock_begin(cpu, lock), qlock_pause, NULL);
}

static inline uint32_t qlock_read_lock(qlock_cpu *cpu, uint32_t lock) {
    return qlock_wait(cpu, qlock_begin_read(cpu, lock), qlock_pause, NULL);
}

static inline uint32_t qlock_write_lock(qlock_cpu *cpu, uint32_t lock) {
    return qlock_wait(cpu, qlock_begin_write(cpu, lock), qlock_pause, NULL);
}

#ifdef __cplusplus
}
#endif
#endif
