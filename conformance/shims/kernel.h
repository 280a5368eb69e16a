/*
 * One header that stands for every <linux/..> and <asm/..> header that the lock code includes, but for those that are the
 * kernel's own. Each shared access calls a function of harness/hooks.cpp: that gives way to the scheduler first, then makes
 * the access alone, and then records it.
 */
#ifndef CONFORMANCE_KERNEL_H
#define CONFORMANCE_KERNEL_H
#include <stdbool.h>
#include <stddef.h>
#include <stdint.h>
#include "operations.h"

#if __BYTE_ORDER__ != __ORDER_LITTLE_ENDIAN__
#error "little endian only"
#endif
#ifndef __LITTLE_ENDIAN
#define __LITTLE_ENDIAN 1234
#endif

typedef uint8_t u8;
typedef uint16_t u16;
typedef uint32_t u32;
typedef uint64_t u64;
typedef long ssize_t;
struct file;
#define __user
typedef long long loff_t;
typedef struct { int counter; } atomic_t;
#define ATOMIC_INIT(i)	{ (i) }
#define BITS_PER_LONG	64
#ifndef CONFIG_NR_CPUS
#define CONFIG_NR_CPUS	64
#endif
#define CONFIG_LOCK_EVENT_COUNTS 1
#define CONFIG_QUEUED_SPINLOCKS 1
#define CONFIG_PARAVIRT 1
#define CONFIG_PARAVIRT_SPINLOCKS 1

/* ---- what the compiler is told ---- */
#define __lockfunc
#undef __always_inline
#define __always_inline	inline __attribute__((always_inline))
#define __pure
#define __init
#define __initdata
#define __visible
#define __read_mostly
#define likely(x)	(x)
#define unlikely(x)	(x)
#define barrier()	__asm__ __volatile__("" ::: "memory")
#define smp_wmb()	barrier()
#define smp_rmb()	barrier()
#define smp_mb__before_atomic() barrier()
#define prefetchw(x)	((void)(x))
#define EXPORT_SYMBOL(x) extern int shim_exported_##x
#define early_param(s, f) static int (*shim_early_##f)(char *) __attribute__((unused)) = f
#define BUILD_BUG_ON(c)	_Static_assert(!(c), "BUILD_BUG_ON")
#define BUG()		do { shim_bug(__func__, __LINE__); __builtin_unreachable(); } while (0)
#define WARN(c, ...)	do { if (c) shim_bug(__func__, __LINE__); } while (0)
#define debug_locks_silent 0
#define kcsan_release()	do { } while (0)
#define LOCK_PREFIX	""
#define ALIGN(x, a)	(((x) + (a) - 1) & ~((typeof(x))(a) - 1))

/* A tiny page, so that the hash has four buckets a processor and searches in it hop. */
#define SMP_CACHE_BYTES	64
#define PAGE_SIZE	64
#define HASH_EARLY	1
#define HASH_ZERO	2

/* ---- the functions of harness/hooks.cpp ---- */
extern u64 shim_load(const struct shim_place *at, const volatile void *word, int size);
/* Whether the loop whose look was the last load ends with it. */
extern int shim_ends(int ends);
extern void shim_store(const struct shim_place *at, volatile void *word, int size, u64 value);
/* These answer the value before. */
extern u64 shim_swap(const struct shim_place *at, volatile void *word, int size, u64 expected, u64 value);
extern u64 shim_exchange(const struct shim_place *at, volatile void *word, int size, u64 value);
extern u64 shim_update(const struct shim_place *at, volatile void *word, int size, u64 argument);
extern void *shim_own_node(const struct shim_place *at, const void *template);
extern void *shim_of_processor(const void *template, int processor);
extern int shim_processor(void);
extern int shim_processors(void);
extern int shim_in_interrupt(void);
/* The count of the processor's nodes is about to fall by a plain operation. */
extern void shim_leave(const struct shim_place *at);
extern void shim_count(unsigned long event);
extern void shim_bug(const char *function, int line);
extern void shim_halt(const struct shim_place *at);
extern void shim_kick(const struct shim_place *at, int processor);
/* Of Xen: whether an event of this processor is pending, its end, and a halt until there is one. */
extern int shim_has_event(void);
extern void shim_clear_event(void);
extern void shim_poll(const struct shim_place *at);
extern void shim_wait(u8 *word, u8 value);
extern void *shim_hash(unsigned long bucket, unsigned long buckets, unsigned int *bits);
extern int shim_is_pv;

#define SHIM_AT(kind) ({ \
	static const struct shim_place shim_at = { shim_##kind##_operation, __FILE__, __func__, __LINE__ }; \
	&shim_at; })
#define SHIM_VALUE(v)	((u64)(unsigned long)(v))

/* ---- loads and stores ---- */
#define READ_ONCE(x)		((typeof(x))shim_load(SHIM_AT(load), &(x), sizeof(x)))
#define WRITE_ONCE(x, v)	shim_store(SHIM_AT(store), &(x), sizeof(x), SHIM_VALUE(v))
/* Where the code says that an access races on purpose, it is an operation. */
#define data_race(x)		READ_ONCE(x)
#define smp_load_acquire(p)	READ_ONCE(*(p))
#define smp_store_release(p, v)	shim_store(SHIM_AT(store), (p), sizeof(*(p)), SHIM_VALUE(v))
#define smp_store_mb(x, v)	shim_store(SHIM_AT(store), &(x), sizeof(x), SHIM_VALUE(v))
#define atomic_set(v, i)	((v)->counter = (i))
#define atomic_read(v)		((int)shim_load(SHIM_AT(load), &(v)->counter, 4))
#define SHIM_WAIT(p, condition) ({ \
	typeof(*(p)) VAL; \
	do \
		VAL = (typeof(*(p)))shim_load(SHIM_AT(wait), (p), sizeof(*(p))); \
	while (!shim_ends(!!(condition))); \
	VAL; })
#define smp_cond_load_relaxed(p, c)	SHIM_WAIT(p, c)
#define smp_cond_load_acquire(p, c)	SHIM_WAIT(p, c)
#define atomic_cond_read_relaxed(v, c)	SHIM_WAIT(&(v)->counter, c)
#define atomic_cond_read_acquire(v, c)	SHIM_WAIT(&(v)->counter, c)

/* ---- swaps and exchanges ---- */
#define SHIM_TRY(v, before, after) ({ \
	u32 *shim_before = (u32 *)(before); \
	u32 shim_expected = *shim_before; \
	u32 shim_met = (u32)shim_swap(SHIM_AT(swap), &(v)->counter, 4, shim_expected, (u32)(after)); \
	if (shim_met != shim_expected) \
		*shim_before = shim_met; \
	shim_met == shim_expected; })
#define atomic_try_cmpxchg(v, b, a)	SHIM_TRY(v, b, a)
#define atomic_try_cmpxchg_acquire(v, b, a)	SHIM_TRY(v, b, a)
#define atomic_try_cmpxchg_relaxed(v, b, a)	SHIM_TRY(v, b, a)
#define SHIM_ATOMIC_SWAP(v, b, a) ((int)shim_swap(SHIM_AT(swap), &(v)->counter, 4, (u32)(b), (u32)(a)))
#define atomic_cmpxchg(v, b, a)			SHIM_ATOMIC_SWAP(v, b, a)
#define atomic_cmpxchg_acquire(v, b, a)		SHIM_ATOMIC_SWAP(v, b, a)
#define atomic_cmpxchg_release(v, b, a)		SHIM_ATOMIC_SWAP(v, b, a)
#define atomic_cmpxchg_relaxed(v, b, a)		SHIM_ATOMIC_SWAP(v, b, a)
#define SHIM_SWAP(p, b, a) ((typeof(*(p)))shim_swap(SHIM_AT(swap), (p), sizeof(*(p)), SHIM_VALUE(b), SHIM_VALUE(a)))
#define cmpxchg(p, b, a)		SHIM_SWAP(p, b, a)
#define cmpxchg_acquire(p, b, a)	SHIM_SWAP(p, b, a)
#define cmpxchg_release(p, b, a)	SHIM_SWAP(p, b, a)
#define cmpxchg_relaxed(p, b, a)	SHIM_SWAP(p, b, a)
#define SHIM_TRY_ANY(p, before, after) ({ \
	typeof(*(p)) shim_expected = *(before); \
	typeof(*(p)) shim_met = (typeof(*(p)))shim_swap(SHIM_AT(swap), (p), sizeof(*(p)), SHIM_VALUE(shim_expected), SHIM_VALUE(after)); \
	if (shim_met != shim_expected) \
		*(before) = shim_met; \
	shim_met == shim_expected; })
#define try_cmpxchg(p, b, a)		SHIM_TRY_ANY(p, b, a)
#define try_cmpxchg_acquire(p, b, a)	SHIM_TRY_ANY(p, b, a)
#define try_cmpxchg_release(p, b, a)	SHIM_TRY_ANY(p, b, a)
#define try_cmpxchg_relaxed(p, b, a)	SHIM_TRY_ANY(p, b, a)
#define SHIM_EXCHANGE(p, a) ((typeof(*(p)))shim_exchange(SHIM_AT(exchange), (p), sizeof(*(p)), SHIM_VALUE(a)))
#define xchg(p, a)		SHIM_EXCHANGE(p, a)
#define xchg_relaxed(p, a)	SHIM_EXCHANGE(p, a)
#define atomic_xchg(v, a)	((int)SHIM_EXCHANGE(&(v)->counter, a))

/* ---- changes in one operation ---- */
#define SHIM_UPDATE(kind, i, v) ((u32)shim_update(SHIM_AT(kind), &(v)->counter, 4, (u32)(i)))
#define atomic_fetch_or_acquire(i, v)	((int)SHIM_UPDATE(or, i, v))
#define atomic_or(i, v)			((void)SHIM_UPDATE(or, i, v))
#define atomic_andnot(i, v)		((void)SHIM_UPDATE(andnot, i, v))
#define atomic_add(i, v)		((void)SHIM_UPDATE(add, i, v))
#define atomic_sub(i, v)		((void)SHIM_UPDATE(subtract, i, v))
#define atomic_add_return_acquire(i, v)	((int)(SHIM_UPDATE(add, i, v) + (u32)(i)))
#define atomic_sub_return_release(i, v)	((int)(SHIM_UPDATE(subtract, i, v) - (u32)(i)))
/* x86 sets the pending bit so; the harness has no other use of it. */
#define GEN_BINARY_RMWcc(instruction, var, cc, type, number) \
	((bool)((shim_update(SHIM_AT(bit), &(var), 4, 1U << (number)) >> (number)) & 1))

/* ---- variables of a processor: they are a template, of which each processor has a copy ---- */
#define SHIM_PER_CPU __attribute__((section("conformance_per_cpu"), aligned(64), used))
#define DEFINE_PER_CPU_ALIGNED(t, n)		SHIM_PER_CPU typeof(t) n
#define DEFINE_PER_CPU_SHARED_ALIGNED(t, n)	SHIM_PER_CPU typeof(t) n
#define DECLARE_PER_CPU(t, n)	extern t n
#define this_cpu_ptr(p)		((typeof(p))shim_own_node(SHIM_AT(node), (p)))
#define per_cpu_ptr(p, cpu)	((typeof(p))shim_of_processor((p), (cpu)))
#define __this_cpu_dec(v)	do { \
	shim_leave(SHIM_AT(none)); \
	(*(typeof(&(v)))shim_of_processor(&(v), shim_processor()))--; } while (0)
#define raw_cpu_inc(x)		shim_count((unsigned long)(&(x) - &lockevents[0]))
#define raw_cpu_add(x, n)	((void)(n))
#define smp_processor_id()	shim_processor()
#define num_possible_cpus()	shim_processors()
#define in_interrupt()		shim_in_interrupt()
#define in_nmi()		0
#define irqs_disabled()		0
#define local_irq_disable()	do { } while (0)
#define local_irq_enable()	do { } while (0)
#define halt()			shim_halt(SHIM_AT(halt))
#define safe_halt()		shim_halt(SHIM_AT(halt))
#define trace_contention_begin(...)	do { } while (0)
#define trace_contention_end(...)	do { } while (0)
#define alloc_large_system_hash(name, bucket, buckets, scale, flags, bits, mask, low, high) \
	shim_hash((bucket), (buckets), (bits))
static inline void lockevent_pv_hop(int hops) { (void)hops; }

/* ---- the choice between the native and the paravirtual code, which x86 makes by patching ---- */
struct qspinlock;
extern void native_queued_spin_lock_slowpath(struct qspinlock *lock, u32 val);
extern void __pv_queued_spin_lock_slowpath(struct qspinlock *lock, u32 val);
extern void __pv_queued_spin_unlock(struct qspinlock *lock);
extern void __pv_init_lock_hash(void);
#define pv_queued_spin_lock_slowpath(l, v) \
	(shim_is_pv ? __pv_queued_spin_lock_slowpath(l, v) : native_queued_spin_lock_slowpath(l, v))
#define pv_queued_spin_unlock(l) \
	(shim_is_pv ? __pv_queued_spin_unlock(l) : native_queued_spin_unlock(l))
#define pv_wait(p, v)	shim_wait((p), (v))
#define pv_kick(cpu)	shim_kick(SHIM_AT(kick), (cpu))
#define pv_vcpu_is_preempted(cpu)	((void)(cpu), false)
#define DECLARE_STATIC_KEY_TRUE(n)	extern int n
#define DECLARE_STATIC_KEY_FALSE(n)	extern int n
#define static_branch_likely(p)		(*(p))

/*
 * The spin bound. The rows look at the state of the node before at each turn, Linux at each 256th. With a bound of 256 *
 * spins, and a cpu_relax() that takes 255 off the loop's own counter, each turn is one at which Linux looks too, and both
 * make `spins` turns; the kernel's text is as it is. Functions without such a counter meet the one below.
 */
extern int shim_spins;
static int loop __attribute__((unused));
#ifdef CONFORMANCE_STRIDE
#define SPIN_THRESHOLD	(shim_spins)
#define cpu_relax()	do { } while (0)
#else
#define SPIN_THRESHOLD	(256 * shim_spins)
#define cpu_relax()	do { loop -= 255; } while (0)
#endif
#endif
