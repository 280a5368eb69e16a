/* What stands for the kernel's headers of both architectures. Each operation on shared memory is a call of the harness. */
#ifndef OTHER_LOCKS_COMMON_H
#define OTHER_LOCKS_COMMON_H
#include <stdbool.h>
#include <stddef.h>
#include <stdint.h>
typedef uint8_t u8;
typedef uint16_t u16;
typedef uint32_t u32;
typedef uint64_t u64;

#undef __always_inline
#define __always_inline inline __attribute__((always_inline))
#define __init
#define likely(x) (x)
#define unlikely(x) (x)
#define barrier() __asm__ __volatile__("" ::: "memory")
#define kcsan_release() do { } while (0)
#define EXPORT_SYMBOL(name) extern int shim_exported_##name

extern u64 shim_load(const volatile void *place, int size, const char *function);
extern void shim_store(volatile void *place, int size, u64 value, const char *function);
extern int shim_cpu(void);
extern void *shim_of_cpu(const void *variable, int cpu);
extern bool shim_is_preempted(int cpu);
extern void shim_yield(const char *function);

#define READ_ONCE(x) ((__typeof__(x))shim_load(&(x), sizeof(x), __func__))
#define WRITE_ONCE(x, v) shim_store(&(x), sizeof(x), (u64)(unsigned long)(v), __func__)
#define DEFINE_PER_CPU_ALIGNED(type, name) __attribute__((section("shim_cpu_area"), aligned(64), used)) __typeof__(type) name
#define this_cpu_ptr(p) ((__typeof__(p))shim_of_cpu((p), shim_cpu()))
#define per_cpu_ptr(p, cpu) ((__typeof__(p))shim_of_cpu((p), (cpu)))

/* Where a processor's nodes stand, and what their fields are. */
struct shim_field {
	size_t offset;
	const char *name;
};
struct shim_nodes {
	const void *variable; /* of a processor */
	size_t first, size, next, handed; /* in it; in a node: the link, and what a handoff stores */
	struct shim_field fields[6];
};
#endif
