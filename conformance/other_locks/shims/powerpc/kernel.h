/* Stands for each kernel header that powerpc's qspinlock includes. */
#ifndef OTHER_LOCKS_KERNEL_H
#define OTHER_LOCKS_KERNEL_H
#include "../common.h"

#define __LITTLE_ENDIAN 1234
#define __read_mostly
#define CONFIG_NR_CPUS 64
#define CONFIG_PPC64 1
#define CONFIG_PARAVIRT_SPINLOCKS 1
#define IS_ENABLED(option) SHIM_ENABLED_##option
#define SHIM_ENABLED_CONFIG_NUMA 0
#define SHIM_ENABLED_CONFIG_PARAVIRT_SPINLOCKS 1
#define BUILD_BUG_ON(c) _Static_assert(!(c), "BUILD_BUG_ON")
extern void shim_bug(const char *function, int line) __attribute__((noreturn));
#define BUG() shim_bug(__func__, __LINE__)
#define BUG_ON(c) do { if (c) BUG(); } while (0)

/* One for each body in assembly. */
enum { SHIM_CLEAN, SHIM_PUBLISH, SHIM_MUSTQ, SHIM_NO_MUSTQ, SHIM_SLEEPY, SHIM_TRY, SHIM_STEAL };
extern u32 shim_update(u32 *word, int kind, u32 first, u32 second, const char *function);

#define smp_rmb() barrier()
#define smp_acquire__after_ctrl_dep() barrier()
#define smp_store_release(p, v) shim_store((p), sizeof(*(p)), (u64)(unsigned long)(v), __func__)
#define prefetchw(p) ((void)(p))
#define cpu_relax() do { } while (0)
#define spin_begin() do { } while (0)
#define spin_end() do { } while (0)
#define spin_cpu_relax() do { } while (0)
#define smp_processor_id() shim_cpu()
#define numa_node_id() 0
#define cpu_to_node(cpu) ((void)(cpu), 0)
#define sched_clock() 0
#define this_cpu_read(v) (*this_cpu_ptr(&(v)))
#define this_cpu_write(v, x) (*this_cpu_ptr(&(v)) = (x))
#define yield_count_of(cpu) ((u32)shim_is_preempted(cpu))
#define yield_to_preempted(cpu, count) ((void)(cpu), (void)(count), shim_yield(__func__))
#define vcpu_is_preempted(cpu) shim_is_preempted(cpu)
#define prod_cpu(cpu) ((void)(cpu))
#define is_shared_processor() true

/* The files by which a machine's owner sets the tunables. */
#define DEFINE_SIMPLE_ATTRIBUTE(name, get, set, format) static const int name __attribute__((unused)) = sizeof(get) + sizeof(set)
#define debugfs_create_file(...) ((void)0)
#define device_initcall(f) static int (*shim_initcall_##f)(void) __attribute__((unused)) = f
#endif
