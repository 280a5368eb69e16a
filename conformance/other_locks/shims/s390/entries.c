/* The calls of s390's spinlock that the harness makes, and where its nodes stand. */
#include "spinlock.c"

const struct shim_nodes shim_nodes = {
	.variable = &spin_wait, .first = 0, .size = sizeof(struct spin_wait),
	.next = offsetof(struct spin_wait, next), .handed = offsetof(struct spin_wait, prev),
	.fields = {
		{ offsetof(struct spin_wait, next), "next" }, { offsetof(struct spin_wait, prev), "prev" },
		{ offsetof(struct spin_wait, node_id), "node_id" },
	},
};

void enter_lock(arch_spinlock_t *lock)
{
	arch_spin_lock(lock);
}

int enter_try(arch_spinlock_t *lock)
{
	return arch_spin_trylock(lock);
}

void enter_unlock(arch_spinlock_t *lock)
{
	arch_spin_unlock(lock);
}

void enter_setup(int cpu)
{
	arch_spin_lock_setup(cpu);
}
