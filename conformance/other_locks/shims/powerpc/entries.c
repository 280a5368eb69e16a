/* The calls of powerpc's qspinlock that the harness makes, and where its nodes stand. */
#include "qspinlock.c"

const struct shim_nodes shim_nodes = {
	.variable = &qnodes, .first = offsetof(struct qnodes, nodes), .size = sizeof(struct qnode),
	.next = offsetof(struct qnode, next), .handed = offsetof(struct qnode, locked),
	.fields = {
		{ offsetof(struct qnode, next), "next" }, { offsetof(struct qnode, lock), "lock" }, { offsetof(struct qnode, cpu), "cpu" },
		{ offsetof(struct qnode, sleepy), "sleepy" }, { offsetof(struct qnode, locked), "locked" },
	},
};

void enter_lock(struct qspinlock *lock)
{
	queued_spin_lock(lock);
}

int enter_try(struct qspinlock *lock)
{
	return queued_spin_trylock(lock);
}

void enter_unlock(struct qspinlock *lock)
{
	queued_spin_unlock(lock);
}
