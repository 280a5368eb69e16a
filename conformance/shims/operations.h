/*
 * The kinds of operations on shared words, and the place of one in the kernel's source. C and C++ read it.
 */
#ifndef CONFORMANCE_OPERATIONS_H
#define CONFORMANCE_OPERATIONS_H

/*
 * load      looks once
 * wait      one look of a loop that waits for a condition
 * store     stores
 * swap      compares and exchanges
 * exchange  exchanges
 * or, andnot, add, subtract   change in one operation
 * bit       sets a bit and answers what the bit was (x86)
 * node      takes the next node of the processor; no shared operation, but a place of the schedule
 * halt      the processor halts; wake is the place behind it
 * kick      the processor of another is kicked
 * none      an act of the rows for which Linux makes no operation at this place
 */
#define SHIM_OPERATIONS(X) \
	X(load) X(wait) X(store) X(swap) X(exchange) X(or) X(andnot) X(add) X(subtract) X(bit) X(node) X(halt) X(wake) X(kick) X(none)

enum shim_operation {
#define X(name) shim_##name##_operation,
	SHIM_OPERATIONS(X)
#undef X
	shim_operations
};

struct shim_place {
	enum shim_operation operation;
	const char *file; /* below the top of the kernel's source */
	const char *function;
	int line;
};
#endif
