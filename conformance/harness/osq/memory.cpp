// The memory that the queue's code works on: the tail, and the node of each processor.
#include <cstdlib>
#include <cstring>
#include "../fault.h"
#include "queue.h"

// The kernel's variables of a processor stand in this section; each processor's copy has the same layout.
extern "C" char __start_conformance_per_cpu[], __stop_conformance_per_cpu[];
extern "C" uint32_t osq_tail;
uint32_t osq_tail;

namespace {
// Where the fields of a node stand in it.
constexpr int at_next = 0, at_prev = 8, at_flag = 16, at_cpu = 20;

const size_t copy_size = (__stop_conformance_per_cpu - __start_conformance_per_cpu + 63) / 64 * 64;
char *const copies = (char *)aligned_alloc(64, copy_size * most_processors);

Word part_of_node(size_t offset, int size) {
    if (offset == at_next && size == 8) return Word::next;
    if (offset == at_prev && size == 8) return Word::prev;
    if (offset == at_flag && size == 4) return Word::flag;
    return offset == at_cpu && size == 4 ? Word::cpu : Word::none;
}
} // namespace

Spot spot_of(const volatile void *address, int size) {
    const char *p = (const char *)address;
    if (p == (const char *)&osq_tail) return {size == 4 ? Word::tail : Word::none, nobody};
    if (p < copies || p >= copies + copy_size * most_processors) return {};
    size_t offset = p - copies;
    return {part_of_node(offset % copy_size, size), (int)(offset / copy_size)};
}

void clear_memory() {
    osq_tail = 0;
    memset(copies, 0, copy_size * most_processors);
}

void *copy_of(const void *variable, int processor) {
    if (processor < 0 || processor >= queue.processors) fail("there is no processor %d", processor);
    return copies + processor * copy_size + ((const char *)variable - __start_conformance_per_cpu);
}

const void *node_of(int processor) { return copies + processor * copy_size; }

bool is_at_rest() {
    for (int p = 0; p < queue.processors; p++)
        if (*(void *const *)node_of(p)) return false;
    return osq_tail == 0;
}
