// The operations of powerpc's qspinlock: one for each body in assembly, and what they mean as events.
#include "machine.h"
#include <cstring>

constexpr uint32_t tail_mask = 0xfffe0000u, must_queue = 0x10000u, locked = 1;
enum { SHIM_CLEAN, SHIM_PUBLISH, SHIM_MUSTQ, SHIM_NO_MUSTQ, SHIM_SLEEPY, SHIM_TRY, SHIM_STEAL, kinds };
static uint64_t made[kinds];

extern "C" const shim_nodes shim_nodes;

void reset_architecture() {}

std::string figures_of_architecture() {
    return "arrivals " + std::to_string(made[SHIM_PUBLISH]);
}

static int count_of(int processor) {
    return *(int *)shim_of_cpu(shim_nodes.variable, processor);
}

// The count rises by a plain store: from then on the context has that node.
void note_plain(const Spot &spot, void *place, bool is_store) {
    int count = *(int *)place;
    if (is_store && spot.node < 0 && spot.field == 0 && count < nodes_each) machine.node_of[spot.processor][count] = {machine.current->processor, machine.current->depth};
}

extern "C" void shim_store(volatile void *place, int size, u64 value, const char *function) {
    Spot spot = spot_of(place);
    bool is_release = is_lock(place);
    give_way(std::string(function) + " stores " + (is_release ? "to the lock" : spot.name + " of node " + std::to_string(spot.node) + " of processor " + std::to_string(spot.processor)));
    if (is_release) {
        release((void *)((uintptr_t)place & ~(uintptr_t)63));
    } else if (spot.field == shim_nodes.handed) {
        tell_handoff(spot);
    } else if (spot.field == shim_nodes.next) {
        check_link(spot, spot.node < count_of(spot.processor));
    }
    memcpy((void *)place, &value, size);
}

// The word that the operation stores, if it is not the one that it met.
static uint32_t updated(uint32_t old, int kind, uint32_t first, uint32_t second) {
    uint32_t tail = old & tail_mask;
    switch (kind) {
    case SHIM_CLEAN: return old & locked ? old : tail == first ? second : tail | second;
    case SHIM_PUBLISH: return (old & ~tail_mask) | first;
    case SHIM_MUSTQ: return old | must_queue;
    case SHIM_NO_MUSTQ: return old & ~must_queue;
    case SHIM_SLEEPY: return old == first ? second : old;
    case SHIM_TRY: return old ? old : second;
    default: return old & ~tail_mask ? old : tail | second;
    }
}

extern "C" u32 shim_update(u32 *word, int kind, u32 first, u32 second, const char *function) {
    give_way(std::string(function) + " updates the lock");
    made[kind]++;
    const Context &context = *machine.current;
    uint32_t old = *word;
    *word = updated(old, kind, first, second);
    bool has_taken = !(old & locked) && (*word & locked);
    if (kind == SHIM_PUBLISH) {
        tell("arrive " + std::to_string(context.lock));
    } else if (has_taken && kind == SHIM_CLEAN) {
        take((old & tail_mask) == first ? "sole" : "head");
    } else if (has_taken) {
        take(context.is_trying ? "try" : old ? "steal" : "fast");
    }
    return old;
}
