// The operations of s390's spinlock, and what they mean as events.
#include "machine.h"
#include <cstring>

constexpr uint32_t owner_mask = 0xffff, tail_mask = 0xfffc0000u, steal_shift = 16, index_shift = 18;

struct lowcore {
    int spinlock_lockval, spinlock_index;
};
static lowcore lowcores[most_processors];
static uint64_t arrivals, steals[4];
static int in_a_row[most_locks]; // takes past the head of a queue

extern "C" const shim_nodes shim_nodes;
extern "C" void enter_setup(int cpu);

void reset_architecture() {
    memset(in_a_row, 0, sizeof in_a_row);
    for (int processor = 0; processor < most_processors; processor++) {
        lowcores[processor] = {processor + 1, 0};
        enter_setup(processor);
    }
}

// A steal past a queue raises a count of two bits in the word.
std::string figures_of_architecture() {
    return "arrivals " + std::to_string(arrivals) + ", steals first " + std::to_string(steals[1]) + " second " + std::to_string(steals[2]) + " third " + std::to_string(steals[3]);
}


// The handoff is a plain store to the successor's node.
void note_plain(const Spot &spot, void *, bool is_store) {
    if (is_store && spot.node >= 0 && spot.processor != machine.current->processor && spot.field == shim_nodes.handed) tell_handoff(spot);
}

extern "C" {
lowcore *shim_lowcore(void) { return &lowcores[machine.current->processor]; }
int shim_is_interrupt(void) { return machine.current->depth > 0; }

// The link.
void shim_store(volatile void *place, int size, u64 value, const char *function) {
    Spot spot = spot_of(place);
    give_way(std::string(function) + " stores " + spot.name + " of node " + std::to_string(spot.node) + " of processor " + std::to_string(spot.processor));
    check_link(spot, spot.node < lowcores[spot.processor].spinlock_index);
    memcpy((void *)place, &value, size);
}

int shim_add(int *word, int value, const char *function) {
    give_way(std::string(function) + " adds to the lock");
    int old = *word;
    *word += value;
    return old;
}

// Half of the word becomes 0: the owner's.
void shim_release(int *word, const char *function) {
    give_way(std::string(function) + " stores to the lock");
    release(word);
    *word &= ~(int)owner_mask;
}

int shim_compare_exchange(int *word, int old, int value, const char *function) {
    give_way(std::string(function) + " exchanges the lock");
    if (*word != old) return 0;
    *word = value;
    Context &context = *machine.current;
    uint32_t now = (uint32_t)value;
    bool has_taken = !((uint32_t)old & owner_mask) && (now & owner_mask);
    if (!has_taken) {
        context.has_arrived = true;
        arrivals++;
        machine.node_of[context.processor][(now >> index_shift) & 3] = {context.processor, context.depth};
        tell("arrive " + std::to_string(context.lock));
    } else if (context.has_arrived) {
        in_a_row[context.lock] = 0;
        take(now & tail_mask ? "head" : "sole");
    } else {
        steals[(now >> steal_shift) & 3]++;
        if (old && ++in_a_row[context.lock] > 3) fail("a fourth take in a row goes past the head");
        take(context.is_trying ? "try" : old ? "steal" : "fast");
    }
    return 1;
}
}
