// Virtual processors by turns: a task and, above it, at most one handler each, which stand before their next operation on shared memory.
#pragma once
#include <cstdint>
#include <string>
#include <ucontext.h>
#include <vector>
#include "../harness/random.h"

extern "C" {
#include "shims/common.h"
}

constexpr int most_processors = 5, contexts_each = 2, most_locks = 4, nodes_each = 4;

struct Operation {
    int lock;
    bool is_try;
};
using Program = std::vector<Operation>;

struct Context {
    int processor, depth;
    Program program;
    size_t position;
    bool is_finished;
    int lock;
    bool has_taken, is_trying, has_arrived; // in this operation
    std::string at;                         // the operation before which it stands
    ucontext_t registers;
    char *stack;
};

struct Who {
    int processor, depth;
    bool operator==(const Who &other) const { return processor == other.processor && depth == other.depth; }
};
constexpr Who nobody = {-1, -1};

struct Machine {
    int processors, locks;
    Context contexts[most_processors][contexts_each];
    int depth[most_processors]; // how many of them there are
    bool is_preempted[most_processors];
    Context *current;
    Who holder[most_locks], node_of[most_processors][nodes_each];
    std::string history, schedule; // the schedule only if it is told
    bool tells_schedule;
    uint64_t operations, events, last_event; // last_event: the operations up to it
    uint64_t wrong_links;                    // in all runs

    Context &top(int processor) { return contexts[processor][depth[processor] - 1]; }
};
extern Machine machine;

// Ends the harness with a reason, since the lock's code or the harness is not as it should be.
[[noreturn]] void fail(const std::string &why);

// ---- what an architecture's operations say ----
// Gives way before an operation, which `what` names.
void give_way(const std::string &what);
void tell(const std::string &what);
void take(const char *manner);
void release(void *word);
// The place in a processor's variables: its node, and the name of the field.
struct Spot {
    int processor, node; // -1: none
    size_t field;
    std::string name;
};
Spot spot_of(const volatile void *place);
// Counts a link to a node whose context does not wait for this lock.
void check_link(Spot spot, bool is_in_use);
void tell_handoff(Spot spot);

// ---- memory ----
struct Word {
    alignas(64) uint32_t value;
};
extern Word words[most_locks];
bool is_lock(const volatile void *place);
// All variables and locks as at the start of a machine.
void reset_memory();

// ---- turns ----
void spawn(int processor, const Program &program);
// One operation of this processor.
void turn(int processor);

// ---- of the architecture ----
void reset_architecture();
void note_plain(const Spot &spot, void *place, bool is_store);
std::string figures_of_architecture();
