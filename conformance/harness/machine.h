// The virtual processors that run the kernel's code, and what they have done.
#pragma once
#include <cstdint>
#include <memory>
#include <set>
#include <string>
#include <ucontext.h>
#include <utility>
#include <vector>
#include "memory.h"
#include "setup.h"
#include "table.h"
#include "../shims/operations.h"

// The last look of a waiting loop, until it is known whether the loop ends.
struct Look {
    const shim_place *at;
    const volatile void *address;
    int size;
    uint64_t value;
    bool is_held_back = false; // by a change
};

// What x86 does where it sets pending: the word that the first of its two operations met; which such operation it is of
// the run; and whether P1 stands at the second one.
struct PendingInTwo {
    uint32_t met = 0;
    long number = 0;
    bool is_late = false;
};

// A task or a handler on a processor: a coroutine.
struct Context {
    int processor, depth;
    const Program *program = nullptr;
    size_t position = 0;
    bool is_finished = false;
    ucontext_t registers;
    std::unique_ptr<char[]> stack;
    const shim_place *at = nullptr; // the operation before which it stands
    Phase phase = Phase::outside;
    int lock = 0; // the spinlock on which it acts
    bool is_wait_lock = false;
    int rw_lock = 0;
    int node = -1;
    Row last = Row::none; // its last row
    bool knows_next = false;
    int target = -1; // the processor that it is to kick
    Spot before;     // the node behind which it has linked its own
    bool has_taken = false, has_taken_rw = false, has_missed = false; // in this operation
    std::vector<int> kept_counts; // which Linux has made and the rows make at the next act
    PendingInTwo pending;
    Look look;
    shim_place own_place; // a place that is not one of an operation of Linux

    Standing standing() const;
    std::string lock_name() const { return std::to_string(lock) + (is_wait_lock ? "w" : ""); }
};

struct Processor {
    std::vector<Context *> stack;
    bool is_preempted, is_halted, is_kicked;
    bool has_event; // of Xen: a kick has come, and no wait has cleared it since
    size_t next_handler;

    Context &top() const { return *stack.back(); }
    bool is_finished() const { return top().is_finished; }
};

using Who = std::pair<int, int>; // processor, depth
constexpr Who nobody = {-1, -1};

// Who has a lock, as the events tell it.
struct Holders {
    Who of_spinlock[2], writer; // [1] is the wait lock's
    std::set<Who> readers;
};

// Places where Linux and the rows differ, met in this run.
struct Causes {
    bool split = false;  // x86: a tail came in between the halves of setting pending
    bool stride = false; // a look at the state of the node before was left out, and that did not run
    bool late = false;   // an interrupt before the count fell
    bool event = false;  // Xen: a pending event ended a wait before its look, or before its halt
};

constexpr int count_kinds = 10;
extern const char *const count_names[count_kinds];

struct Machine {
    Setup setup;
    char *first_node = nullptr; // in the template of a processor's variables
    Processor processors[most_processors];
    Context *current = nullptr;
    uint64_t acts, last_event;
    bool has_acted; // in this turn
    std::string transcript;
    uint64_t counts[count_kinds];
    Holders holders[most_locks];
    int context_of_node[most_processors][nodes_each];
    Causes causes;
    long pending_operations; // of x86, in this run
    std::set<long> late_pending, split_pending;
    bool stops_before_leave = false;
    uint64_t operations = 0; // in all runs

    // At rest, with this setup, each task at its first operation.
    void start();
    bool is_at_rest() const; // every program and handler has ended
    void check_rest() const; // locks, nodes and hash are at rest too
    std::string closing() const;
};
extern Machine machine;

// What the operation that was made there means: an act of the rows or none, its event, its counts. Checks what Linux did.
struct Made {
    const shim_place *at;
    Spot spot;
    uint64_t before, after;
    bool has_swapped, ends_loop;
    uint8_t locked_before;
};
void record(Context &context, const Made &made);
void tell(Context &context, const std::string &event);
// Linux counts this event.
void count_event(Context &context, unsigned long event);
