// The virtual processors that run Linux's optimistic spin queue, and what they have done.
#pragma once
#include <memory>
#include <string>
#include <ucontext.h>
#include "../table.h"

constexpr int most_processors = 64;
constexpr int nobody = -1;

// What an address is: the tail, or a field of a processor's node.
struct Spot {
    Word word = Word::none;
    int processor = nobody;
};

// The last look of a waiting loop, until it is known whether the loop ends.
struct Look {
    const shim_place *at;
    const volatile void *address;
    int size;
    uint64_t value;
    bool is_held_back = false; // by a change
};

// A coroutine that makes its rounds: it locks, and releases where it has not given up.
struct Processor {
    int number;
    int rounds_left = 0;
    bool is_asked = false; // to give up
    bool is_finished = true;
    Phase phase = Phase::outside; // locking, quitting or releasing while a round lasts
    const shim_place *at = nullptr; // the operation before which it stands
    Row last = Row::none;
    Look look;
    ucontext_t registers;
    std::unique_ptr<char[]> stack;

    Standing standing() const { return {phase, Code::either, last}; }
    bool has_round() const { return phase != Phase::outside; }
};

// What was done at a place.
struct Made {
    const shim_place *at;
    Spot spot;
    uint64_t before;
    bool has_swapped, ends_loop;
};

struct Queue {
    int processors = 0;
    int rounds[most_processors]; // of each processor, what the run says
    Processor of[most_processors];
    Processor *current = nullptr;
    uint64_t acts, operations = 0; // the operations of all runs
    bool has_acted;                // in this turn
    int holder, handed_to;         // by the events
    std::string transcript;

    // At rest, each processor with rounds at its first operation.
    void start();
    bool is_finished() const;
    void check_rest() const;
    std::string closing() const { return "end " + std::to_string(acts) + "\n"; }
};
extern Queue queue;

// ---- memory ----
void clear_memory();
void *copy_of(const void *variable, int processor);
const void *node_of(int processor);
Spot spot_of(const volatile void *address, int size);
bool is_at_rest();

// ---- turns ----
// The coroutine that runs gives way, before the operation at this place.
void give_way(const shim_place *at);
// One operation of Linux at most; whether it was an act.
bool turn(int processor);
// One act of the processor, by as many operations of Linux as it takes.
void step(int processor);
void give(int processor);
bool is_give_idle(int processor);

// What the operation means: an act of the rows or none, and its event. Checks what Linux did.
void record(Processor &processor, const Made &made);

// Reads where the plain accesses of Linux's code stand: a line for each, with the address behind the call, file, line and function.
void read_plain_places(const std::string &path);
