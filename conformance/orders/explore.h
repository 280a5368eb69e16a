// All states of a setup, breadth first, and the shortest execution to each failure.
#pragma once
#include <cstdint>
#include <functional>
#include <string>
#include <vector>
#include "lock.h"

// A set of prints, by open addressing.
class Prints {
  public:
    Prints() : slots(1 << 12) {}
    bool insert(Print print);
    bool contains(Print print) const;
    size_t size() const { return count; }
    size_t bytes() const { return slots.size() * sizeof(Print); }
    // The bytes that are there at once when the set grows, if it soon does; else those that are there.
    size_t soon() const { return (count + 1024) * 3 > slots.size() * 2 ? bytes() * 3 : bytes(); }

  private:
    std::vector<Print> slots;
    size_t count = 0;
    size_t slot_of(Print print) const;
    void grow();
};

struct Limits {
    size_t megabytes = 4096;
    double seconds = 600;
    // Progress on standard error every so many seconds; 0 for none.
    double progress = 5;
    // What is explored, and for what, for the line of progress.
    std::string name, purpose;
};

// One step of an execution: what was done, and the state behind it.
struct Step {
    Deed deed;
    State state;
};

struct Found {
    Failure failure;
    std::vector<Step> steps;
};

struct Result {
    size_t states = 0, ends = 0, bytes = 0;
    double seconds = 0;
    // Empty where all states were visited; else why not.
    std::string stopped;
    // The shortest execution to each kind of failure.
    std::vector<Found> failures;
    // The rows whose acts were made.
    std::vector<char> rows;
    // The first way to a state, without its views, that is not among those that are known.
    std::vector<Step> beyond;
};

struct Wanted {
    // Ends at the first failure.
    bool first_failure = false;
    // Counts the states without their views; and tells the first that is not among these.
    bool counts_bare = false;
    const Prints *known = nullptr;
    Prints *bares = nullptr;
    // Is called with each execution to a state that leads to no new one.
    std::function<void(const std::vector<Step> &)> leaf;
};

Result explore(const Lock &lock, const Limits &limits, const Wanted &wanted);

// An execution by choices: each is answered by a number below the count of the steps that can be made.
std::vector<Step> walk(const Lock &lock, const std::function<int(int)> &choose, Failure &failure);
