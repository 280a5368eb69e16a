// A lock's word in the memory: one place with three fields, or three places, so that bytes can be stored out of order.
#pragma once
#include <vector>
#include "memory.h"

// A way to read a word, or to place a store: an index for each field; the fields that are not accessed count for nothing.
struct Way {
    int index[3] = {};
    uint8_t met[3] = {};
    // How many newer messages there are, of all fields.
    int newer = 0;
};

class Word {
  public:
    Word(const Memory &memory, int place, bool split) : memory(memory), place(place), split(split) {}

    // The fields are those of a mask: 1 the first, 2 the second, 4 the third.
    std::vector<Way> readings(const State &s, int t, int mask, const Order &order) const;
    void read(State &s, int t, const Way &way, int mask, const Order &order) const;
    // What a read-modify-write may read, and the change.
    std::vector<Way> changes(const State &s, int t, int mask, const Order &order) const;
    void change(State &s, int t, const Way &way, const uint8_t *value, int mask, const Order &order) const;
    // Where a store of these fields may be placed.
    std::vector<Way> placings(const State &s, int t, int mask, const Order &order) const;
    void store(State &s, int t, const Way &way, const uint8_t *value, int mask, const Order &order) const;
    // Who has seen one field of a wide store has seen all of it.
    void close(State &s, int t) const;

  private:
    const Memory &memory;
    int place;
    bool split;

    Way way_of(const State &s, const int *index) const;
    bool is_whole(const State &s, const Way &way, int mask) const;
    void mark_wide(State &s, const Way &way, int mask) const;
};
