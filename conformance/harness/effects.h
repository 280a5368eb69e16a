// What an operation of the shims does to the word on which it is made.
#pragma once
#include <cstdint>
#include <cstring>
#include <functional>

struct Effect {
    bool stores;
    uint64_t after;
    bool has_swapped = false;
};
using Maker = std::function<Effect(uint64_t)>;

inline uint64_t bits_of(int size) { return size == 8 ? ~0ull : (1ull << 8 * size) - 1; }

inline uint64_t value_at(const volatile void *address, int size) {
    uint64_t value = 0;
    memcpy(&value, (const void *)address, size);
    return value;
}

// Stores what the effect says; answers what stands there then.
inline uint64_t store_effect(const Effect &made, volatile void *address, int size, uint64_t before) {
    uint64_t after = made.stores ? made.after & bits_of(size) : before;
    memcpy((void *)address, &after, size);
    return after;
}

inline Effect no_effect(uint64_t) { return {false, 0}; }

inline Maker store_of(uint64_t value) {
    return [=](uint64_t) { return Effect{true, value}; };
}

// Stores without comparing.
inline Maker blind_swap_of(uint64_t value) {
    return [=](uint64_t) { return Effect{true, value, true}; };
}

inline Maker swap_of(uint64_t compared, uint64_t value) {
    return [=](uint64_t before) { return Effect{before == compared, value, before == compared}; };
}
