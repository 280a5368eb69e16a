// Random numbers that are the same for the same seed.
#pragma once
#include <cstdint>

class Random {
    uint64_t state;

    uint64_t next() {
        state ^= state << 13;
        state ^= state >> 7;
        state ^= state << 17;
        return state * 0x2545F4914F6CDD1Dull >> 11;
    }

public:
    explicit Random(uint64_t seed) : state(seed * 0x9E3779B97F4A7C15ull + 0x1234567) { next(); }

    int below(int n) { return (int)(next() % (uint64_t)n); }
    int between(int least, int most) { return least + below(most - least + 1); }
    bool with_chance(double chance) { return (double)(next() & 0xffffff) < chance * 0x1000000; }
};
