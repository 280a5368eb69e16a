// Random setups of a family of locks.
#pragma once
#include <string>
#include "random.h"
#include "setup.h"

struct Family {
    const char *name;
    Mode mode;
    bool has_rw;
};
const Family &family_named(const std::string &name);

// How much interrupts there are in a run.
enum class Kind {
    plain,
    interrupts,
    deep_interrupts,
    tower // one processor holds all locks, and on another one contexts pile up that wait for them
};

// In format 2 where it is wide, with processors of high numbers.
Setup random_setup(Random &random, const Family &family, bool is_wide, Kind &kind);
