// Random schedules, made while the kernel's code runs.
#pragma once
#include <string>
#include <vector>
#include "random.h"
#include "setups.h"

// A line of a schedule, by its word; a step is one act.
struct Turn {
    const char *word;
    int processor;

    bool operator==(const Turn &other) const { return word == other.word && processor == other.processor; }
};
using Schedule = std::vector<Turn>;

enum class Ending { finished, stuck, cut };
const char *name_of(Ending ending);

// Runs the machine's setup by a random schedule, which it returns.
Schedule random_schedule(Random &random, Kind kind, Ending &ending);
