// Runs of the queue (docs/FORMATS.md): one is read and made on the kernel's code, or random ones are made and written.
#pragma once
#include <iosfwd>
#include <string>
#include <vector>
#include "../random.h"

// A line of a schedule; a step is one act.
struct Turn {
    bool gives;
    int processor;

    bool operator==(const Turn &other) const { return gives == other.gives && processor == other.processor; }
};
using Schedule = std::vector<Turn>;

// Makes a run that qlock accepts; the queue's transcript is what came.
void drive(std::istream &input);
// Draws how many rounds each processor has, and makes them by a random schedule, which it returns.
Schedule random_run(Random &random);
std::string run_text(const Schedule &schedule, const std::string &comment);
