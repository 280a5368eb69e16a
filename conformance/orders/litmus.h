// Litmus tests of the memory alone: which outcomes it allows.
#pragma once
#include <map>
#include <string>
#include <vector>
#include "memory.h"

struct Operation {
    enum Kind { load, store, swap, add, compare, mb, wmb, rmb } kind;
    int place = 0, result = -1, value = 0, expected = 0;
    Order order;
};

struct Litmus {
    std::string name;
    // Whether each model is expected to allow the outcome; empty where nothing is said.
    std::string on_linux, on_c11;
    std::vector<std::string> places;
    std::vector<std::vector<Operation>> threads;
    // The outcome: registers, as thread and number, and last values of places.
    std::map<std::pair<int, int>, int> registers;
    std::map<int, int> lasts;

    bool is_allowed(Model model) const;
};

// The tests of a text; litmus.txt says how it is written. A fault is thrown as text.
std::vector<Litmus> read_litmus(const std::string &path);
// Prints each with what is allowed; how many are not as expected.
int print_litmus(const std::vector<Litmus> &tests);
