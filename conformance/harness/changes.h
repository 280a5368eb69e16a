// One change of what the kernel's code does, at the lines of the table with one function, operation and row.
#pragma once
#include <cstdint>
#include <string>
#include "table.h"

enum class ChangeKind { nothing, skip, repeat, value, expected, blind };

// skip      the operation is not made; a swap answers as if it had happened, a waiting loop ends at its first look
// repeat    it is made twice
// value     another value is stored, or answered by a look: the bits of `bits` are turned
// expected  a swap compares with another value
// blind     a swap stores without comparing
struct Change {
    ChangeKind kind = ChangeKind::nothing;
    std::string function;
    shim_operation operation = shim_none_operation;
    Row row = Row::none;
    uint64_t bits = 0;

    // The kind of change of this operation, if it is the one.
    ChangeKind at(const Entry *entry) const;
    // KIND FUNCTION OPERATION ROW [BITS]; a place that the table lacks ends the run.
    void read(const std::string &text);
};
extern Change change;
