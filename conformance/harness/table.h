// The table of operations: which row an operation at a place of the kernel's code is. operations/6.1.txt says how to read it.
#pragma once
#include <string>
#include <vector>
#include "rows.h"
#include "words.h"
#include "../shims/operations.h"

// How far a waiter is in its operation.
enum class Phase { outside, trying, locking, with_node, without_node, queued, quitting, releasing };

enum class By { anyone, a_try, with_node, without_node, a_quitter, a_releaser };
enum class Code { either, native, pv };
enum class When { always, never, last_look, nonzero, other, swapped, held, swapped_or_held, second_half };

struct Entry {
    std::string file, function;
    int line;
    shim_operation operation;
    Word word;
    Row row = Row::none;
    By by = By::anyone;
    Code code = Code::either;
    Row after = Row::none;
    When when = When::always;
};

// What of the one who makes an operation says which line is meant.
struct Standing {
    Phase phase;
    Code code;
    Row last;
};

struct Table {
    std::vector<Entry> entries;

    void read(const std::string &path);
    // The entry of the operation that is made at this place on this word; null where there is none.
    const Entry *find(const shim_place &at, Word word, const Standing &standing) const;
};

extern Table table;
const char *name_of(shim_operation operation);
// The operation with this name; a name that is none ends the run.
shim_operation operation_named(const std::string &name);
