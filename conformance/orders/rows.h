// The rows as data, which rows.txt has, with the orders of a table of operations. rows.txt says how to read it.
#pragma once
#include <map>
#include <string>
#include <vector>
#include "memory.h"

enum class Access { look, wait, store, swap, exchange, set, add, subtract, reset, enter, erase, find, halt, kick, section };
enum class Field { word, flag, next, state, tail, runs, self, hash };
enum Register : uint8_t { prev_, y_, second_, a_, b_, k_, t_, why_, tailed_, left_, hashed_, target_, then_, runs_, slot_, rounds_, registers };
enum class Family { native_, virt_, pv_, cna_ };

// One condition of a case: on what was met, on the registers, or on the setup.
struct Condition {
    enum Kind { swapped, fields, unset, go, none, node, running, halted, hashed_state, family, local, below, is_set, why, more, interrupt, patient } kind;
    // fields: a value for each, or any, nonzero, own. Else the family, the register or the reason in the first.
    int value[3] = {};
    static constexpr int any = -1, nonzero = -2, own = -3;
};

struct Assignment {
    Register to;
    // The value: met, the tail that was met, a register, a number; or one more or less than before.
    enum Kind { met, tail, of_register, number, spins, plus, minus } kind;
    int value = 0;
};

struct Case {
    std::vector<Condition> conditions;
    enum Where { row, granted, freed, done, missed, waitlock, freewait, again } where = row;
    int next = -1, via = -1;
    std::vector<Assignment> assignments;
    std::string event;
};

// What a row stores into a field: kept, a number, the own node, a register's node, one more or less.
struct Stored {
    enum Kind { kept, number, own, of_register, plus, minus, runs, go_or_second } kind = kept;
    int value = 0;
};

struct Row {
    std::string label;
    bool is_extra = false;
    Access access = Access::look;
    // The place: a field of the lock's word (1 tail, 2 pending, 4 locked), or a field of a node that a register names; own: none.
    Field field = Field::word;
    int mask = 7;
    bool is_own = true, is_readers = false;
    Register named = prev_;
    std::string before, after;  // as documents write it
    int expected[3] = {Condition::any, Condition::any, Condition::any};
    Stored stored[3];
    std::string as, own_order;
    std::vector<std::string> comes_from;
    // What the order is needed for: by the name of its part, "" for the access itself.
    std::map<std::string, std::string> needs;
    std::vector<Case> cases;
    Order order;
    // The order of the access as the code names it, and its place there.
    std::string ordered = "relaxed", file;
    int line = 0;
    // A barrier before it, and a dependency: their names, where there are any, with the row from which the dependency comes.
    std::string fence, dependency;
    int fence_line = 0, dependency_line = 0, depends_on = -1;
};

// What can be taken from a row: an order of its access, its barrier or its dependency.
struct Weakening {
    int row;
    enum Part { access, fence, dependency } part;
    std::string to;
};

struct Table {
    std::vector<Row> rows;
    int find(const std::string &label) const;  // -1 where there is none
    const Row &operator[](int row) const { return rows[row]; }
    // Reads rows.txt, and the orders of a table of operations. A fault is thrown as text.
    void read(const std::string &path);
    void read_orders(const std::string &path);
    // Gives the access of a row another order.
    void set_order(int row, const std::string &order);
    void weaken(const Weakening &weakening);
    // All that can be taken from these rows, one at a time.
    std::vector<Weakening> weakenings(const std::vector<int> &rows) const;
    // "G7", "G4.wmb" or "G4>G5".
    std::string name_of(const Weakening &weakening) const;
    int line_of(const Weakening &weakening) const;
    std::string order_of(const Weakening &weakening) const;
    std::string needs_of(const Weakening &weakening) const;
};

const char *name_of(Register number);
