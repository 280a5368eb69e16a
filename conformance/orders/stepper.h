// How a processor makes a step: step.cpp has the access of its row, hash_steps.cpp those of the hash and of halts, and leading.cpp
// where the row leads.
#pragma once
#include "lock.h"
#include "word.h"

// A step of one processor in one state. Each way in which it can go is told to the sink.
class Stepper {
  public:
    Stepper(const Lock &lock, const State &s, int t, Sink &sink) : lock(lock), base(s), t(t), sink(sink) {
        deed.thread = t;
        deed.row = base.thread[t].row;
    }
    void go();

  private:
    const Lock &lock;
    State base;
    const int t;
    Sink &sink;
    Deed deed;
    Failure failure = Failure::none;
    bool swapped = false;

    const Row &row() const { return lock.table[deed.row]; }
    const Memory &memory() const { return lock.memory; }
    Thread &mine(State &s) const { return s.thread[t]; }
    uint8_t value(Register number) const { return base.thread[t].registers[number]; }
    Word word() const;
    int place() const;
    int owner() const;

    void access_word();
    void access_node();
    void look_at_word(const Row &row, bool stays);
    void swap_word(const Row &row);
    void change_word(const Row &row);
    void store_word(const Row &row);
    void look_at(int place, const Row &row);
    void swap_at(int place, const Row &row);
    void store_at(int place, const Row &row);
    void reset();
    void enter();
    void erase();
    void find();
    void halt();
    void kick();
    void section();
    Order failing_order(State &looking, const Row &row) const;
    bool is_expected(const Row &row, const uint8_t *met) const;
    void stored_into(const Row &row, const uint8_t *met, uint8_t *value) const;

    const Case *chosen(const uint8_t *met) const;
    bool holds(const Condition &condition, const uint8_t *met) const;
    void follow(State &next, const uint8_t *met);
    void lead(State &next, const Case &chosen);
    void assign(State &next, const Case &chosen, const uint8_t *met) const;
    void tell(State &next, const std::string &event);
    void take(State &next, const std::string &how, bool is_waiting);
    void ends(State &next);
    void at_step(State &next, int step);
    void emit(State &next);
};
