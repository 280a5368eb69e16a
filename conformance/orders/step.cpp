// The access of a row: each way in which it can go, in a state.
#include <algorithm>
#include "stepper.h"

void Lock::step(const State &s, int t, Sink &sink) const {
    if (s.thread[t].row != done) Stepper(*this, s, t, sink).go();
}

Word Stepper::word() const {
    bool own_place = row().is_readers;
    return Word(memory(), own_place ? lock.readers : word_place, lock.setup.split && !own_place);
}

// The thread whose node the row accesses.
int Stepper::owner() const { return row().is_own ? t : value(row().named) - 1; }
int Stepper::place() const { return lock.nodes[owner()][(int)row().field]; }

void Stepper::go() {
    if (deed.row == lock.section) return section();
    memory().before(base, t, row().order);
    switch (row().access) {
    case Access::reset: return reset();
    case Access::enter: return enter();
    case Access::erase: return erase();
    case Access::find: return find();
    case Access::halt: return halt();
    case Access::kick: return kick();
    default: return row().field == Field::word ? access_word() : access_node();
    }
}

void Stepper::access_word() {
    deed.place = row().is_readers ? lock.readers : word_place;
    switch (row().access) {
    case Access::look: return look_at_word(row(), true);
    case Access::wait: return look_at_word(row(), false);
    case Access::swap: return swap_word(row());
    case Access::store: return store_word(row());
    default: return change_word(row());
    }
}

void Stepper::access_node() {
    if (owner() < 0) {
        failure = Failure::no_entry;
        State next = base;
        return emit(next);
    }
    deed.place = place();
    switch (row().access) {
    case Access::swap: return swap_at(place(), row());
    case Access::store: return store_at(place(), row());
    default: return look_at(place(), row());
    }
}

bool Stepper::is_expected(const Row &row, const uint8_t *met) const {
    for (int field = 0; field < 3; field++) {
        int wanted = row.expected[field];
        if (wanted == Condition::own) wanted = t + 1;
        if (row.mask & 1 << field && wanted >= 0 && met[field] != wanted) return false;
    }
    return true;
}

void Stepper::stored_into(const Row &row, const uint8_t *met, uint8_t *into) const {
    for (int field = 0; field < 3; field++) {
        const Stored &stored = row.stored[field];
        switch (stored.kind) {
        case Stored::kept: into[field] = met[field]; break;
        case Stored::number: into[field] = stored.value; break;
        case Stored::own: into[field] = t + 1; break;
        case Stored::of_register: into[field] = value((Register)stored.value); break;
        case Stored::plus: into[field] = met[field] + 1; break;
        case Stored::minus: into[field] = met[field] - 1; break;
        case Stored::runs: into[field] = value(second_) ? value(runs_) + 1 : 0; break;
        case Stored::go_or_second: into[field] = 1 + value(second_); break;
        }
    }
}

void Stepper::look_at_word(const Row &row, bool stays) {
    deed.reads = true;
    for (const Way &way : word().readings(base, t, row.mask, row.order)) {
        if (!stays && !chosen(way.met)) continue;
        State next = base;
        word().read(next, t, way, row.mask, row.order);
        deed.newer = way.newer;
        memory().behind(next, t, row.order);
        follow(next, way.met);
    }
}

// A swap that fails is a load without an order, unless the row's order is there always; then what stands before it is made.
Order Stepper::failing_order(State &looking, const Row &row) const {
    if (row.order.always) {
        if (row.order.mb_before) memory().mb(looking, t);
        return row.order;
    }
    Order order;
    order.heads_control = row.order.heads_control;
    order.follows_address = row.order.follows_address;
    return order;
}

void Stepper::swap_word(const Row &row) {
    deed.reads = true;
    State looking = base;
    Order failing = failing_order(looking, row);
    for (const Way &way : word().readings(looking, t, row.mask, failing)) {
        if (is_expected(row, way.met)) continue;
        State next = looking;
        word().read(next, t, way, row.mask, failing);
        memory().behind(next, t, failing);
        deed.newer = way.newer, deed.failed = true;
        follow(next, way.met);
    }
    deed.failed = false, swapped = true;
    change_word(row);
}

void Stepper::change_word(const Row &row) {
    deed.reads = deed.stores = true;
    State ready = base;
    if (row.order.mb_before) memory().mb(ready, t);
    for (const Way &way : word().changes(ready, t, row.mask, row.order)) {
        if (row.access == Access::swap && !is_expected(row, way.met)) continue;
        State next = ready;
        uint8_t value[3];
        stored_into(row, way.met, value);
        word().change(next, t, way, value, row.mask, row.order);
        memory().behind(next, t, row.order);
        std::copy(value, value + 3, deed.left);
        deed.newer = way.newer;
        follow(next, way.met);
    }
}

void Stepper::store_word(const Row &row) {
    deed.stores = true;
    for (const Way &way : word().placings(base, t, row.mask, row.order)) {
        State next = base;
        uint8_t value[3];
        stored_into(row, way.met, value);
        word().store(next, t, way, value, row.mask, row.order);
        memory().behind(next, t, row.order);
        std::copy(value, value + 3, deed.left);
        deed.before = way.newer;
        follow(next, way.met);
    }
}

void Stepper::look_at(int place, const Row &row) {
    deed.reads = true;
    for (int i = memory().oldest(base, t, place, row.order); i <= base.last(place); i++) {
        const uint8_t *met = base.message(place, i).value;
        if (row.access == Access::wait && !chosen(met)) continue;
        State next = base;
        memory().read(next, t, place, i, 1, row.order);
        deed.newer = base.last(place) - i;
        follow(next, met);
    }
}

void Stepper::swap_at(int place, const Row &row) {
    deed.reads = true;
    State looking = base;
    Order failing = failing_order(looking, row);
    for (int i = memory().oldest(looking, t, place, failing); i <= base.last(place); i++) {
        if (is_expected(row, base.message(place, i).value)) continue;
        State next = looking;
        memory().read(next, t, place, i, 1, failing);
        memory().behind(next, t, failing);
        deed.newer = base.last(place) - i, deed.failed = true;
        follow(next, base.message(place, i).value);
    }
    deed.failed = false, deed.stores = swapped = true;
    State ready = base;
    if (row.order.mb_before) memory().mb(ready, t);
    for (int i = memory().oldest(ready, t, place, row.order); i <= ready.last(place); i++) {
        const uint8_t *met = base.message(place, i).value;
        if (!is_expected(row, met) || !memory().is_open(ready, place, i + 1)) continue;
        State next = ready;
        uint8_t value[3] = {};
        stored_into(row, met, value);
        memory().read(next, t, place, i, 1, row.order);
        memory().modify(next, t, place, i, value, row.order);
        memory().behind(next, t, row.order);
        deed.newer = base.last(place) - i, deed.left[0] = value[0];
        follow(next, met);
    }
}

void Stepper::store_at(int place, const Row &row) {
    deed.stores = true;
    for (int i = memory().lowest(base, t, place, row.order); i <= base.count(place); i++) {
        if (!memory().is_open(base, place, i)) continue;
        State next = base;
        uint8_t value[3] = {}, met[3] = {base.newest(place).value[0], 0, 0};
        stored_into(row, met, value);
        memory().store(next, t, place, i, value, row.order);
        memory().behind(next, t, row.order);
        deed.before = base.count(place) - i, deed.left[0] = value[0];
        follow(next, met);
    }
}

// The step goes on within its row.
void Stepper::at_step(State &next, int step) {
    mine(next).step = step;
    deed.is_act = false;
    emit(next);
    deed.is_act = true;
}

void Stepper::reset() {
    int step = mine(base).step;
    int place = deed.place = lock.nodes[t][(int)lock.fields[step]];
    uint8_t none[3] = {};
    deed.stores = true;
    for (int i = memory().lowest(base, t, place, row().order); i <= base.count(place); i++) {
        if (!memory().is_open(base, place, i)) continue;
        State next = base;
        memory().store(next, t, place, i, none, row().order);
        deed.before = base.count(place) - i;
        if (step + 1 < (int)lock.fields.size()) at_step(next, step + 1);
        else follow(next, none);
    }
}

// The critical section: who holds alone looks at all that was written there, and writes; a reader writes a mark of its own.
void Stepper::section() {
    State next = base;
    deed.is_act = false;
    const Sight &sight = base.thread[t].sight;
    auto is_stale = [&](int place) {
        int seen = std::max(sight.cur[place], lock.setup.writes_only ? sight.control[place] : sight.looked[place]);
        return memory().model != Model::sc && seen < base.last(place);
    };
    bool is_reader = std::string("riy").find(lock.setup.workers[t].kind) != std::string::npos;
    bool stale = is_stale(lock.written);
    for (int mark : lock.read_marks) stale |= !is_reader && is_stale(mark);
    if (stale) failure = Failure::stale;
    uint8_t value[3] = {};
    int place = deed.place = is_reader ? lock.read_marks[t] : lock.written;
    memory().store(next, t, place, base.count(place), value, Order());
    deed.note = stale ? "reads, late: something newer was stored" : is_reader ? "reads" : "reads and writes";
    mine(next).row = lock.last_row(t);
    emit(next);
}
