// The steps of the hash of the paravirtual lock, halts and kicks.
#include "stepper.h"

static constexpr int storing = 16, looking = 16, freeing = 32;

// Linux claims the first bucket that its swap finds empty, and then stores the node there.
void Stepper::enter() {
    int buckets = lock.bucket_locks.size(), step = mine(base).step;
    if (step < storing) {
        const Row &claim = lock.table[lock.table.find("Hc")];
        int place = deed.place = lock.bucket_locks[step];
        for (int i = memory().oldest(base, t, place, claim.order); i <= base.last(place); i++) {
            bool is_free = base.message(place, i).value[0] == 0;
            if (is_free && !memory().is_open(base, place, i + 1)) continue;
            State next = base;
            uint8_t taken[3] = {1, 0, 0};
            if (is_free && claim.order.mb_before) memory().mb(next, t);
            if (is_free && memory().oldest(next, t, place, claim.order) > i) continue;
            memory().read(next, t, place, i, 1, is_free ? claim.order : Order());
            if (is_free) memory().modify(next, t, place, i, taken, claim.order);
            if (is_free) memory().behind(next, t, claim.order);
            if (!is_free && step + 1 == buckets) failure = Failure::no_entry;
            deed.reads = true, deed.stores = is_free, deed.failed = !is_free, deed.newer = base.last(place) - i;
            deed.met[0] = base.message(place, i).value[0], deed.left[0] = 1;
            at_step(next, is_free ? storing + step : step + 1);
        }
        return;
    }
    int place = deed.place = lock.bucket_nodes[step - storing];
    uint8_t node[3] = {(uint8_t)(row().is_own ? t + 1 : value(row().named)), 0, 0};
    deed.stores = true;
    for (int i = memory().lowest(base, t, place, row().order); i <= base.count(place); i++) {
        if (!memory().is_open(base, place, i)) continue;
        State next = base;
        memory().store(next, t, place, i, node, row().order);
        if (row().is_own) mine(next).registers[slot_] = step - storing;
        deed.before = base.count(place) - i, deed.left[0] = node[0];
        follow(next, node);
    }
}

void Stepper::erase() {
    Row stored = row();
    stored.stored[0] = {Stored::number, 0};
    store_at(deed.place = lock.bucket_locks[value(slot_)], stored);
}

// Linux looks at each bucket's lock, then at the node of the one that has it, and then frees the bucket.
void Stepper::find() {
    int buckets = lock.bucket_locks.size(), step = mine(base).step;
    int bucket = step % looking;
    if (step >= freeing) {
        Row stored = row();
        stored.stored[0] = {Stored::number, 0};
        return store_at(deed.place = lock.bucket_locks[bucket], stored);
    }
    const Row &look = lock.table[lock.table.find(step < looking ? "Ul" : "Un")];
    int place = deed.place = step < looking ? lock.bucket_locks[bucket] : lock.bucket_nodes[bucket];
    deed.reads = true;
    for (int i = memory().oldest(base, t, place, look.order); i <= base.last(place); i++) {
        uint8_t met = base.message(place, i).value[0];
        State next = base;
        memory().read(next, t, place, i, 1, look.order);
        deed.newer = base.last(place) - i, deed.met[0] = met;
        bool is_last = step < looking && !met && bucket + 1 == buckets;
        if (is_last || (step >= looking && !met)) failure = Failure::no_entry;
        if (step >= looking) mine(next).registers[target_] = met;
        at_step(next, step >= looking ? freeing + bucket : met ? looking + bucket : step + 1);
    }
}

// A halt, and then its end, by the kick that is remembered.
void Stepper::halt() {
    State next = base;
    int place = lock.kicks[t];
    if (mine(base).step == 0) {
        mine(next).step = 1;
        deed.note = "halts";
        deed.event = row().cases[0].event.c_str();
        return emit(next);
    }
    if (!base.newest(place).value[0]) return;
    uint8_t none[3] = {};
    deed.place = place, deed.note = "wakes", deed.event = "wake L";
    memory().read(next, t, place, base.last(place), 1, row().order);
    memory().modify(next, t, place, base.last(place), none, Order());
    mine(next).step = 0;
    Case leads = row().cases[0];
    leads.event = "";
    lead(next, leads);
    emit(next);
}

void Stepper::kick() {
    int place = deed.place = lock.kicks[value(row().named) - 1];
    uint8_t one[3] = {1, 0, 0}, met[3] = {base.newest(place).value[0], 0, 0};
    State next = base;
    deed.reads = deed.stores = true, deed.left[0] = 1;
    memory().read(next, t, place, base.last(place), 1, Order());
    memory().modify(next, t, place, base.last(place), one, row().order);
    follow(next, met);
}
