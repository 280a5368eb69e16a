#include "setups.h"
#include <algorithm>
#include <set>
#include "fault.h"

static const Family families[] = {
    {"native", Mode::native, false},    {"virt", Mode::test_and_set, false}, {"pv", Mode::pv, false},   {"cna", Mode::cna, false},
    {"native-rw", Mode::native, true}, {"virt-rw", Mode::test_and_set, true}, {"pv-rw", Mode::pv, true}, {"cna-rw", Mode::cna, true},
};

const Family &family_named(const std::string &name) {
    for (const Family &family : families)
        if (name == family.name) return family;
    fail("no family %s", name.c_str());
}

namespace {
using Locks = std::vector<int>;
constexpr size_t longest_program = 24;
constexpr int most_numbers = 1024; // of processors, in format 2

// What a random program is like.
struct Taste {
    int blocks;           // of a lock and its release
    int depth;            // of blocks in blocks
    double tries, ascending; // chances: to try, to take locks in the order of their numbers
};

class Programmer {
    Random &random;
    const Setup &setup;
    const Locks &locks;
    double tries, ascending;
    Program program;
    std::set<int> held;

    Locks takable() {
        int top = held.empty() ? -1 : *held.rbegin();
        bool above = random.with_chance(ascending);
        Locks found;
        for (int lock : locks)
            if (!held.count(lock) && (!above || lock > top)) found.push_back(lock);
        return found;
    }

    Verb random_take(int lock) {
        bool is_try = random.with_chance(tries), reads = random.with_chance(0.6);
        if (!setup.is_rw[lock]) return is_try ? Verb::try_lock : Verb::lock;
        if (reads) return is_try ? Verb::try_read : Verb::read;
        return is_try ? Verb::try_write : Verb::write;
    }

    // Takes a second lock, and releases the first one before it; whether there was a second one.
    bool cross(Verb take, int lock) {
        Locks others;
        for (int other : locks)
            if (!held.count(other) && other > lock && !setup.is_rw[other]) others.push_back(other);
        if (others.empty()) return false;
        int other = others[random.below((int)others.size())];
        program.push_back({Verb::lock, other});
        release(take, lock);
        program.push_back({Verb::unlock, other});
        return true;
    }

    void release(Verb take, int lock) {
        program.push_back({release_of(take), lock});
        held.erase(lock);
    }

    static bool is_try(Verb verb) { return verb == Verb::try_lock || verb == Verb::try_read || verb == Verb::try_write; }

    void add_blocks(int blocks, int depth) {
        for (; blocks > 0 && program.size() < longest_program; blocks--) {
            Locks choice = takable();
            if (choice.empty()) return;
            int lock = choice[random.below((int)choice.size())];
            Verb take = random_take(lock);
            program.push_back({take, lock});
            held.insert(lock);
            if (!is_try(take) && depth > 0 && random.with_chance(0.15) && cross(take, lock)) continue;
            if (depth > 0 && random.with_chance(0.3)) add_blocks(random.between(1, 2), depth - 1);
            release(take, lock);
        }
    }

public:
    Programmer(Random &random, const Setup &setup, const Locks &locks, double tries, double ascending)
        : random(random), setup(setup), locks(locks), tries(tries), ascending(ascending) {}

    Program write(int blocks, int depth) {
        add_blocks(blocks, depth);
        return program;
    }
};

class Builder {
    Random &random;
    const Family &family;
    Setup setup;

    Program program(const Locks &locks, const Taste &taste) {
        return Programmer(random, setup, locks, taste.tries, taste.ascending).write(taste.blocks, taste.depth);
    }

    Locks shuffled(Locks locks) {
        for (int i = (int)locks.size() - 1; i > 0; i--) std::swap(locks[i], locks[random.below(i + 1)]);
        return locks;
    }

    Locks all_locks() const {
        Locks all;
        for (int lock = 0; lock < setup.locks(); lock++) all.push_back(lock);
        return all;
    }

    // A processor of a tower: a task and handlers that each wait for another lock.
    void add_piling(int processor) {
        Locks order = shuffled(all_locks());
        setup.programs[processor] = program({order[0]}, {random.between(1, 4), 0, 0, 1});
        int handlers = random.between(4, 7);
        for (int h = 0; h < handlers; h++) {
            Locks one = {order[(1 + h) % order.size()]};
            setup.handlers[processor].push_back(program(one, {random.between(1, 2), 0, 0, 1}));
        }
    }

    void add_tower() {
        int locks = random.between(6, 7), piling = random.between(1, 2);
        for (int lock = 0; lock < locks; lock++) setup.is_rw.push_back(family.has_rw && random.with_chance(0.3));
        setup.set_processors(1 + locks + piling);
        Program &holder = setup.programs[0];
        for (int lock = 0; lock < locks; lock++) holder.push_back({setup.is_rw[lock] ? Verb::write : Verb::lock, lock});
        for (int lock = locks - 1; lock >= 0; lock--) holder.push_back({setup.is_rw[lock] ? Verb::write_unlock : Verb::unlock, lock});
        for (int lock = 0; lock < locks; lock++) setup.programs[1 + lock] = program({lock}, {random.between(1, 6), 0, 0.1, 1});
        for (int p = 1 + locks; p < setup.processors; p++) add_piling(p);
    }

    // Which locks a handler takes, beside the task's own first lock of the order.
    Locks locks_of_handler(const Locks &order, int handler) {
        if (random.with_chance(0.15)) return all_locks(); // it may wait for its own processor, as in Linux
        return {order[order.size() > 1 ? 1 + handler % (order.size() - 1) : 0]};
    }

    void add_interrupted(int processor, Kind kind, const Taste &taste) {
        Locks order = shuffled(all_locks());
        int handlers = kind == Kind::deep_interrupts ? random.between(4, 8) : random.between(1, 3);
        Taste simple = {0, 0, taste.tries / 2, taste.ascending};
        if (!random.with_chance(0.1)) {
            simple.blocks = random.between(1, 3);
            setup.programs[processor] = program({order[0]}, simple);
        }
        for (int h = 0; h < handlers; h++) {
            bool reads_in_interrupt = family.has_rw && setup.is_rw[order[0]] && random.with_chance(0.3);
            if (reads_in_interrupt) {
                Verb take = random.with_chance(0.7) ? Verb::read : Verb::try_read;
                setup.handlers[processor].push_back({{take, order[0]}, {Verb::read_unlock, order[0]}});
                continue;
            }
            Locks locks = locks_of_handler(order, h);
            simple.blocks = random.between(1, 2);
            Program handler = program(locks, simple);
            if (!handler.empty()) setup.handlers[processor].push_back(handler);
        }
    }

    int random_processors(Kind kind) {
        int processors = random.with_chance(0.05) ? 1 : random.with_chance(0.6) ? random.between(2, 4) : random.between(4, 8);
        return kind == Kind::deep_interrupts ? std::max(processors, 5) : processors;
    }

    int random_locks(Kind kind) {
        if (kind == Kind::deep_interrupts) return random.between(5, 7);
        if (kind == Kind::interrupts) return random.between(2, 4);
        return random.with_chance(0.6) ? 1 : random.between(2, 4);
    }

    bool is_interrupted(int processor, Kind kind) {
        if (kind == Kind::deep_interrupts) return processor < (setup.processors + 1) / 2;
        return kind == Kind::interrupts && random.with_chance(0.6);
    }

    void add_processors(Kind kind) {
        setup.set_processors(random_processors(kind));
        int locks = random_locks(kind);
        for (int lock = 0; lock < locks; lock++) setup.is_rw.push_back(family.has_rw && (lock == 0 || random.with_chance(0.6)));
        bool is_deep = kind == Kind::deep_interrupts;
        Taste taste = {0, is_deep ? 1 : 2, random.with_chance(0.5) ? 0.0 : 0.25, random.with_chance(0.9) ? 1.0 : 0.6};
        int most_blocks = is_deep ? 12 : random.with_chance(0.7) ? 3 : 8;
        for (int p = 0; p < setup.processors; p++) {
            if (is_interrupted(p, kind)) {
                add_interrupted(p, kind, taste);
            } else if (!random.with_chance(0.03)) {
                taste.blocks = random.between(1, most_blocks);
                setup.programs[p] = program(all_locks(), taste);
            }
        }
    }

public:
    Builder(Random &random, const Family &family) : random(random), family(family) {}

    Setup build(Kind kind) {
        setup.mode = family.mode;
        if (family.mode == Mode::cna && random.with_chance(0.7)) setup.threshold = random.between(0, 3);
        if (family.mode == Mode::pv) setup.spins = random.between(1, random.with_chance(0.6) ? 3 : 12);
        if (kind == Kind::tower) add_tower();
        else add_processors(kind);
        return setup;
    }
};

// The processors of a setup get any numbers below that of format 2's header, so that tails in the wide word are high.
void spread(Random &random, Setup &setup) {
    setup.format = 2;
    setup.cpus = random.between(setup.processors, most_numbers);
    std::set<int> numbers;
    if (random.with_chance(0.5)) numbers.insert(setup.cpus - 1);
    while ((int)numbers.size() < setup.processors) numbers.insert(random.below(setup.cpus));
    setup.numbers.assign(numbers.begin(), numbers.end());
}
} // namespace

Setup random_setup(Random &random, const Family &family, bool is_wide, Kind &kind) {
    int draw = random.below(11);
    kind = draw < 6 ? Kind::plain : draw < 8 ? Kind::interrupts : draw < 10 ? Kind::deep_interrupts : Kind::tower;
    Setup setup = Builder(random, family).build(kind);
    if (is_wide) spread(random, setup);
    return setup;
}
