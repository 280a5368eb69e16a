#include "explore.h"
#include <chrono>
#include <cstdio>
#include <new>

size_t Prints::slot_of(Print print) const {
    size_t at = print.high & (slots.size() - 1);
    while (!(slots[at] == Print{0, 0}) && !(slots[at] == print)) at = (at + 1) & (slots.size() - 1);
    return at;
}

void Prints::grow() {
    std::vector<Print> old(slots.size() * 2);
    old.swap(slots);
    for (Print print : old)
        if (!(print == Print{0, 0})) slots[slot_of(print)] = print;
}

bool Prints::insert(Print print) {
    size_t at = slot_of(print);
    if (slots[at] == print) return false;
    slots[at] = print;
    if (++count * 3 > slots.size() * 2) grow();
    return true;
}

bool Prints::contains(Print print) const { return slots[slot_of(print)] == print; }

namespace {
// The steps that can be made in one state, numbered over all processors.
struct Steps : Sink {
    std::function<void(State &, const Deed &, Failure, int)> use;
    int count = 0;
    void take(State &next, const Deed &deed, Failure failure) override { use(next, deed, failure, count++); }
};

// The states of one length, packed, with their numbers.
struct Layer {
    std::string bytes;
    std::vector<std::pair<size_t, uint32_t>> states;
    void add(const std::string &packed, uint32_t number) {
        states.emplace_back(bytes.size(), number);
        bytes += packed;
    }
    size_t size() const { return bytes.capacity() + states.capacity() * sizeof states[0]; }
};

class Explorer {
  public:
    Explorer(const Lock &lock, const Limits &limits, const Wanted &wanted) : lock(lock), limits(limits), wanted(wanted), bares(wanted.bares ? *wanted.bares : own_bares) {}
    Result run();

  private:
    using Clock = std::chrono::steady_clock;
    const Lock &lock;
    const Limits &limits;
    const Wanted &wanted;
    Prints seen, own_bares, &bares;
    // The state from which each was reached first, and by which of its steps.
    std::vector<std::pair<uint32_t, uint16_t>> parents;
    Layer layer, following;
    Result result;
    std::string packed;
    // The choices from the start to where the setup begins.
    std::vector<int> beginning;
    Clock::time_point begun = Clock::now();
    size_t length = 0, expanded = 0;

    void add(const State &s, uint32_t parent, int choice);
    void expand(const State &s, uint32_t number);
    void meet_end(const State &s, uint32_t number);
    void fail(Failure failure, uint32_t number, int choice);
    bool is_over();
    void tell_progress();
    void visit_all();
    double elapsed() const { return std::chrono::duration<double>(Clock::now() - begun).count(); }
    std::vector<Step> way_to(uint32_t number, int last) const;
    size_t listed() const { return parents.capacity() * sizeof parents[0] + layer.size() + following.size(); }
    size_t bytes() const { return seen.bytes() + bares.bytes() + listed(); }
    size_t soon() const { return seen.soon() + bares.soon() + listed(); }
};
}  // namespace

static void each_step(const Lock &lock, const State &s, Steps &steps) {
    steps.count = 0;
    for (int t = 0; t < s.threads; t++) lock.step(s, t, steps);
}

void Explorer::add(const State &s, uint32_t parent, int choice) {
    pack(s, packed);
    if (!seen.insert(print_of(packed))) return;
    uint32_t number = parents.size();
    parents.emplace_back(parent, choice);
    following.add(packed, number);
    if (!wanted.counts_bare) return;
    State without = bare(s);
    std::string bare_bytes;
    pack(without, bare_bytes);
    Print print = print_of(bare_bytes);
    bares.insert(print);
    if (wanted.known && result.beyond.empty() && !wanted.known->contains(print)) result.beyond = way_to(number, -1);
}

void Explorer::fail(Failure failure, uint32_t number, int choice) {
    for (const Found &found : result.failures)
        if (found.failure == failure) return;
    result.failures.push_back({failure, way_to(number, choice)});
}

void Explorer::meet_end(const State &s, uint32_t number) {
    if (!lock.is_done(s)) fail(Failure::stuck, number, -1);
    else if (!lock.is_free(s)) fail(Failure::not_free, number, -1);
    else result.ends++;
}

void Explorer::expand(const State &s, uint32_t number) {
    size_t before = parents.size();
    Steps steps;
    steps.use = [&](State &next, const Deed &deed, Failure failure, int choice) {
        if (deed.row < result.rows.size()) result.rows[deed.row] = true;
        if (failure != Failure::none) return fail(failure, number, choice);
        lock.memory.shorten(next, lock.ended(next));
        add(next, number, choice);
    };
    each_step(lock, s, steps);
    if (steps.count == 0) meet_end(s, number);
    if (wanted.leaf && parents.size() == before) wanted.leaf(way_to(number, -1));
}

// Several explorations of one command tell their progress as one.
void Explorer::tell_progress() {
    static Clock::time_point told = begun;
    auto now = Clock::now();
    if (limits.progress <= 0 || std::chrono::duration<double>(now - told).count() <= limits.progress) return;
    told = now;
    fprintf(stderr, "orders: %s%s: %zu states, %zu steps deep, %zu MB, %.0f s\n", limits.name.c_str(), limits.purpose.c_str(), parents.size(), length, bytes() >> 20, elapsed());
}

bool Explorer::is_over() {
    if (wanted.first_failure && !result.failures.empty()) result.stopped = "at the first failure";
    if (soon() > limits.megabytes << 20) result.stopped = "the states take more than " + std::to_string(limits.megabytes) + " MB";
    if ((++expanded & 255) == 0) {
        if (elapsed() > limits.seconds) result.stopped = "after " + std::to_string((int)limits.seconds) + " seconds";
        tell_progress();
    }
    return !result.stopped.empty();
}

// Makes t go on, as under sequential consistency, until the setup begins for it.
static void begin(const Lock &lock, State &s, int t, std::vector<int> &choices) {
    constexpr int most = 30;
    for (int made = 0; !lock.has_begun(s, t); made++) {
        State reached = s;
        int chosen = -1;
        Steps steps;
        steps.use = [&](State &next, const Deed &deed, Failure failure, int choice) {
            if (chosen < 0 && deed.thread == t && !deed.newer && !deed.before && failure == Failure::none) chosen = choice, reached = next;
        };
        each_step(lock, s, steps);
        if (chosen < 0 || made == most) throw std::string("the setup cannot begin so: one h stands first, then one p, then the q");
        choices.push_back(chosen);
        s = reached;
        lock.memory.shorten(s, lock.ended(s));
    }
}

void Explorer::visit_all() {
    State first = lock.start();
    lock.memory.shorten(first, 0);
    for (int t = 0; t < first.threads; t++) begin(lock, first, t, beginning);
    add(first, 0, 0);
    State s;
    while (!following.states.empty() && !is_over()) {
        std::swap(layer, following);
        following = Layer();
        for (auto [at, number] : layer.states) {
            unpack((const uint8_t *)layer.bytes.data() + at, s);
            expand(s, number);
            if (is_over()) break;
        }
        length++;
    }
    if (wanted.first_failure && !result.failures.empty() && following.states.empty()) result.stopped.clear();
}

Result Explorer::run() {
    result.rows.resize(lock.table.rows.size());
    try {
        visit_all();
    } catch (const std::bad_alloc &) {
        result.stopped = "there is no more memory";
    }
    result.states = parents.size(), result.bytes = bytes(), result.seconds = elapsed();
    return std::move(result);
}

// The steps by these choices, from the start.
static std::vector<Step> follow(const Lock &lock, const std::vector<int> &choices) {
    std::vector<Step> made;
    State s = lock.start();
    lock.memory.shorten(s, 0);
    for (int wanted : choices) {
        Steps steps;
        steps.use = [&](State &next, const Deed &deed, Failure, int choice) {
            if (choice == wanted) made.push_back({deed, next});
        };
        each_step(lock, s, steps);
        s = made.back().state;
        lock.memory.shorten(s, lock.ended(s));
        made.back().state = s;
    }
    return made;
}

std::vector<Step> Explorer::way_to(uint32_t number, int last) const {
    std::vector<int> choices;
    if (last >= 0) choices.push_back(last);
    for (uint32_t i = number; i != 0; i = parents[i].first) choices.push_back(parents[i].second);
    choices.insert(choices.end(), beginning.rbegin(), beginning.rend());
    return follow(lock, {choices.rbegin(), choices.rend()});
}

Result explore(const Lock &lock, const Limits &limits, const Wanted &wanted) { return Explorer(lock, limits, wanted).run(); }

std::vector<Step> walk(const Lock &lock, const std::function<int(int)> &choose, Failure &failure) {
    std::vector<Step> made;
    State s = lock.start();
    failure = Failure::none;
    while (failure == Failure::none && !lock.is_done(s)) {
        std::vector<Step> can;
        std::vector<Failure> failures;
        Steps steps;
        steps.use = [&](State &next, const Deed &deed, Failure found, int) {
            lock.memory.shorten(next, lock.ended(next));
            can.push_back({deed, next}), failures.push_back(found);
        };
        each_step(lock, s, steps);
        if (can.empty()) break;
        int choice = choose(can.size());
        failure = failures[choice];
        made.push_back(can[choice]);
        s = can[choice].state;
    }
    return made;
}
