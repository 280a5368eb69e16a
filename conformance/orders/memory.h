// The memory that is explored: a view machine. docs/ORDERS.md states it.
#pragma once
#include <array>
#include <cstdint>
#include <cstring>
#include <string>
#include <vector>

constexpr int most_places = 24, most_threads = 4, room = 160;

// For each place the oldest message that may still be read, or the newest one that is told. View{} names the first of each; without
// the braces it is not set, so that a copy of a state need not clear its room.
struct View {
    uint8_t at[most_places];
    uint8_t &operator[](int place) { return at[place]; }
    uint8_t operator[](int place) const { return at[place]; }
    bool operator==(const View &other) const { return !memcmp(at, other.at, sizeof at); }
    bool is_empty() const { return *this == View(); }
    void join(const View &other) {
        for (int i = 0; i < most_places; i++) at[i] = at[i] > other.at[i] ? at[i] : other.at[i];
    }
};

// A value that was stored. A lock's word has three fields, each with the view that its writer released; others use the first.
struct Message {
    uint8_t value[3];
    // Placed by a read-modify-write right behind what it read: nothing may come between.
    bool attached;
    View released[3];
};

// What a step asks of the memory.
struct Order {
    bool acquire = false, release = false;
    // smp_mb before and behind; on a read-modify-write only if it stores.
    bool mb_before = false, mb_behind = false;
    // A compare-exchange has its order also where it fails, as x86's has.
    bool always = false;
    // Barriers of their own, before the access.
    bool mb = false, wmb = false, rmb = false;
    // The load heads an address dependency to accesses by the register that it sets, or a control dependency to all later stores.
    bool heads_address = false, heads_control = false;
    // The address of the access comes from such a load.
    bool follows_address = false;
};

enum class Model { sc, linux_model, c11 };

// A processor's views.
struct Sight {
    View cur;      // what it may read
    View rel;      // what each later relaxed store releases: by smp_wmb and smp_mb
    View own;      // its own stores and what they released: smp_wmb puts it into rel
    View acq;      // what its loads of any order were released
    View address;  // the same of loads that head an address dependency
    View control;  // the same of loads that head a control dependency
    View looked;   // what was in acq at the last smp_rmb: bounds later loads
    static constexpr View Sight::*const all[] = {&Sight::cur,     &Sight::rel,     &Sight::own,   &Sight::acq,
                                                 &Sight::address, &Sight::control, &Sight::looked};
};

struct Thread {
    uint8_t row = 0, step = 0, left = 0;
    std::array<uint8_t, 16> registers = {};
    Sight sight{};
};

struct State {
    int threads = 0, places = 0;
    Thread thread[most_threads];
    View fence{};  // the one global view of smp_mb
    // Ghosts: who holds alone, who holds with others (a bit for each), who has the wait lock, and the queue, four bits for each, the head in the lowest.
    uint8_t alone = 0, shared = 0, waits = 0;
    uint32_t queue = 0;
    uint8_t begin[most_places + 1] = {};
    Message pool[room];

    State() = default;
    State(const State &other) { *this = other; }
    State &operator=(const State &other);
    int count(int place) const { return begin[place + 1] - begin[place]; }
    int last(int place) const { return count(place) - 1; }
    Message &message(int place, int index) { return pool[begin[place] + index]; }
    const Message &message(int place, int index) const { return pool[begin[place] + index]; }
    const Message &newest(int place) const { return pool[begin[place + 1] - 1]; }
    void insert(int place, int index, const Message &message);
    // Calls f(view) for each view there is.
    template <class F> void each_view(F f);
};

template <class F> void State::each_view(F f) {
    for (int t = 0; t < threads; t++)
        for (auto member : Sight::all) f(thread[t].sight.*member);
    for (int i = 0; i < begin[places]; i++)
        for (View &view : pool[i].released) f(view);
    f(fence);
}

// A setup of the memory ran out of the room that a state has; it is told and ends the run.
struct Overflow {};

// The rules. Each step is on a copy of the state.
struct Memory {
    Model model = Model::linux_model;
    // Every load heads a control dependency.
    bool controls = false;

    // The oldest message that thread t may read at a place.
    int oldest(const State &s, int t, int place, const Order &order) const;
    // t reads the message, of the fields of the mask.
    void read(State &s, int t, int place, int index, int fields, const Order &order) const;
    // t may place a store at an index from this one on, but not before an attached message.
    int lowest(const State &s, int t, int place, const Order &order) const;
    bool is_open(const State &s, int place, int index) const;
    // A store of its own.
    void store(State &s, int t, int place, int index, const uint8_t *value, const Order &order) const;
    // A store into some fields of a word, at the end. `carries`: a read-modify-write carries on what it read.
    void chain(State &s, int t, int place, const uint8_t *value, int fields, bool carries, const Order &order) const;
    // A read-modify-write behind the message that it reads.
    void modify(State &s, int t, int place, int index, const uint8_t *value, const Order &order) const;
    // The barriers that stand before an access, and those of a full one that are behind it.
    void before(State &s, int t, const Order &order) const;
    void behind(State &s, int t, const Order &order) const;
    void mb(State &s, int t) const;
    void wmb(State &s, int t) const;
    void rmb(State &s, int t) const;
    // Drops what nobody can read any more and what says nothing. `done` has a bit for each thread that has ended.
    void shorten(State &s, int done) const;

  private:
    View released(const Sight &sight, const Order &order) const;
};

// The state as bytes, equal exactly where the states are; and back.
void pack(const State &s, std::string &bytes);
void unpack(const uint8_t *bytes, State &s);
// The state without its views: what sequential consistency knows of it.
State bare(const State &s);

struct Print {
    uint64_t high, low;
    bool operator==(const Print &other) const { return high == other.high && low == other.low; }
};
// 128 bits of the bytes.
Print print_of(const std::string &bytes);
