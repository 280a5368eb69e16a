// The locks over the memory: a setup, and the steps that a processor can make, which the table of rows says.
#pragma once
#include <string>
#include <vector>
#include "memory.h"
#include "rows.h"

enum class Failure { none, two_holders, out_of_order, stale, stuck, not_free, no_entry };
const char *words_of(Failure failure);

// A processor of a setup: what it does, and how often; l locks, t tries, w writes, r reads, i reads in an interrupt, x tries to
// write, y tries to read. h, p and q lock, and the setup begins where h holds, p has set pending, and q is queued.
struct Worker {
    char kind = 'l';
    int times = 1;
    int socket = 0;
};

struct Setup {
    std::string family = "native";
    std::vector<Worker> workers;
    // Turns of the paravirtual lock before a halt; and after so many rounds a head spins until it gets the lock. Of the CNA lock the
    // threshold.
    int spins = 1, rounds = 1, threshold = 65535;
    // Linux's own steps beside the rows, such as its early look for the successor.
    bool extras = true;
    // The lock word as three places, so that a byte can be stored out of order with the others.
    bool split = false;
    // The critical section only writes.
    bool writes_only = false;
};

// What a step did, for who tells it.
struct Deed {
    uint8_t thread = 0, row = 0, place = 255;
    uint8_t met[3] = {}, left[3] = {};
    bool reads = false, stores = false, failed = false, is_act = true;
    // Of what was read: how many messages of its place are newer. Of what was stored: how many were put behind it.
    uint8_t newer = 0, before = 0;
    const char *event = "";
    const char *note = "";
};

struct Sink {
    virtual ~Sink() = default;
    virtual void take(State &next, const Deed &deed, Failure failure) = 0;
};

constexpr int done = 255, word_place = 0;
// Beside the registers, what of a processor may be used later.
constexpr uint32_t own_view = 1 << 20, address_view = 1 << 21;

class Lock {
  public:
    // Where a fault of the setup is found it is thrown as text.
    Lock(const Table &table, const Setup &setup, const Memory &memory);

    State start() const;
    // Calls the sink for each step that t can make.
    void step(const State &s, int t, Sink &sink) const;
    bool is_done(const State &s) const;
    int ended(const State &s) const;
    // Whether t has come as far as the setup begins.
    bool has_begun(const State &s, int t) const;
    // Nobody has the lock, by its word.
    bool is_free(const State &s) const;

    const Table &table;
    const Setup setup;
    const Memory memory;
    // The rows that the setup can reach.
    std::vector<int> reached() const;
    std::string place_name(int place) const;
    int places() const { return (int)names.size(); }
    bool is_readers() const { return readers >= 0; }
    int node_place(int thread, Field field) const { return nodes[thread][(int)field]; }
    // The word's fields.
    void word_of(const State &s, bool readers_word, uint8_t *fields) const;

  private:
    friend class Stepper;
    int section, readers = -1, written = -1;
    std::vector<std::string> names;
    std::vector<int> read_marks, kicks, bucket_locks, bucket_nodes;
    std::vector<std::array<int, 6>> nodes;
    std::vector<Field> fields;
    int family;
    // Of each row the registers that are used from it on, in this acquisition or in a later one; bits own_view and address_view too.
    std::vector<uint32_t> live, live_at_last;

    void lay_out();
    void add_node_places();
    int add_place(const std::string &name);
    std::vector<int> targets(int row) const;
    int first_row(int thread) const;
    int last_row(int thread) const;
    std::vector<uint32_t> liveness(bool goes_on) const;
    uint32_t uses(const Row &row) const;
    uint32_t sets(const Row &row) const;
};
