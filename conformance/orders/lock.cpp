#include "lock.h"
#include <algorithm>

const char *words_of(Failure failure) {
    static const char *const words[] = {"none", "two holders", "out of order", "stale read", "stuck", "not free at the end", "no entry"};
    return words[(int)failure];
}

static int family_named(const std::string &name) {
    static const char *const families[] = {"native", "virt", "pv", "cna"};
    std::string spin = name == "rw" ? "native" : name;
    for (int i = 0; i < 4; i++)
        if (spin == families[i]) return i;
    throw "there is no family " + name + "; there are native, rw, virt, pv and cna";
}

Lock::Lock(const Table &table, const Setup &setup, const Memory &memory) : table(table), setup(setup), memory(memory) {
    section = table.rows.size();
    family = family_named(setup.family);
    lay_out();
    live = liveness(true), live_at_last = liveness(false);
}

int Lock::add_place(const std::string &name) {
    if ((int)names.size() == most_places) throw std::string("the setup has too many places");
    names.push_back(name);
    return names.size() - 1;
}

void Lock::add_node_places() {
    static const char *const field_names[] = {"word", "flag", "next", "state", "tail", "runs"};
    if (setup.family == "virt") return;
    fields = {Field::flag, Field::next};
    if (setup.family == "pv") fields.push_back(Field::state);
    if (setup.family == "cna") fields.insert(fields.end(), {Field::tail, Field::runs});
    for (size_t t = 0; t < setup.workers.size(); t++) {
        nodes.emplace_back();
        nodes[t].fill(-1);
        for (Field field : fields) nodes[t][(int)field] = add_place(field_names[(int)field] + std::string(" of ") + std::to_string(t));
    }
}

void Lock::lay_out() {
    bool has_readers = setup.family == "rw", has_pending = setup.family == "native" || setup.family == "cna";
    std::string kinds = has_readers ? "wrixy" : has_pending ? "lthpq" : "lt";
    for (auto &worker : setup.workers)
        if (kinds.find(worker.kind) == std::string::npos) throw std::string("a processor of ") + setup.family + " is one of " + kinds + ", not " + worker.kind;
    if (setup.split && has_readers) throw std::string("the word of a reader-writer lock is one place here");
    if (setup.split)
        for (const char *name : {"tail", "pending", "locked"}) add_place(name);
    else add_place(has_readers ? "wait lock" : "word");
    if (has_readers) readers = add_place("readers word");
    written = add_place("data");
    for (size_t t = 0; has_readers && t < setup.workers.size(); t++) read_marks.push_back(add_place("mark of " + std::to_string(t)));
    add_node_places();
    if (setup.family != "pv") return;
    for (size_t t = 0; t < setup.workers.size(); t++) {
        bucket_locks.push_back(add_place("bucket " + std::to_string(t)));
        bucket_nodes.push_back(add_place("node in bucket " + std::to_string(t)));
    }
    for (size_t t = 0; t < setup.workers.size(); t++) kicks.push_back(add_place("kick of " + std::to_string(t)));
}

State Lock::start() const {
    State s;
    s.threads = setup.workers.size(), s.places = names.size();
    for (int i = 0; i <= s.places; i++) s.begin[i] = i;
    std::fill(s.pool, s.pool + s.places, Message{});
    for (int t = 0; t < s.threads; t++) {
        s.thread[t].row = first_row(t);
        s.thread[t].left = setup.workers[t].times;
    }
    return s;
}

int Lock::first_row(int thread) const {
    switch (setup.workers[thread].kind) {
    case 't': return table.find("T1");
    case 'w': return table.find("Wr1");
    case 'x': return table.find("Y4");
    case 'y': return table.find("Y1");
    case 'r':
    case 'i': return table.find("R1");
    default: return table.find("F1");
    }
}

int Lock::last_row(int thread) const {
    switch (setup.workers[thread].kind) {
    case 'w':
    case 'x': return table.find("Z2");
    case 'r':
    case 'y':
    case 'i': return table.find("Z1");
    default: return table.find(setup.family == "pv" ? "U2" : "U1");
    }
}

int Lock::ended(const State &s) const {
    int ended = 0;
    for (int t = 0; t < s.threads; t++) ended |= (s.thread[t].row == done) << t;
    return ended;
}

bool Lock::has_begun(const State &s, int t) const {
    const std::string row = s.thread[t].row < section ? table[s.thread[t].row].label : "";
    switch (setup.workers[t].kind) {
    case 'h': return row == "U1";
    case 'p': return row == "P3";
    case 'q': return row == "G6" || row == "G7";
    default: return true;
    }
}

bool Lock::is_done(const State &s) const { return ended(s) == (1 << s.threads) - 1; }

void Lock::word_of(const State &s, bool readers_word, uint8_t *fields) const {
    for (int field = 0; field < 3; field++) {
        if (setup.split) fields[field] = s.newest(word_place + field).value[0];
        else fields[field] = s.newest(readers_word ? readers : word_place).value[field];
    }
}

bool Lock::is_free(const State &s) const {
    uint8_t fields[3];
    for (bool readers_word : {false, true}) {
        if (readers_word && readers < 0) break;
        word_of(s, readers_word, fields);
        if (fields[0] || fields[1] || fields[2]) return false;
    }
    return true;
}

std::string Lock::place_name(int place) const { return place < (int)names.size() ? names[place] : "nothing"; }

// The rows to which a row leads; `section` stands for the critical section.
std::vector<int> Lock::targets(int row) const {
    std::vector<int> found;
    bool is_waiting = is_readers() && !table[row].is_readers;
    int release = table.find(setup.family == "pv" ? "U2" : "U1");
    for (const Case &c : table[row].cases) {
        bool is_of_family = true, is_always = c.where == Case::row;
        for (const Condition &condition : c.conditions) {
            if (condition.kind != Condition::family) is_always = false;
            else if (condition.value[0] != family) is_of_family = false;
        }
        if (!is_of_family) continue;
        if (c.via >= 0 && setup.extras) found.push_back(c.via);
        else if (c.where == Case::row) found.push_back(c.next);
        if (c.where == Case::waitlock) found.insert(found.end(), {table.find("F1"), c.next});
        if (c.where == Case::freewait) found.push_back(release);
        if (c.where == Case::granted && is_waiting) found.insert(found.end(), {table.find("R4"), table.find("Wr2")});
        bool is_release = row == table.find("Z1") || row == table.find("Z2");
        if ((c.where == Case::done && !is_release) || (c.where == Case::granted && !is_waiting)) found.push_back(section);
        if (c.where == Case::freed && is_waiting) found.push_back(section);
        if (is_always) break;
    }
    return found;
}

std::vector<int> Lock::reached() const {
    std::vector<char> seen(section + 1);
    std::vector<int> open, found;
    for (size_t t = 0; t < setup.workers.size(); t++) open.insert(open.end(), {first_row(t), last_row(t)});
    while (!open.empty()) {
        int row = open.back();
        open.pop_back();
        if (row == section || seen[row]) continue;
        seen[row] = true;
        for (int next : targets(row)) open.push_back(next);
    }
    bool has_hash = setup.family == "pv";
    for (int row = 0; row < section; row++)
        if (seen[row] || (has_hash && (table[row].field == Field::hash && table[row].is_extra))) found.push_back(row);
    return found;
}

uint32_t Lock::uses(const Row &row) const {
    uint32_t used = 0;
    if (!row.is_own) used |= 1u << row.named;
    if (row.access == Access::erase) used |= 1u << slot_;
    for (const Stored &stored : row.stored) {
        if (stored.kind == Stored::of_register) used |= 1u << stored.value;
        if (stored.kind == Stored::runs) used |= 1u << runs_ | 1u << second_;
        if (stored.kind == Stored::go_or_second) used |= 1u << second_;
    }
    for (const Case &c : row.cases) {
        for (const Condition &condition : c.conditions) {
            if (condition.kind == Condition::is_set) used |= 1u << condition.value[0];
            if (condition.kind == Condition::why) used |= 1u << why_;
            if (condition.kind == Condition::more) used |= 1u << left_;
            if (condition.kind == Condition::below) used |= 1u << runs_;
            if (condition.kind == Condition::patient) used |= 1u << rounds_;
        }
        for (const Assignment &a : c.assignments) {
            if (a.kind == Assignment::of_register) used |= 1u << a.value;
            if (a.kind == Assignment::plus || a.kind == Assignment::minus) used |= 1u << a.to;
        }
        if (c.event.find(" k") != std::string::npos) used |= 1u << k_;
    }
    return used | (row.order.wmb ? own_view : 0) | (row.order.follows_address ? address_view : 0);
}

// What every case of a row sets.
uint32_t Lock::sets(const Row &row) const {
    uint32_t set = ~0u;
    for (const Case &c : row.cases) {
        uint32_t here = 0;
        for (const Assignment &a : c.assignments) here |= 1u << a.to;
        set &= here;
    }
    if (row.access == Access::enter && row.is_own) set |= 1u << slot_;
    if (row.access == Access::find) set |= 1u << target_;
    if (row.access == Access::reset) set |= address_view;
    return row.cases.empty() ? 0 : set;
}

// Whether an acquisition, or a try, can end at the row; then the next one may begin.
static bool ends_an_acquisition(const Row &row) {
    return std::any_of(row.cases.begin(), row.cases.end(), [](const Case &c) { return c.where == Case::freed || c.where == Case::done || c.where == Case::missed; });
}

std::vector<uint32_t> Lock::liveness(bool goes_on) const {
    std::vector<uint32_t> live(section + 1);
    for (bool changed = true; changed;) {
        changed = false;
        uint32_t release = 0, again = 0;
        for (size_t t = 0; t < setup.workers.size(); t++) release |= live[last_row(t)], again |= live[first_row(t)];
        for (int row = section; row >= 0; row--) {
            uint32_t next = row == section ? release : 0;
            if (row < section) {
                if (goes_on && ends_an_acquisition(table[row])) next |= again;
                for (int target : targets(row)) next |= live[target];
                next = uses(table[row]) | (next & ~sets(table[row]));
            }
            if ((next | live[row]) != live[row]) live[row] |= next, changed = true;
        }
    }
    return live;
}
