#include "tell.h"
#include <algorithm>

static std::string node(int value) { return value ? std::to_string(value - 1) + ".0" : "0"; }

static bool is_word(const Lock &lock, int place) { return place == word_place || (lock.is_readers() && place == 1); }

static std::string word_text(const uint8_t *v, bool is_readers) {
    return "(" + (is_readers ? std::to_string(v[0]) : node(v[0])) + "," + std::to_string(v[1]) + "," + std::to_string(v[2]) + ")";
}

std::string value_of(const Lock &lock, int place, const uint8_t *value) {
    static const char *const states[] = {"running", "halted", "hashed"};
    std::string name = lock.place_name(place);
    if (is_word(lock, place) && !lock.setup.split) return word_text(value, lock.is_readers() && place == 1);
    if (name.rfind("state", 0) == 0) return states[value[0]];
    if (name.rfind("flag", 0) == 0) return value[0] > 1 ? node(value[0] - 1) : value[0] ? "go" : "unset";
    if (name.rfind("next", 0) == 0 || name.rfind("tail", 0) == 0 || name.rfind("node", 0) == 0) return value[0] ? node(value[0]) : "none";
    return std::to_string(value[0]);
}

std::string row_name(const Lock &lock, const Deed &deed) {
    return deed.row < lock.table.rows.size() ? lock.table[deed.row].label : "-";
}

// Replaces a word of a text.
static void replace_word(std::string &text, const std::string &word, const std::string &by) {
    for (size_t at = text.find(word); at != std::string::npos; at = text.find(word, at + by.size())) {
        bool begins = at == 0 || text[at - 1] == ' ', ends = at + word.size() == text.size() || text[at + word.size()] == ' ';
        if (begins && ends) text.replace(at, word.size(), by);
        else at++;
    }
}

std::string event_of(const Lock &lock, const State &before, const Deed &deed) {
    std::string event = deed.event;
    const auto &registers = before.thread[deed.thread].registers;
    bool is_wait_lock = lock.is_readers() && deed.row < lock.table.rows.size() && !lock.table[deed.row].is_readers;
    replace_word(event, "L", is_wait_lock ? "0w" : "0");
    replace_word(event, "y", node(registers[y_]));
    replace_word(event, "target", std::to_string(registers[target_] - 1));
    if (event.size() > 8 && event.substr(event.size() - 8) == " moved k") {
        event.resize(event.size() - 8);
        if (registers[k_]) event += " moved " + std::to_string(registers[k_]);
    }
    return event;
}

// What is late in a step: the newest value where an older one was read, or stores before which one was placed.
static std::string lateness(const Lock &lock, const State &after, const Deed &deed) {
    if (deed.reads && deed.newer) {
        uint8_t fields[3] = {};
        if (deed.place == word_place) lock.word_of(after, false, fields);
        else std::copy(after.newest(deed.place).value, after.newest(deed.place).value + 3, fields);
        bool is_split = lock.setup.split && deed.place == word_place;
        std::string newest = is_split ? word_text(fields, false) : value_of(lock, deed.place, fields);
        return ", late: the newest is " + newest;
    }
    if (deed.stores && deed.before) return ", before " + std::to_string(deed.before) + (deed.before == 1 ? " store that is there" : " stores that are there");
    return "";
}

static std::string met_text(const Lock &lock, const Deed &deed, const uint8_t *value) {
    bool split_word = lock.setup.split && deed.place == word_place;
    return split_word ? word_text(value, false) : value_of(lock, deed.place, value);
}

static std::string deed_text(const Lock &lock, const State &after, const Deed &deed) {
    if (deed.place == 255) return deed.note;
    std::string text = lock.setup.split && deed.place == word_place ? "word" : lock.place_name(deed.place);
    if (*deed.note) return std::string(deed.note);
    if (deed.reads) text += " " + met_text(lock, deed, deed.met);
    if (deed.stores) text += (deed.reads ? " -> " : " := ") + met_text(lock, deed, deed.left);
    if (deed.failed) text += ", fails";
    return text + lateness(lock, after, deed);
}

std::string step_text(const Lock &lock, const State &before, const Step &step) {
    std::string event = event_of(lock, before, step.deed);
    std::string text = std::to_string(step.deed.thread) + " " + row_name(lock, step.deed) + " " + deed_text(lock, step.state, step.deed);
    return text + (event.empty() ? "" : ": " + event);
}

void tell_steps(std::ostream &out, const Lock &lock, const std::vector<Step> &steps) {
    State before = lock.start();
    int number = 0;
    for (const Step &step : steps) {
        out << "  " << ++number << " " << step_text(lock, before, step) << "\n";
        before = step.state;
    }
}

// ---- the acts of qlock ----

static std::string node_text(const Lock &lock, const State &s, int thread) {
    int flag = s.newest(lock.node_place(thread, Field::flag)).value[0], next = s.newest(lock.node_place(thread, Field::next)).value[0];
    return "(" + (flag > 1 ? node(flag - 1) : std::to_string(flag)) + "," + node(next) + ")";
}

static std::string word_now(const Lock &lock, const State &s, bool readers_word) {
    uint8_t fields[3];
    lock.word_of(s, readers_word, fields);
    return word_text(fields, readers_word);
}

static std::string hash_text(const Lock &lock, const State &s) {
    for (int place = 0; place < lock.places(); place++)
        if (lock.place_name(place).rfind("bucket", 0) == 0 && s.newest(place).value[0]) return node(s.newest(place + 1).value[0]);
    return "0";
}

// What an act operates on, and how it was before and is behind it.
static std::string part_of(const Lock &lock, const State &before, const State &after, const Deed &deed) {
    const Row &row = lock.table[deed.row];
    const auto &registers = before.thread[deed.thread].registers;
    int owner = row.is_own ? deed.thread : registers[row.named] - 1;
    std::string part, was, is;
    auto place_text = [&](Field field) { return [&, field](const State &s) { int p = lock.node_place(owner, field); return value_of(lock, p, s.newest(p).value); }; };
    if (row.access == Access::reset) return "nodes " + std::to_string(deed.thread) + " 0 -> 1";
    if (row.access == Access::halt) return "halted " + std::to_string(deed.thread) + " 0 -> 1";
    if (row.access == Access::kick) part = "kicked " + std::to_string(owner), was = std::to_string(before.newest(deed.place).value[0]), is = "1";
    else if (row.field == Field::hash) part = "hash 0", was = hash_text(lock, before), is = hash_text(lock, after);
    else if (row.field == Field::word) {
        part = lock.is_readers() && !row.is_readers ? "lock 0w" : "lock 0";
        was = word_now(lock, before, row.is_readers), is = word_now(lock, after, row.is_readers);
    } else if (row.field == Field::flag || row.field == Field::next) part = "node " + node(owner + 1), was = node_text(lock, before, owner), is = node_text(lock, after, owner);
    else if (row.field == Field::state) part = "state " + node(owner + 1), was = place_text(Field::state)(before), is = place_text(Field::state)(after);
    else if (row.field == Field::runs) part = "runs " + node(owner + 1), was = place_text(Field::runs)(before), is = place_text(Field::runs)(after);
    else part = "second " + node(owner + 1), was = node(before.newest(deed.place).value[0]), is = node(after.newest(deed.place).value[0]);
    return part + " " + was + (was == is ? "" : " -> " + is);
}

void tell_acts(std::ostream &out, const Lock &lock, const std::vector<Step> &steps) {
    State before = lock.start();
    // Of a row that takes several steps, the state before the first.
    State first[most_threads];
    for (const Step &step : steps) {
        const Deed &deed = step.deed;
        bool begins = before.thread[deed.thread].step == 0;
        if (begins) first[deed.thread] = before;
        bool is_row = deed.row < lock.table.rows.size() && !lock.table[deed.row].is_extra;
        std::string who = std::to_string(deed.thread) + (lock.setup.workers[deed.thread].kind == 'i' ? ".1 " : ".0 ");
        std::string event = event_of(lock, before, deed);
        if (is_row && deed.is_act && deed.note == std::string("wakes")) out << who << "step: wake 0\n";
        else if (is_row && deed.is_act) {
            const Row &row = lock.table[deed.row];
            bool is_entry = row.field == Field::hash && row.access != Access::kick;
            if (row.label == "R1" && lock.setup.workers[deed.thread].kind == 'i') out << who << "int: int\n";
            out << who << row.label << " " << part_of(lock, is_entry ? first[deed.thread] : before, step.state, deed);
            out << (event.empty() ? "" : ": " + event) << "\n";
        }
        before = step.state;
    }
}

static std::string program_of(const Worker &worker) {
    static const std::pair<char, std::pair<const char *, const char *>> verbs[] = {
        {'l', {"lock", "unlock"}}, {'h', {"lock", "unlock"}},     {'p', {"lock", "unlock"}},      {'q', {"lock", "unlock"}},
        {'t', {"try", "unlock"}},      {'w', {"write", "wunlock"}},    {'x', {"trywrite", "wunlock"}},
        {'r', {"read", "runlock"}}, {'y', {"tryread", "runlock"}}, {'i', {"read", "runlock"}}};
    for (auto &[kind, verb] : verbs)
        if (kind == worker.kind) return std::string(" ") + verb.first + " 0 " + verb.second + " 0";
    return "";
}

void tell_trace(std::ostream &out, const Lock &lock, const std::vector<Step> &steps) {
    const auto &workers = lock.setup.workers;
    out << "qtrace 1\nmode " << (lock.setup.family == "rw" ? "native" : lock.setup.family) << "\ncpus " << workers.size() << "\n";
    if (lock.setup.family == "cna") {
        out << "sockets";
        for (auto &worker : workers) out << " " << worker.socket;
        out << "\nthreshold " << lock.setup.threshold << "\n";
    }
    if (lock.setup.family == "pv") out << "spins " << lock.setup.spins << "\n";
    out << "lock 0 " << (lock.is_readers() ? "rw" : "spin") << "\n";
    for (bool interrupts : {false, true})
        for (size_t t = 0; t < workers.size(); t++) {
            if ((workers[t].kind == 'i') != interrupts) continue;
            std::string once = program_of(workers[t]);
            if (!interrupts) out << "prog " << t;
            for (int i = 0; i < workers[t].times; i++) out << (interrupts ? "irq " + std::to_string(t) : "") << once << (interrupts ? "\n" : "");
            if (!interrupts) out << "\n";
        }
    out << "go\n";
    State before = lock.start();
    for (const Step &step : steps) {
        const Deed &deed = step.deed;
        bool is_row = deed.row < lock.table.rows.size() && !lock.table[deed.row].is_extra;
        if (is_row && deed.is_act) {
            if (lock.table[deed.row].label == "R1" && workers[deed.thread].kind == 'i') out << "int " << (int)deed.thread << "\n";
            out << "step " << (int)deed.thread << " 1\n";
        }
        before = step.state;
    }
    out << "end\n";
}
