#include "tables.h"
#include <cstdio>
#include <iostream>
#include <map>
#include "tell.h"

static const std::map<std::string, std::vector<std::string>> small_setups = {
    {"native", {"22", "211"}}, {"rw", {"w1i2", "w1w1i1", "w1r2", "w1w1r1", "x1y1r1"}}, {"virt", {"22", "111", "l1t2"}}, {"pv", {"12"}}, {"cna", {"22:00", "211:010", "h2p2q1:100"}}};
// What --large has behind those.
static const std::map<std::string, std::vector<std::string>> large_setups = {
    {"native", {"33", "221", "1111"}}, {"rw", {"w2i2", "w2r2", "w1w1r2", "w1i1r1"}}, {"virt", {"222"}}, {"pv", {"22", "111"}}, {"cna", {"221:100", "1111:0010", "h2p2q2:100:1", "h2p2q1q1:0101"}}};
// Setups that have all rows of a family between them.
static const std::map<std::string, std::vector<std::string>> whole_families = {
    {"native", {"l1t1"}}, {"rw", {"w1r1i1", "x1y1"}}, {"virt", {"l1t1"}}, {"pv", {"l1t1"}}, {"cna", {"l1t1"}}};
// The pairs that C11 lacks where Linux leans on a dependency: who heads it must acquire.
static const std::map<std::string, std::vector<std::vector<std::string>>> c11_heads = {
    {"native", {{"G4"}, {"G10", "G6n"}}}, {"pv", {{"G4"}, {"E14", "W1n"}}}};
// A compare-exchange that fails orders nothing, and the paravirtual lock needs that it does (docs/ORDERS.md).
static const std::map<std::string, std::string> repaired = {{"pv", "W7=full-always"}};

static std::vector<std::string> parts_of(const std::string &text) {
    std::vector<std::string> parts(1);
    for (char c : text)
        if (c == ':') parts.emplace_back();
        else parts.back().push_back(c);
    return parts;
}

static std::vector<Worker> workers_of(const std::string &text) {
    std::vector<Worker> workers;
    for (size_t at = 0; at < text.size();) {
        Worker worker;
        if (isalpha(text[at])) worker.kind = text[at++];
        if (at >= text.size() || text[at] < '1' || text[at] > '9') throw "a setup has a number of acquisitions for each processor, as 221 or w1i2, not \"" + text + "\"";
        worker.times = text[at++] - '0';
        workers.push_back(worker);
    }
    if (workers.empty() || workers.size() > most_threads) throw "a setup has 1 to " + std::to_string(most_threads) + " processors, not " + std::to_string(workers.size()) + ": \"" + text + "\"";
    return workers;
}

static bool is_number(const std::string &text) { return !text.empty() && text.size() < 6 && std::all_of(text.begin(), text.end(), isdigit); }

void Asked::set(const std::string &family, const std::string &words) {
    if (!small_setups.count(family)) throw "there is no family " + family + "; there are native, rw, virt, pv and cna";
    setup.family = family, text = words, limits.name = family + " " + words, setup.threshold = threshold;
    auto parts = parts_of(words);
    setup.workers = workers_of(parts[0]);
    if (parts.size() > 1 && family != "cna") throw "sockets stand behind a colon for cna alone, not for " + family + ": " + words;
    if (parts.size() > 1 && (parts[1].size() != setup.workers.size() || !is_number(parts[1])))
        throw "behind the colon stands the socket of each processor, a digit each, as 111:010, not " + words;
    if (parts.size() > 2 && !is_number(parts[2])) throw "behind the second colon stands the threshold, as 211:010:1, not " + words;
    if (parts.size() > 3) throw "a setup of cna has two colons at most, as 211:010:1, not " + words;
    for (size_t i = 0; parts.size() > 1 && i < setup.workers.size(); i++) setup.workers[i].socket = parts[1][i] - '0';
    if (parts.size() > 2) setup.threshold = stoi(parts[2]);
}

static std::vector<int> rows_of(Asked asked, const Table &table, const std::vector<std::string> &setups) {
    std::vector<char> is_row(table.rows.size());
    for (const std::string &text : setups) {
        asked.set(asked.setup.family, text);
        for (int row : Lock(table, asked.setup, asked.memory).reached()) is_row[row] = true;
    }
    std::vector<int> rows;
    for (size_t i = 0; i < is_row.size(); i++)
        if (is_row[i]) rows.push_back(i);
    return rows;
}

// The rows of the family, whatever the setup.
static std::vector<int> family_rows(const Asked &asked, const Table &table) { return rows_of(asked, table, whole_families.at(asked.setup.family)); }

static Weakening weakening_named(const Table &table, const std::vector<int> &rows, const Asked &asked, const std::string &name) {
    std::string names;
    for (const Weakening &weakening : table.weakenings(rows)) {
        bool is_last = weakening.part != Weakening::access || weakening.to == "relaxed";
        if (!is_last) continue;
        if (table.name_of(weakening) == name) return weakening;
        names += " " + table.name_of(weakening);
    }
    int row = table.find(name);
    bool is_relaxed = std::find(rows.begin(), rows.end(), row) != rows.end();
    std::string found = is_relaxed ? name + " is " + table[row].ordered + " already" : asked.setup.family + " has no " + name;
    throw found + "; what can be weakened there:" + names;
}

// An order that the row's access cannot have would change nothing.
static void check_order(const Row &row, const std::string &order) {
    bool only_loads = row.access == Access::look || row.access == Access::wait || row.access == Access::halt;
    bool only_stores = row.access == Access::store || row.access == Access::reset || row.access == Access::enter || row.access == Access::erase || row.access == Access::find;
    std::string takes = only_loads ? "relaxed or acquire" : "relaxed, release, wmb or mb-after";
    bool fits = true;
    if (only_loads) fits = order == "relaxed" || order == "acquire";
    if (only_stores) fits = order == "relaxed" || order == "release" || order == "wmb" || order == "mb-after" || order == "plain";
    if (!fits) throw row.label + (only_loads ? " loads" : " stores") + ", so it takes " + takes + ", not " + order;
    if (row.access != Access::swap && order.find("-always") != std::string::npos) throw row.label + " is no cmpxchg, so it never fails: " + order;
}

static void change_order(Table &table, const std::vector<int> &rows, const Asked &asked, const std::string &change) {
    size_t sign = change.find('=');
    if (sign == std::string::npos) throw "--order takes a row and its order, as G4=acquire, not " + change;
    int row = table.find(change.substr(0, sign));
    std::string names;
    for (int i : rows) names += " " + table[i].label;
    if (std::find(rows.begin(), rows.end(), row) == rows.end()) throw asked.setup.family + " has no row " + change.substr(0, sign) + "; there are" + names;
    check_order(table[row], change.substr(sign + 1));
    table.set_order(row, change.substr(sign + 1));
}

Table Asked::table() const {
    Table table;
    table.read(folder + "/orders/rows.txt");
    if (version != "6.1" && version != "6.12") throw "--linux takes 6.1 or 6.12, not " + version;
    table.read_orders(folder + "/operations/" + version + ".txt");
    auto rows = family_rows(*this, table);
    for (const std::string &change : changed) change_order(table, rows, *this, change);
    for (const std::string &name : weakened) table.weaken(weakening_named(table, rows, *this, name));
    return table;
}

static std::string failures_of(const Result &result) {
    std::string text;
    for (const Found &found : result.failures) text += (text.empty() ? "" : "; ") + std::string(words_of(found.failure)) + " in " + std::to_string(found.steps.size());
    return text.empty() ? "no failure" : text;
}

std::string summary(const Asked &asked, const Lock &lock, const Result &result) {
    char figures[96];
    snprintf(figures, sizeof figures, "%zu states, %.1f s, %zu MB: ", result.states, result.seconds, (result.bytes >> 20) + 1);
    std::string model = lock.memory.model == Model::c11 ? ", C11" : lock.memory.model == Model::sc ? ", sequentially consistent" : "";
    std::string text = asked.setup.family + " " + asked.text + model + (asked.setup.split ? ", the word split" : "") + ": " + figures + failures_of(result);
    return text + (result.stopped.empty() ? "" : "; not all visited: " + result.stopped);
}

static std::vector<std::string> setups_of(Asked &asked, const std::vector<std::string> &words) {
    if (words.empty()) throw std::string("a family is missing; there are native, rw, virt, pv and cna");
    std::vector<std::string> setups = {words.begin() + 1, words.end()};
    if (words.size() > 1 && asked.is_large) throw std::string("--large takes setups of its own: name none, or leave it out");
    auto small = small_setups.find(words[0]), large = large_setups.find(words[0]);
    if (setups.empty() && small != small_setups.end()) setups = small->second;
    if (setups.empty()) setups = {"11"};
    if (asked.is_large && large != large_setups.end()) asked.larger = large->second;
    // The last is the first, so that it is set.
    for (size_t i = setups.size(); i-- > 0;) {
        asked.set(words[0], setups[i]);
        Lock(asked.table(), asked.setup, asked.memory);
    }
    return setups;
}

namespace {
// What was found over all setups: of each failure the first setup that has it, and the fewest steps there.
struct Verdict {
    std::vector<std::pair<Failure, std::pair<size_t, std::string>>> found;
    bool is_whole = true;
    std::vector<char> rows;

    void add(const std::string &setup, const Result &result) {
        is_whole &= result.stopped.empty();
        rows.resize(result.rows.size());
        for (size_t i = 0; i < rows.size(); i++) rows[i] |= result.rows[i];
        for (const Found &failure : result.failures) {
            auto same = std::find_if(found.begin(), found.end(), [&](auto &other) { return other.first == failure.failure; });
            if (same == found.end()) found.push_back({failure.failure, {failure.steps.size(), setup}});
        }
    }
    std::string text(const std::string &first) const {
        std::string text;
        for (auto &[failure, where] : found) {
            text += (text.empty() ? "" : "; ") + std::string(words_of(failure)) + " in " + std::to_string(where.first);
            if (where.second != first) text += " (" + where.second + ")";
        }
        return (text.empty() ? "none" : text) + (is_whole ? "" : "; not all visited");
    }
};
}  // namespace

static void judge_one(Asked asked, const Table &table, const std::string &text, bool split, bool prints, Verdict &verdict) {
    asked.set(asked.setup.family, text);
    if (split) asked.setup.split = true, asked.limits.name += " split";
    Lock lock(table, asked.setup, asked.memory);
    Result result = explore(lock, asked.limits, {});
    if (prints) std::cout << summary(asked, lock, result) << std::endl;
    verdict.add(text + (split ? " split" : ""), result);
}

// Explores each setup, and the first one with the word split too; then the larger ones, if nothing failed. With Linux's orders all are
// explored, and told.
static Verdict judge(const Asked &asked, const Table &table, const std::vector<std::string> &setups, bool are_linux) {
    Verdict verdict;
    bool prints = are_linux && !asked.is_markdown;
    for (const std::string &text : setups) judge_one(asked, table, text, false, prints, verdict);
    if (asked.setup.family != "rw" && !asked.setup.split) judge_one(asked, table, setups[0], true, prints, verdict);
    for (const std::string &text : asked.larger)
        if (are_linux || verdict.found.empty()) judge_one(asked, table, text, false, prints, verdict);
    return verdict;
}

static void print_line(bool is_markdown, const std::vector<std::string> &cells) {
    static const int widths[] = {9, 24, 8, 10, 46, 0};
    std::string line = is_markdown ? "|" : "";
    for (size_t i = 0; i < cells.size(); i++) {
        std::string cell = cells[i];
        if (!is_markdown && (int)cell.size() < widths[i]) cell.resize(widths[i], ' ');
        line += is_markdown ? " " + cell + " |" : cell + (i + 1 < cells.size() ? " " : "");
    }
    std::cout << line << std::endl;
}

// The claim of a bucket is made within the rows that enter a node there.
static bool is_made(const Table &table, const Verdict &base, int row) {
    if (base.rows[row] || table[row].label != "Hc") return base.rows[row];
    return base.rows[table.find("E6")] || base.rows[table.find("K3")];
}

static std::vector<int> made_rows(const Asked &asked, const Table &table, const std::vector<std::string> &setups, const Verdict &base) {
    std::vector<int> rows;
    std::string missing;
    auto all = setups;
    all.insert(all.end(), asked.larger.begin(), asked.larger.end());
    for (int row : rows_of(asked, table, all)) {
        if (is_made(table, base, row)) rows.push_back(row);
        else if (!table[row].is_extra) missing += " " + table[row].label;
    }
    if (!asked.is_markdown) std::cout << "rows that are not made:" << (missing.empty() ? " none" : missing) << std::endl;
    return rows;
}

// What a weakened order is needed for: where nothing fails it is not, unless the text says why not.
static std::string needs_of(const Table &table, const Weakening &weakening, const Verdict &verdict) {
    std::string needs = table.needs_of(weakening);
    bool says_none = needs.rfind("no", 0) == 0 || needs.rfind("the hypervisor", 0) == 0;
    return verdict.found.empty() && !says_none ? "not needed in these setups" : needs;
}

// A line for each order of the rows; whether all was visited.
static bool print_weakenings(Asked asked, const Table &table, const std::vector<int> &rows, const std::vector<std::string> &setups) {
    bool is_whole = true;
    std::string before, last;
    auto weakenings = table.weakenings(rows);
    for (size_t i = 0; i < weakenings.size(); i++) {
        const Weakening &weakening = weakenings[i];
        std::string name = table.name_of(weakening);
        Table weak = table;
        weak.weaken(weakening);
        asked.limits.purpose = ", " + name + " " + weakening.to + " (" + std::to_string(i + 1) + " of " + std::to_string(weakenings.size()) + ")";
        Verdict verdict = judge(asked, weak, setups, false);
        is_whole &= verdict.is_whole;
        const Row &row = table[weakening.row];
        std::string line = row.line ? row.file + ":" + std::to_string(table.line_of(weakening)) : "";
        std::string needs = needs_of(table, weakening, verdict);
        if (needs == before && !needs.empty() && name == last) needs = "the same";
        else before = needs;
        last = name;
        print_line(asked.is_markdown, {name, line, table.order_of(weakening), weakening.to, verdict.text(setups[0]), needs});
    }
    return is_whole;
}

int print_table(Asked asked, const std::vector<std::string> &words) {
    auto setups = setups_of(asked, words);
    Table table = asked.table();
    if (!asked.is_markdown) std::cout << "Linux " << asked.version << ", " << words[0] << ", with the orders that it names:" << std::endl;
    Verdict base = judge(asked, table, setups, true);
    bool fails = !base.found.empty();
    auto repair = repaired.find(words[0]);
    if (fails && repair != repaired.end() && asked.changed.empty()) {
        asked.changed.push_back(repair->second);
        table = asked.table();
        if (!asked.is_markdown) std::cout << "with " << repair->second << ", as in the table below:" << std::endl;
        base = judge(asked, table, setups, true);
    }
    auto rows = made_rows(asked, table, setups, base);
    print_line(asked.is_markdown, {"Row", "Line", "Order", "Weakened", "What fails, in how many steps", "Needed for"});
    if (asked.is_markdown) print_line(true, {"---", "---", "---", "---", "---", "---"});
    bool is_whole = print_weakenings(asked, table, rows, setups) && base.is_whole;
    return fails ? 1 : is_whole ? 0 : 3;
}

// A line of what one setup reaches beyond sequential consistency; whether all was visited.
static bool print_beyond_line(const Asked &asked) {
    Table table = asked.table();
    Prints known, reached;
    Wanted wanted;
    wanted.counts_bare = true, wanted.bares = &known;
    Memory strong = asked.memory;
    strong.model = Model::sc;
    bool is_whole = explore(Lock(table, asked.setup, strong), asked.limits, wanted).stopped.empty();
    wanted.bares = &reached, wanted.known = &known;
    Lock lock(table, asked.setup, asked.memory);
    Result result = explore(lock, asked.limits, wanted);
    is_whole &= result.stopped.empty();
    printf("%-10s %-6s %-7s %-25zu %-9zu %zu%s\n", asked.text.c_str(), asked.setup.split ? "split" : "one", asked.setup.extras ? "Linux" : "rows",
           known.size(), reached.size(), reached.size() - known.size(), is_whole ? "" : "; not all visited");
    fflush(stdout);
    if (asked.tells_steps && !result.beyond.empty()) tell_steps(std::cout, lock, result.beyond);
    return is_whole;
}

int print_beyond(Asked asked, const std::vector<std::string> &words) {
    auto setups = setups_of(asked, words);
    auto repair = repaired.find(words[0]);
    if (repair != repaired.end() && asked.changed.empty()) asked.changed.push_back(repair->second);
    bool is_whole = true;
    setups.insert(setups.end(), asked.larger.begin(), asked.larger.end());
    std::cout << "Setup      Word   Steps   Sequentially consistent   Reached   Beyond" << std::endl;
    for (const std::string &text : setups)
        for (bool split : {false, true})
            for (bool extras : {false, true}) {
                if (split && words[0] == "rw") continue;
                asked.set(words[0], text);
                asked.setup.split = split, asked.setup.extras = extras;
                is_whole &= print_beyond_line(asked);
            }
    return is_whole ? 0 : 3;
}

int print_c11(Asked asked, const std::vector<std::string> &words) {
    auto setups = setups_of(asked, words);
    asked.memory.model = Model::c11;
    auto repair = repaired.find(words[0]);
    if (repair != repaired.end()) asked.changed.push_back(repair->second);
    auto found = c11_heads.find(words[0]);
    auto heads = found == c11_heads.end() ? std::vector<std::vector<std::string>>() : found->second;
    bool fails = false, is_whole = true;
    for (size_t which = 0; which < 1u << heads.size(); which++) {
        Asked stronger = asked;
        std::string name;
        for (size_t i = 0; i < heads.size(); i++)
            for (const std::string &row : heads[i])
                if (which & 1 << i) stronger.changed.push_back(row + "=acquire"), name += (name.empty() ? "" : ", ") + row + "=acquire";
        Verdict verdict = judge(stronger, stronger.table(), setups, false);
        std::cout << (name.empty() ? "with the orders that Linux names" : "with " + name) << ": " << verdict.text(setups[0]) << std::endl;
        fails = !verdict.found.empty(), is_whole &= verdict.is_whole;
    }
    return fails ? 1 : is_whole ? 0 : 3;
}

int print_rows(Asked asked, const std::vector<std::string> &words) {
    setups_of(asked, words);
    Table table = asked.table();
    for (int i : family_rows(asked, table)) {
        const Row &row = table[i];
        std::string beside = row.fence.empty() ? "" : ", behind " + row.fence;
        if (!row.dependency.empty()) beside += ", " + row.dependency + " of " + table[row.depends_on].label;
        std::cout << row.label << "\t" << row.file << (row.line ? ":" + std::to_string(row.line) : "") << "\t" << row.ordered << beside << "\n";
    }
    return 0;
}
