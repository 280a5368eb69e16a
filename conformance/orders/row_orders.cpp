// The orders of the rows: those of a table of operations, and what can be taken from them.
#include <fstream>
#include <sstream>
#include "rows.h"

static Order order_named(std::string name) {
    Order order;
    static const std::string always = "-always";
    if (name.size() > always.size() && name.substr(name.size() - always.size()) == always) {
        order.always = true;
        name.resize(name.size() - always.size());
    }
    bool full = name == "full";
    order.acquire = full || name == "acquire" || name == "acq_rel";
    order.release = full || name == "release" || name == "acq_rel";
    order.mb_before = full;
    order.mb_behind = full || name == "mb-after";
    order.wmb = name == "wmb";
    if (!full && !order.acquire && !order.release && !order.mb_behind && !order.wmb && name != "relaxed" && name != "plain" && name != "-")
        throw "there is no order " + name + "; there are relaxed, acquire, release, acq_rel, full, mb-after and wmb";
    return order;
}

void Table::set_order(int row, const std::string &name) {
    Order made = order_named(name), &order = rows[row].order;
    order.acquire = made.acquire, order.release = made.release;
    order.mb_before = made.mb_before, order.mb_behind = made.mb_behind, order.always = made.always;
    order.wmb |= made.wmb;
    rows[row].ordered = name;
}

namespace {
struct Line {
    int number;
    std::string file, function, operation, word, order, row, condition;
};
}  // namespace

static std::vector<Line> lines_of(const std::string &path) {
    std::ifstream input(path);
    if (!input) throw "there is no table " + path;
    std::vector<Line> lines;
    std::string file;
    for (std::string text; std::getline(input, text);) {
        std::istringstream words(text);
        std::string first;
        words >> first;
        if (first == "file") words >> file;
        if (first.empty() || !isdigit(first[0])) continue;
        Line line{std::stoi(first), file, "", "", "", "", "", ""};
        words >> line.function >> line.operation >> line.word >> line.order >> line.row >> line.condition;
        lines.push_back(line);
    }
    return lines;
}

// Whether a line of the table is the access of a row: the row's operation, on its word.
static bool is_access(const Row &row, const Line &line) {
    static const std::pair<Access, const char *> operations[] = {
        {Access::look, "load"}, {Access::look, "wait"}, {Access::wait, "load"}, {Access::wait, "wait"}, {Access::store, "store"},
        {Access::swap, "swap"}, {Access::exchange, "exchange"}, {Access::set, "or"}, {Access::add, "add"}, {Access::subtract, "subtract"},
        {Access::reset, "node"}, {Access::enter, "store"}, {Access::erase, "store"}, {Access::find, "store"}, {Access::halt, "halt"},
        {Access::kick, "kick"}};
    if (!row.as.empty()) return line.row == "-" && line.operation + " " + line.word == row.as;
    for (auto &[access, operation] : operations)
        if (row.access == access && line.row == row.label && line.operation == operation) return true;
    return false;
}

// The place of a row: the first one of code for all processors; x86's where only x86 has it.
static const Line *place_of(const Row &row, const std::vector<Line> &lines) {
    for (bool x86 : {false, true})
        for (const Line &line : lines)
            if (is_access(row, line) && (line.file.rfind("arch/", 0) == 0) == x86) return &line;
    return nullptr;
}

static void add_dependency(Table &table, int row, const Line &line) {
    Row &to = table.rows[row];
    int from = table.find(line.condition.substr(5));
    if (from < 0) throw "a dependency comes from no row: " + line.condition;
    to.dependency = line.order, to.dependency_line = line.number, to.depends_on = from;
    to.order.follows_address = line.order == "address";
    for (Row &head : table.rows) {
        // What Linux sees of the link early heads the same dependency.
        bool is_early = head.is_extra && head.field == Field::next && table.rows[from].field == Field::next;
        if (&head != &table.rows[from] && !is_early) continue;
        (line.order == "address" ? head.order.heads_address : head.order.heads_control) = true;
    }
}

// The dependencies of a lock that Linux does not have.
static void add_own_dependency(Table &table, int row) {
    Row &to = table.rows[row];
    for (const std::string &name : to.comes_from) {
        int from = table.find(name);
        if (from < 0) throw "a dependency comes from no row: " + name;
        if (to.dependency.empty()) to.dependency = "address", to.depends_on = from;
        to.order.follows_address = table.rows[from].order.heads_address = true;
    }
}

void Table::read_orders(const std::string &path) {
    auto lines = lines_of(path);
    for (size_t i = 0; i < rows.size(); i++) {
        Row &row = rows[i];
        const Line *place = place_of(row, lines);
        if (row.own_order.empty() && !place) throw "the table " + path + " has no place of row " + row.label;
        set_order(i, row.own_order.empty() ? place->order : row.own_order);
        add_own_dependency(*this, i);
        if (place) row.file = place->file.substr(place->file.rfind('/') + 1), row.line = place->number;
    }
    for (const Line &line : lines) {
        int row = find(line.row);
        if (row < 0) continue;
        if (line.operation == "depends") add_dependency(*this, row, line);
        if (line.operation != "fence") continue;
        rows[row].fence = line.order, rows[row].fence_line = line.number;
        (line.order == "wmb" ? rows[row].order.wmb : line.order == "rmb" ? rows[row].order.rmb : rows[row].order.mb) = true;
    }
}

void Table::weaken(const Weakening &weakening) {
    Row &row = rows[weakening.row];
    if (weakening.part == Weakening::access) set_order(weakening.row, weakening.to);
    if (weakening.part == Weakening::fence) row.order.mb = row.order.wmb = row.order.rmb = false;
    if (weakening.part != Weakening::dependency) return;
    row.order.follows_address = false;
    if (row.dependency == "control") rows[row.depends_on].order.heads_control = false;
}

std::vector<Weakening> Table::weakenings(const std::vector<int> &which) const {
    std::vector<Weakening> found;
    for (int i : which) {
        const Row &row = rows[i];
        if (!row.fence.empty()) found.push_back({i, Weakening::fence, "no " + row.fence});
        if (!row.dependency.empty()) found.push_back({i, Weakening::dependency, "none"});
        if (row.ordered == "full")
            for (const char *to : {"acquire", "release"}) found.push_back({i, Weakening::access, to});
        if (row.ordered != "relaxed" && row.ordered != "plain" && row.ordered != "-") found.push_back({i, Weakening::access, "relaxed"});
    }
    return found;
}

std::string Table::name_of(const Weakening &weakening) const {
    const Row &row = rows[weakening.row];
    if (weakening.part == Weakening::access) return row.label;
    return weakening.part == Weakening::fence ? row.label + "." + row.fence : rows[row.depends_on].label + ">" + row.label;
}

int Table::line_of(const Weakening &weakening) const {
    const Row &row = rows[weakening.row];
    return weakening.part == Weakening::access ? row.line : weakening.part == Weakening::fence ? row.fence_line : row.dependency_line;
}

std::string Table::order_of(const Weakening &weakening) const {
    const Row &row = rows[weakening.row];
    return weakening.part == Weakening::access ? row.ordered : weakening.part == Weakening::fence ? row.fence : row.dependency;
}

std::string Table::needs_of(const Weakening &weakening) const {
    const Row &row = rows[weakening.row];
    auto found = row.needs.find(weakening.part == Weakening::access ? "" : order_of(weakening));
    return found == row.needs.end() ? "" : found->second;
}
