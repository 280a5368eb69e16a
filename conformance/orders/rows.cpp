#include "rows.h"
#include <algorithm>
#include <cctype>
#include <fstream>
#include <sstream>

static const char *const register_names[] = {"prev", "y", "second", "a", "b", "k", "t", "why", "tailed", "left", "hashed", "target", "then", "runs", "slot", "rounds"};
const char *name_of(Register number) { return register_names[number]; }

static const char *const access_names[] = {"look", "wait", "store", "cmpxchg", "xchg", "set", "add", "subtract", "reset", "enter", "erase", "find", "halt", "kick"};
static const char *const reasons[] = {"append", "flush", "promote"};
static const char *const families[] = {"native", "virt", "pv", "cna"};

template <size_t count> static int index_of(const char *const (&names)[count], const std::string &name) {
    for (size_t i = 0; i < count; i++)
        if (name == names[i]) return i;
    return -1;
}

static std::vector<std::string> words_of(const std::string &text) {
    std::istringstream input(text);
    std::vector<std::string> words;
    for (std::string word; input >> word;) words.push_back(word);
    return words;
}

static std::vector<std::string> fields_of(const std::string &text) {
    std::vector<std::string> fields(1);
    for (char c : text)
        if (c == ',') fields.emplace_back();
        else fields.back().push_back(c);
    return fields;
}

static int register_named(const std::string &name) {
    int number = index_of(register_names, name);
    if (number < 0) throw "no register " + name;
    return number;
}

// A value of a field that is met: a digit, S, + any but 0, n the own node; a letter or * any.
static int expected_value(const std::string &text) {
    if (text == "S") return 3;
    if (text == "+") return Condition::nonzero;
    if (text == "n") return Condition::own;
    return isdigit(text[0]) ? atoi(text.c_str()) : Condition::any;
}

static Condition condition_of(const std::string &word) {
    Condition found{};
    if (word.find(',') != std::string::npos) {
        auto fields = fields_of(word);
        if (fields.size() != 3) throw "a word has three fields, not " + word;
        found.kind = Condition::fields;
        for (int i = 0; i < 3; i++) found.value[i] = expected_value(fields[i]);
        return found;
    }
    static const std::pair<const char *, Condition::Kind> kinds[] = {
        {"succeeds", Condition::swapped}, {"unset", Condition::unset},     {"go", Condition::go},       {"none", Condition::none},
        {"node", Condition::node},       {"running", Condition::running}, {"halted", Condition::halted}, {"local", Condition::local},
        {"below", Condition::below},     {"more", Condition::more},       {"interrupt", Condition::interrupt}, {"patient", Condition::patient}};
    for (auto &[name, kind] : kinds)
        if (word == name) return found.kind = kind, found;
    int family = index_of(families, word), reason = index_of(reasons, word);
    if (family >= 0) found.kind = Condition::family, found.value[0] = family;
    else if (reason >= 0) found.kind = Condition::why, found.value[0] = reason;
    else if (word == "known") found.kind = Condition::is_set, found.value[0] = y_;
    else found.kind = Condition::is_set, found.value[0] = register_named(word);
    return found;
}

static Assignment assignment_of(const std::string &word) {
    size_t sign = word.find_first_of("=+-");
    if (sign == std::string::npos) throw "no assignment " + word;
    Assignment made{(Register)register_named(word.substr(0, sign)), Assignment::met, 0};
    std::string value = word.substr(sign + 1);
    if (word[sign] != '=') made.kind = word[sign] == '+' ? Assignment::plus : Assignment::minus;
    else if (value == "v") made.kind = Assignment::met;
    else if (value == "tail") made.kind = Assignment::tail;
    else if (value == "spins") made.kind = Assignment::spins;
    else if (isdigit(value[0])) made.kind = Assignment::number, made.value = atoi(value.c_str());
    else if (index_of(reasons, value) >= 0) made.kind = Assignment::number, made.value = index_of(reasons, value);
    else made.kind = Assignment::of_register, made.value = register_named(value);
    return made;
}

static Stored stored_value(const std::string &text) {
    if (text == "S") return {Stored::number, 3};
    if (text == "n") return {Stored::own, 0};
    if (text.size() == 3 && text[0] == 'r') return {text[1] == '+' ? Stored::plus : Stored::minus, 1};
    static const std::pair<const char *, Stored> values[] = {
        {"none", {Stored::number, 0}}, {"go", {Stored::number, 1}}, {"running", {Stored::number, 0}}, {"halted", {Stored::number, 1}},
        {"hashed", {Stored::number, 2}}, {"r", {Stored::runs, 0}}, {"second", {Stored::go_or_second, 0}}};
    for (auto &[name, value] : values)
        if (text == name) return value;
    if (isdigit(text[0])) return {Stored::number, atoi(text.c_str())};
    return {Stored::of_register, register_named(text)};
}

static void read_place(Row &row, const std::string &word) {
    static const std::pair<const char *, int> masks[] = {{"word", 7}, {"both", 6}, {"locked", 4}, {"pending", 2}, {"tail", 1}, {"rwword", 7}, {"writer", 4}};
    for (auto &[name, mask] : masks)
        if (word == name) {
            row.field = Field::word, row.mask = mask, row.is_readers = word == "rwword" || word == "writer";
            return;
        }
    row.mask = 1;
    size_t dot = word.find('.');
    std::string owner = word.substr(0, dot);
    row.is_own = owner == "own" || owner == "self" || owner == "hash";
    if (!row.is_own) row.named = (Register)register_named(owner);
    row.field = owner == "self" ? Field::self : Field::hash;
    if (dot == std::string::npos) return;
    static const std::pair<const char *, Field> fields[] = {{"flag", Field::flag}, {"next", Field::next}, {"state", Field::state}, {"tail", Field::tail}, {"runs", Field::runs}};
    for (auto &[name, field] : fields)
        if (word.substr(dot + 1) == name) row.field = field;
}

// BEFORE -> AFTER. A letter that stays stays.
static void read_change(Row &row) {
    bool is_word = row.field == Field::word;
    auto before = is_word ? fields_of(row.before) : std::vector<std::string>{row.before};
    auto after = is_word ? fields_of(row.after) : std::vector<std::string>{row.after};
    bool is_state = row.before == "halted";
    for (size_t i = 0; i < before.size() && is_word; i++) row.expected[i] = expected_value(before[i]);
    if (is_state) row.expected[0] = 1;
    for (size_t i = 0; i < after.size() && !row.after.empty(); i++)
        if (!is_word || before[i] != after[i]) row.stored[i] = is_word && after[i] == "t" ? Stored{Stored::of_register, t_} : stored_value(after[i]);
}

static Row row_of(const std::vector<std::string> &words) {
    Row row;
    row.is_extra = words[0] == "extra";
    if (words.size() < 4) throw "a row has a label, an access and a place, not " + std::to_string(words.size()) + " words";
    row.label = words[1];
    int access = index_of(access_names, words[2]);
    if (access < 0) throw "no access " + words[2];
    row.access = (Access)access;
    read_place(row, words[3]);
    size_t at = 4;
    while (at < words.size() && words[at] != "as" && words[at] != "order") {
        if (words[at] == "->") row.after = words.at(++at);
        else row.before = words[at];
        at++;
    }
    if (at + 1 < words.size() && words[at] == "order") row.own_order = words[at + 1];
    if (at + 3 < words.size() && words[at + 2] == "from") row.comes_from.assign(words.begin() + at + 3, words.end());
    if (at + 2 < words.size() && words[at] == "as") row.as = words[at + 1] + " " + words[at + 2];
    read_change(row);
    return row;
}

static void read_next(Case &found, const std::vector<std::string> &words, std::vector<std::string> &names) {
    static const char *const wheres[] = {"", "granted", "freed", "done", "missed", "waitlock", "freewait", "again"};
    size_t at = 0;
    int where = index_of(wheres, words.at(at++));
    names.assign(2, "");
    if (where > 0) found.where = (Case::Where)where;
    if (where <= 0) names[0] = words[0];
    if (found.where == Case::waitlock) names[0] = words.at(at++);
    for (; at < words.size(); at++)
        if (words[at] == "via") names[1] = words.at(++at);
        else found.assignments.push_back(assignment_of(words[at]));
}

int Table::find(const std::string &label) const {
    for (size_t i = 0; i < rows.size(); i++)
        if (rows[i].label == label) return i;
    return -1;
}

// A case, with the names of the rows to which it leads, which are looked up when all are read.
static Case case_of(const std::string &line, std::vector<std::string> &names) {
    size_t arrow = line.find("=>"), bar = line.find('|');
    if (arrow == std::string::npos) throw "a case has no =>: " + line;
    Case found;
    for (auto &word : words_of(line.substr(0, arrow)))
        if (word != "else") found.conditions.push_back(condition_of(word));
    read_next(found, words_of(line.substr(arrow + 2, bar == std::string::npos ? bar : bar - arrow - 2)), names);
    if (bar != std::string::npos)
        for (auto &word : words_of(line.substr(bar + 1))) found.event += (found.event.empty() ? "" : " ") + word;
    return found;
}

// What a row's order is needed for, or its barrier, or its dependency, which the first word names then.
static void read_needs(Row &row, const std::vector<std::string> &words) {
    static const char *const parts[] = {"wmb", "rmb", "mb", "address", "control"};
    size_t at = 1;
    std::string part, text;
    if (at < words.size() && index_of(parts, words[at]) >= 0) part = words[at++];
    for (; at < words.size(); at++) text += (text.empty() ? "" : " ") + words[at];
    row.needs[part] = text;
}

// Where a row meets a state, `hashed` is that state and not the register.
static void read_states(Row &row) {
    if (row.field != Field::state) return;
    for (Condition &condition : row.cases.back().conditions)
        if (condition.kind == Condition::is_set && condition.value[0] == hashed_) condition.kind = Condition::hashed_state;
}

void Table::read(const std::string &path) {
    std::ifstream input(path);
    if (!input) throw "there is no table " + path;
    std::vector<std::vector<std::vector<std::string>>> names;
    for (std::string line; std::getline(input, line);) {
        auto words = words_of(line);
        if (words.empty() || words[0][0] == '#') continue;
        if (words[0] == "needs") read_needs(rows.back(), words);
        else if (words[0] == "row" || words[0] == "extra") rows.push_back(row_of(words)), names.emplace_back();
        else {
            names.back().emplace_back();
            rows.back().cases.push_back(case_of(line, names.back().back()));
            read_states(rows.back());
        }
    }
    for (size_t i = 0; i < rows.size(); i++)
        for (size_t j = 0; j < rows[i].cases.size(); j++)
            for (int k = 0; k < 2; k++) {
                const std::string &name = names[i][j][k];
                int row = name.empty() ? -1 : find(name);
                if (!name.empty() && row < 0) throw "row " + rows[i].label + " leads to " + name + ", which is no row";
                (k ? rows[i].cases[j].via : rows[i].cases[j].next) = row;
            }
}
