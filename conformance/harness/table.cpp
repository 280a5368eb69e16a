#include "table.h"
#include <fstream>
#include "fault.h"

Table table;

static const char *const operation_names[] = {
#define X(name) #name,
    SHIM_OPERATIONS(X)
#undef X
};

const char *name_of(shim_operation operation) { return operation_names[operation]; }

shim_operation operation_named(const std::string &name) {
    for (int i = 0; i < shim_operations; i++)
        if (name == operation_names[i]) return (shim_operation)i;
    fail("no operation %s", name.c_str());
}

const char *name_of(Row row) {
    static const char *const names[] = {"-",
#define X(name) #name,
                                        CONFORMANCE_ROWS(X)
#undef X
    };
    return names[(int)row];
}

Row row_named(const std::string &label) {
    for (int i = 0; i <= (int)Row::X7; i++)
        if (label == name_of((Row)i)) return (Row)i;
    fail("no row %s", label.c_str());
}

static void add_condition(Entry &entry, const std::string &word) {
    if (word == "by-try") entry.by = By::a_try;
    else if (word == "by-node") entry.by = By::with_node;
    else if (word == "by-nonode") entry.by = By::without_node;
    else if (word == "by-quitter") entry.by = By::a_quitter;
    else if (word == "by-releaser") entry.by = By::a_releaser;
    else if (word == "native") entry.code = Code::native;
    else if (word == "pv") entry.code = Code::pv;
    else if (word.rfind("after-", 0) == 0) entry.after = row_named(word.substr(6));
    else if (word == "last-look") entry.when = When::last_look;
    else if (word == "nonzero") entry.when = When::nonzero;
    else if (word == "other") entry.when = When::other;
    else if (word == "swapped") entry.when = When::swapped;
    else if (word == "held") entry.when = When::held;
    else if (word == "swapped-or-held") entry.when = When::swapped_or_held;
    else if (word == "second-half") entry.when = When::second_half;
    else fail("the table has a condition %s", word.c_str());
}

static Entry entry_of(const std::string &file, const std::vector<std::string> &words) {
    if (words.size() < 6) fail("the table has a line of %zu words", words.size());
    Entry entry;
    entry.file = file;
    entry.line = std::stoi(words[0]);
    entry.function = words[1];
    entry.operation = operation_named(words[2]);
    entry.word = word_named(words[3]);
    // words[4] is the order, and every operation here is sequentially consistent.
    entry.row = row_named(words[5]);
    if (entry.row == Row::none) entry.when = When::never;
    for (size_t i = 6; i < words.size(); i++) add_condition(entry, words[i]);
    return entry;
}

void Table::read(const std::string &path) {
    std::ifstream input(path);
    if (!input) fail("no table %s", path.c_str());
    std::string line, file;
    while (std::getline(input, line)) {
        auto words = words_of(line);
        if (words.empty() || words[0] == "#" || words[0] == "|") continue;
        if (words[0] == "file") file = words.at(1);
        else if (words.at(2) != "fence" && words.at(2) != "depends") entries.push_back(entry_of(file, words));
    }
}

static bool is_by(By by, Phase phase) {
    switch (by) {
    case By::anyone: return true;
    case By::a_try: return phase == Phase::trying;
    case By::with_node: return phase == Phase::with_node;
    case By::without_node: return phase == Phase::without_node;
    case By::a_quitter: return phase == Phase::quitting;
    case By::a_releaser: return phase == Phase::releasing;
    }
    return false;
}

const Entry *Table::find(const shim_place &at, Word word, const Standing &standing) const {
    for (const Entry &entry : entries)
        if (entry.line == at.line && entry.operation == at.operation && entry.word == word && entry.function == at.function &&
            entry.file == at.file && is_by(entry.by, standing.phase) && (entry.code == Code::either || entry.code == standing.code) &&
            (entry.after == Row::none || entry.after == standing.last))
            return &entry;
    return nullptr;
}
