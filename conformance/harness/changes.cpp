#include "changes.h"
#include <algorithm>
#include "fault.h"

Change change;

ChangeKind Change::at(const Entry *entry) const {
    if (kind == ChangeKind::nothing || !entry) return ChangeKind::nothing;
    bool is_it = entry->operation == operation && entry->row == row && entry->function == function;
    return is_it ? kind : ChangeKind::nothing;
}

static ChangeKind kind_named(const std::string &name) {
    if (name == "skip") return ChangeKind::skip;
    if (name == "repeat") return ChangeKind::repeat;
    if (name == "value") return ChangeKind::value;
    if (name == "expected") return ChangeKind::expected;
    if (name == "blind") return ChangeKind::blind;
    fail("no change %s", name.c_str());
}

void Change::read(const std::string &text) {
    auto words = words_of(text);
    if (words.size() < 4) fail("a change has at least four words");
    kind = kind_named(words[0]);
    function = words[1];
    operation = operation_named(words[2]);
    row = row_named(words[3]);
    if (words.size() > 4) bits = std::stoull(words[4], nullptr, 0);
    bool takes_bits = kind == ChangeKind::value || kind == ChangeKind::expected;
    if (takes_bits != (bits != 0)) fail("bits are turned by a change of a value, and by no other");
    auto is_it = [&](const Entry &entry) { return at(&entry) != ChangeKind::nothing; };
    if (std::none_of(table.entries.begin(), table.entries.end(), is_it)) fail("the table has no %s", text.c_str());
}
