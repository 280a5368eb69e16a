// The tables that the commands print.
#pragma once
#include <algorithm>
#include <string>
#include <vector>
#include "explore.h"

// What a command explores, and how.
struct Asked {
    // Of the tables: it has orders/rows.txt and operations/VERSION.txt.
    std::string folder, version = "6.12";
    Setup setup;
    Memory memory;
    Limits limits;
    std::vector<std::string> weakened, changed;
    bool is_large = false, is_markdown = false, tells_steps = false;
    // Of the CNA lock, where the setup does not say.
    int threshold = 65535;
    // The setups that are explored where the others show no failure.
    std::vector<std::string> larger;
    // The setup as it was written.
    std::string text;

    // Reads a family and a setup, as native 221, rw w1i2, or cna 211:010:1, where the sockets and the threshold stand behind colons.
    void set(const std::string &family, const std::string &text);
    // The rows with the orders of the version, as they were weakened and changed. A setup is set.
    Table table() const;
};

std::string summary(const Asked &asked, const Lock &lock, const Result &result);
// Each takes the words behind the command: a family, and setups. The status is 1 where Linux's orders fail, 3 where not all was visited.
int print_table(Asked asked, const std::vector<std::string> &words);
int print_beyond(Asked asked, const std::vector<std::string> &words);
int print_c11(Asked asked, const std::vector<std::string> &words);
int print_rows(Asked asked, const std::vector<std::string> &words);
