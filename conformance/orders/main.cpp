// The commands. `run` in this folder compiles and starts it, and has the help.
#include <cerrno>
#include <cstring>
#include <fstream>
#include <iostream>
#include <unistd.h>
#include "litmus.h"
#include "tables.h"
#include "tell.h"

// What the words ask for.
struct Words {
    std::vector<std::string> plain;
    std::string page;
    Asked asked;
};

[[noreturn]] static void refuse(const std::string &text) {
    std::cerr << "orders: " << text << "\n";
    exit(2);
}

static int number(const std::string &option, const std::string &text, int least, int most) {
    bool is_number = !text.empty() && text.size() < 8 && std::all_of(text.begin(), text.end(), isdigit);
    if (!is_number || stoi(text) < least || stoi(text) > most)
        refuse(option + " takes a number from " + std::to_string(least) + " to " + std::to_string(most) + ", not \"" + text + "\"");
    return stoi(text);
}

static void set_model(Words &words, const std::string &, const std::string &value) {
    static const std::pair<const char *, Model> models[] = {{"linux", Model::linux_model}, {"c11", Model::c11}, {"sc", Model::sc}};
    for (auto &[name, model] : models)
        if (value == name) return (void)(words.asked.memory.model = model);
    refuse("there is no model " + value + "; there are linux, c11 and sc");
}

static void set_page(Words &words, const std::string &, const std::string &value) {
    size_t slash = value.rfind('/');
    std::string folder = slash == std::string::npos ? "." : value.substr(0, slash + 1);
    if (value.empty() || access(folder.c_str(), W_OK) || (!access(value.c_str(), F_OK) && access(value.c_str(), W_OK)))
        refuse("cannot write the page \"" + value + "\": " + (value.empty() ? "no file is named" : strerror(errno)));
    words.page = value;
}

// An option, the commands that take it, and the families that have what it sets; empty for all.
struct Option {
    const char *name;
    bool takes_value;
    const char *commands, *families;
    void (*set)(Words &words, const std::string &option, const std::string &value);
};

static const Option options[] = {
    {"--large", false, "table beyond c11", "", [](Words &w, auto &, auto &) { w.asked.is_large = true; }},
    {"--linux", true, "table run beyond c11 rows acts", "", [](Words &w, auto &, auto &value) { w.asked.version = value; }},
    {"--model", true, "table run beyond", "", set_model},
    {"--weaken", true, "table run beyond c11 rows acts", "", [](Words &w, auto &, auto &value) { w.asked.weakened.push_back(value); }},
    {"--order", true, "table run beyond c11 rows acts", "", [](Words &w, auto &, auto &value) { w.asked.changed.push_back(value); }},
    {"--split", false, "table run c11", "native virt pv cna", [](Words &w, auto &, auto &) { w.asked.setup.split = true; }},
    {"--rows", false, "table run c11", "", [](Words &w, auto &, auto &) { w.asked.setup.extras = false; }},
    {"--controls", false, "table run beyond c11", "", [](Words &w, auto &, auto &) { w.asked.memory.controls = true; }},
    {"--writes", false, "table run beyond c11", "", [](Words &w, auto &, auto &) { w.asked.setup.writes_only = w.asked.memory.controls = true; }},
    {"--page", true, "run", "", set_page},
    {"--steps", false, "beyond", "", [](Words &w, auto &, auto &) { w.asked.tells_steps = true; }},
    {"--markdown", false, "table", "", [](Words &w, auto &, auto &) { w.asked.is_markdown = true; }},
    {"--spins", true, "table run beyond c11 acts", "pv", [](Words &w, auto &name, auto &value) { w.asked.setup.spins = number(name, value, 1, 99); }},
    {"--rounds", true, "table run beyond c11 acts", "pv", [](Words &w, auto &name, auto &value) { w.asked.setup.rounds = number(name, value, 0, 99); }},
    {"--threshold", true, "table run beyond c11 acts", "cna", [](Words &w, auto &name, auto &value) { w.asked.threshold = number(name, value, 0, 65535); }},
    {"--memory", true, "table run beyond c11 acts", "", [](Words &w, auto &name, auto &value) { w.asked.limits.megabytes = number(name, value, 1, 1000000); }},
    {"--seconds", true, "table run beyond c11 acts", "", [](Words &w, auto &name, auto &value) { w.asked.limits.seconds = number(name, value, 1, 1000000); }},
    {"--quiet", false, "", "", [](Words &w, auto &, auto &) { w.asked.limits.progress = 0; }},
};

static bool is_among(const std::string &word, const std::string &words) { return words.empty() || (" " + words + " ").find(" " + word + " ") != std::string::npos; }

static const Option &option_named(const std::string &name) {
    std::string names;
    for (const Option &option : options) {
        if (name == option.name) return option;
        names += std::string(" ") + option.name;
    }
    refuse("there is no option " + name + "; there are" + names);
}

static Words words_of(int count, char **arguments) {
    Words words;
    words.asked.folder = arguments[1];
    std::vector<const Option *> given;
    for (int i = 2; i < count; i++) {
        std::string word = arguments[i];
        if (word.rfind("--", 0) != 0) {
            words.plain.push_back(word);
            continue;
        }
        const Option &option = option_named(word);
        if (option.takes_value && i + 1 == count) refuse(word + " takes a value behind it");
        option.set(words, word, option.takes_value ? arguments[++i] : "");
        given.push_back(&option);
    }
    for (const Option *option : given) {
        if (words.plain.size() > 0 && !is_among(words.plain[0], option->commands)) refuse(words.plain[0] + " takes no " + option->name + "; those that do: " + option->commands);
        if (words.plain.size() > 1 && !is_among(words.plain[1], option->families)) refuse(words.plain[1] + " has no " + option->name + "; those that have: " + option->families);
    }
    return words;
}

static std::string title_of(const Asked &asked, const Found &found) {
    std::string text = asked.setup.family + " " + asked.text, sign = ", ";
    for (const std::string &name : asked.weakened) text += sign + name + " weakened", sign = " and ";
    for (const std::string &change : asked.changed) text += sign + change, sign = " and ";
    std::string title = text + (asked.setup.split ? ", the word split" : "") + ": " + words_of(found.failure) + " after " + std::to_string(found.steps.size()) + " steps";
    for (size_t at = title.find('>'); at != std::string::npos; at = title.find('>', at + 1)) title.replace(at, 1, "&gt;");
    return title;
}

static int run_one(Words &words) {
    Asked &asked = words.asked;
    if (words.plain.size() != 3) refuse("run takes a family and a setup, as in: run native 22");
    asked.set(words.plain[1], words.plain[2]);
    Table table = asked.table();
    Lock lock(table, asked.setup, asked.memory);
    Result result = explore(lock, asked.limits, {});
    std::cout << summary(asked, lock, result) << "\n";
    for (const Found &found : result.failures) {
        std::cout << words_of(found.failure) << ", in " << found.steps.size() << " steps:\n";
        tell_steps(std::cout, lock, found.steps);
    }
    if (!words.page.empty() && !result.failures.empty()) {
        std::ofstream page(words.page);
        const Found &found = result.failures[0];
        tell_page(page, lock, found.steps, title_of(asked, found));
        if (!page.flush()) refuse("cannot write the page \"" + words.page + "\": " + strerror(errno));
    }
    if (!words.page.empty() && result.failures.empty()) std::cerr << "orders: there is no failure, so " << words.page << " is not written\n";
    return !result.failures.empty() ? 1 : result.stopped.empty() ? 0 : 3;
}

// Writes traces and what they do, for check-replay: the shortest execution to each state, or random ones.
static int write_acts(Words &words) {
    Asked &asked = words.asked;
    if (words.plain.size() != 4 && words.plain.size() != 6) refuse("acts takes a family, a setup and a folder, and for random runs their number and a seed");
    asked.set(words.plain[1], words.plain[2]);
    asked.memory.model = Model::sc;
    asked.setup.extras = false;
    Table table = asked.table();
    Lock lock(table, asked.setup, asked.memory);
    int written = 0;
    auto write = [&](const std::vector<Step> &steps) {
        std::string name = words.plain[3] + "/" + std::to_string(written++);
        std::ofstream trace(name + ".qtrace"), acts(name + ".acts");
        tell_trace(trace, lock, steps);
        tell_acts(acts, lock, steps);
        if (!trace.flush() || !acts.flush()) refuse("cannot write " + name);
    };
    if (words.plain.size() == 4) {
        Wanted wanted;
        wanted.leaf = write;
        Result result = explore(lock, asked.limits, wanted);
        std::cout << written << " executions, of " << result.states << " states\n";
        return result.failures.empty() && result.stopped.empty() ? 0 : 1;
    }
    uint64_t seed = number("the seed", words.plain[5], 0, 999999) * 2 + 1;
    auto choose = [&](int count) {
        seed = seed * 6364136223846793005u + 1442695040888963407u;
        return (int)((seed >> 33) % count);
    };
    for (int i = 0, runs = number("acts", words.plain[4], 1, 999999); i < runs; i++) {
        Failure failure;
        write(walk(lock, choose, failure));
        if (failure != Failure::none) return std::cout << "run " << i << ": " << words_of(failure) << "\n", 1;
    }
    std::cout << written << " executions\n";
    return 0;
}

int main(int count, char **arguments) {
    if (count < 3) refuse("no command; run --help has them");
    try {
        Words words = words_of(count, arguments);
        std::string command = words.plain.empty() ? "" : words.plain[0];
        if (command == "run") return run_one(words);
        if (command == "acts") return write_acts(words);
        if (command == "litmus" && words.plain.size() > 2) refuse("litmus takes one file at most, not " + words.plain[2]);
        if (command == "litmus") return print_litmus(read_litmus(words.plain.size() > 1 ? words.plain[1] : words.asked.folder + "/orders/litmus.txt")) ? 1 : 0;
        std::vector<std::string> rest(words.plain.begin() + 1, words.plain.end());
        if (command == "table") return print_table(words.asked, rest);
        if (command == "beyond") return print_beyond(words.asked, rest);
        if (command == "c11") return print_c11(words.asked, rest);
        if (command == "rows") return print_rows(words.asked, rest);
        refuse("there is no command " + command + "; there are table, run, beyond, c11, litmus and rows");
    } catch (const std::string &text) {
        refuse(text);
    } catch (const std::out_of_range &) {
        refuse("a table of rows has a line that ends too early");
    } catch (const Overflow &) {
        refuse("a state has more messages than there is room for: take a smaller setup");
    } catch (const std::bad_alloc &) {
        std::cerr << "orders: there is no more memory\n";
        return 3;
    }
}
