#include "litmus.h"
#include <algorithm>
#include <cstdio>
#include <fstream>
#include <sstream>

namespace {
// All executions of a test, one choice after the other.
struct Run {
    const Litmus &test;
    Memory memory;
    bool is_met = false;

    void go(const State &s, std::vector<size_t> at, std::map<std::pair<int, int>, int> registers);
    void make(const State &s, int t, const std::vector<size_t> &at, const std::map<std::pair<int, int>, int> &registers);
    void change(const State &s, int t, const Operation &op, const std::vector<size_t> &at, std::map<std::pair<int, int>, int> registers);
    bool is_outcome(const State &s, const std::map<std::pair<int, int>, int> &registers) const;
};
}  // namespace

bool Run::is_outcome(const State &s, const std::map<std::pair<int, int>, int> &registers) const {
    for (auto &[where, value] : test.registers) {
        auto found = registers.find(where);
        if (found == registers.end() || found->second != value) return false;
    }
    return std::all_of(test.lasts.begin(), test.lasts.end(), [&](auto &last) { return s.newest(last.first).value[0] == last.second; });
}

void Run::go(const State &s, std::vector<size_t> at, std::map<std::pair<int, int>, int> registers) {
    if (is_met) return;
    bool is_over = true;
    for (int t = 0; t < s.threads; t++)
        if (at[t] < test.threads[t].size()) {
            is_over = false;
            make(s, t, at, registers);
        }
    if (is_over) is_met = is_outcome(s, registers);
}

void Run::change(const State &s, int t, const Operation &op, const std::vector<size_t> &at, std::map<std::pair<int, int>, int> registers) {
    State ready = s;
    if (op.order.mb_before) memory.mb(ready, t);
    for (int i = memory.oldest(ready, t, op.place, op.order); i <= ready.last(op.place); i++) {
        uint8_t met = ready.message(op.place, i).value[0];
        bool fails = op.kind == Operation::compare && met != op.expected;
        if (fails || !memory.is_open(ready, op.place, i + 1)) continue;
        State next = ready;
        uint8_t value[3] = {(uint8_t)(op.kind == Operation::add ? met + op.value : op.value), 0, 0};
        memory.read(next, t, op.place, i, 1, op.order);
        memory.modify(next, t, op.place, i, value, op.order);
        memory.behind(next, t, op.order);
        registers[{t, op.result}] = met;
        go(next, at, registers);
    }
}

void Run::make(const State &s, int t, const std::vector<size_t> &before, const std::map<std::pair<int, int>, int> &known) {
    const Operation &op = test.threads[t][before[t]];
    auto at = before;
    at[t]++;
    State next = s;
    if (op.kind == Operation::mb) return memory.mb(next, t), go(next, at, known);
    if (op.kind == Operation::wmb) return memory.wmb(next, t), go(next, at, known);
    if (op.kind == Operation::rmb) return memory.rmb(next, t), go(next, at, known);
    uint8_t value[3] = {(uint8_t)op.value, 0, 0};
    for (int i = memory.lowest(s, t, op.place, op.order); op.kind == Operation::store && i <= s.count(op.place); i++) {
        if (!memory.is_open(s, op.place, i)) continue;
        next = s;
        memory.store(next, t, op.place, i, value, op.order);
        go(next, at, known);
    }
    if (op.kind == Operation::store) return;
    Order order = op.kind == Operation::load ? op.order : Order();
    for (int i = memory.oldest(s, t, op.place, order); i <= s.last(op.place); i++) {
        uint8_t met = s.message(op.place, i).value[0];
        // A compare-exchange that fails is a load, and orders nothing.
        if (op.kind != Operation::load && (op.kind != Operation::compare || met == op.expected)) continue;
        next = s;
        memory.read(next, t, op.place, i, 1, order);
        auto registers = known;
        registers[{t, op.result}] = met;
        go(next, at, registers);
    }
    if (op.kind != Operation::load) change(s, t, op, at, known);
}

bool Litmus::is_allowed(Model model) const {
    State s;
    s.threads = threads.size(), s.places = places.size();
    for (int i = 0; i <= s.places; i++) s.begin[i] = i;
    std::fill(s.pool, s.pool + s.places, Message{});
    Run run{*this, Memory{model, false}};
    run.go(s, std::vector<size_t>(s.threads), {});
    return run.is_met;
}

static std::vector<std::string> split(const std::string &text, char by) {
    std::vector<std::string> parts;
    std::istringstream input(text);
    for (std::string part; std::getline(input, part, by);) parts.push_back(part);
    return parts;
}

static int number_of(std::vector<std::string> &names, const std::string &name) {
    auto found = std::find(names.begin(), names.end(), name);
    if (found == names.end()) {
        if (names.size() == (size_t)most_places) throw std::string("a test has too many places");
        return names.push_back(name), names.size() - 1;
    }
    return found - names.begin();
}

static bool is_register(const std::string &name) { return name[0] == 'r' && name.size() > 1 && isdigit(name[1]); }

static void set_order(Operation &made, const std::string &word) {
    Order &order = made.order;
    if (word == "acquire") order.acquire = true;
    else if (word == "release") order.release = true;
    else if (word == "full") order.acquire = order.release = order.mb_before = order.mb_behind = true;
    else if (word == "address") order.heads_address = true;
    else if (word == "control") order.heads_control = true;
    else if (word == "follows") order.follows_address = true;
    else throw "no order " + word;
}

static Operation operation_of(const std::string &text, std::vector<std::string> &places) {
    auto words = split(text, ' ');
    words.erase(std::remove(words.begin(), words.end(), ""), words.end());
    if (words.empty()) throw std::string("an operation is empty");
    Operation made{};
    for (auto &[name, kind] : {std::pair{"mb", Operation::mb}, {"wmb", Operation::wmb}, {"rmb", Operation::rmb}})
        if (words[0] == name) return made.kind = kind, made;
    auto sides = split(words[0], '=');
    if (sides.size() != 2) throw "no operation " + text;
    size_t at = 1;
    if (!is_register(sides[0])) {
        made.kind = Operation::store, made.place = number_of(places, sides[0]), made.value = std::stoi(sides[1]);
    } else {
        made.result = std::stoi(sides[0].substr(1));
        static const std::pair<const char *, Operation::Kind> kinds[] = {{"xchg", Operation::swap}, {"add", Operation::add}, {"cmpxchg", Operation::compare}};
        made.kind = Operation::load;
        for (auto &[name, kind] : kinds)
            if (sides[1] == name) made.kind = kind;
        made.place = number_of(places, made.kind == Operation::load ? sides[1] : words.at(at++));
        if (made.kind == Operation::compare) made.expected = std::stoi(words.at(at++));
        if (made.kind != Operation::load) made.value = std::stoi(words.at(at++));
    }
    for (; at < words.size(); at++) set_order(made, words[at]);
    return made;
}

static void read_outcome(Litmus &test, const std::string &text) {
    std::istringstream words(text);
    for (std::string word; words >> word;) {
        auto sides = split(word, '=');
        size_t dot = sides[0].find('.');
        if (sides.size() != 2) throw "no outcome " + word;
        int value = std::stoi(sides[1]);
        if (dot == std::string::npos) test.lasts[number_of(test.places, sides[0])] = value;
        else test.registers[{std::stoi(sides[0].substr(0, dot)), std::stoi(sides[0].substr(dot + 2))}] = value;
    }
}

static void read_line(std::vector<Litmus> &tests, const std::string &line) {
    std::istringstream words(line);
    std::string first;
    if (!(words >> first) || first[0] == '#') return;
    if (first == "test") {
        tests.emplace_back();
        words >> tests.back().name;
        for (std::string word; words >> word;) (word == "linux" ? words >> tests.back().on_linux : words >> tests.back().on_c11);
        return;
    }
    if (tests.empty()) throw "no test begins before \"" + line.substr(0, 60) + "\"";
    std::string rest;
    std::getline(words, rest);
    if (first == "exists") return read_outcome(tests.back(), rest);
    if (first[0] != 'P' || first.back() != ':') throw "no line of a test: " + line;
    if (tests.back().threads.size() == (size_t)most_threads) throw std::string("a test has too many processors");
    tests.back().threads.emplace_back();
    for (auto &operation : split(rest, ';')) tests.back().threads.back().push_back(operation_of(operation, tests.back().places));
}

std::vector<Litmus> read_litmus(const std::string &path) {
    std::ifstream input(path);
    if (!input) throw "there is no file " + path;
    std::vector<Litmus> tests;
    int number = 0;
    for (std::string line; std::getline(input, line);) try {
            number++;
            read_line(tests, line);
        } catch (const std::string &text) {
            throw path + ", line " + std::to_string(number) + ": " + text;
        }
    if (tests.empty()) throw "there is no test in " + path;
    return tests;
}

int print_litmus(const std::vector<Litmus> &tests) {
    int faults = 0;
    for (const Litmus &test : tests) {
        std::string verdict;
        std::string said[2];
        for (bool c11 : {false, true}) {
            said[c11] = test.is_allowed(c11 ? Model::c11 : Model::linux_model) ? "sometimes" : "never";
            const std::string &expected = c11 ? test.on_c11 : test.on_linux;
            if (!expected.empty() && expected != said[c11]) verdict += (verdict.empty() ? "" : ", ") + std::string(c11 ? "c11" : "linux") + " expected " + expected;
        }
        faults += !verdict.empty();
        printf("%-44s linux %-9s  c11 %-9s  %s\n", test.name.c_str(), said[0].c_str(), said[1].c_str(), verdict.empty() ? "as expected" : verdict.c_str());
    }
    printf("%zu tests, %d not as expected\n", tests.size(), faults);
    return faults;
}
