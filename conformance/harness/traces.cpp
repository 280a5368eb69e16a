#include "traces.h"
#include <istream>
#include <set>
#include "fault.h"
#include "scheduler.h"
#include "words.h"

using Words = std::vector<std::string>;

static Program program_of(const Words &words) {
    Program program;
    for (size_t i = 2; i + 1 < words.size(); i += 2) program.push_back({verb_named(words[i]), std::stoi(words[i + 1])});
    return program;
}

static void check_sockets(const Words &words) {
    for (size_t i = 2; i < words.size(); i++)
        if (words[i] != words[1]) fail("Linux has no CNA lock; only one socket can be run");
}

static int numbered(const Setup &setup, const Words &words) { return setup.processor_numbered(std::stoi(words.at(1))); }

static void read_header_line(Setup &setup, const Words &words) {
    const std::string &word = words[0];
    if (word == "qtrace") setup.format = std::stoi(words.at(1));
    else if (word == "mode") setup.mode = mode_named(words.at(1));
    else if (word == "sockets") check_sockets(words);
    else if (word == "threshold") setup.threshold = std::stoi(words.at(1));
    else if (word == "cpus") setup.cpus = std::stoi(words.at(1));
    else if (word == "spins") setup.spins = std::stoi(words.at(1));
    else if (word == "lock") setup.is_rw.push_back(words.at(2) == "rw");
    else if (word == "prog") setup.programs.at(numbered(setup, words)) = program_of(words);
    else if (word == "irq") setup.handlers.at(numbered(setup, words)).push_back(program_of(words));
    else fail("no header line %s", word.c_str());
}

static void make_line(const Words &words) {
    const std::string &word = words[0];
    int processor = numbered(machine.setup, words);
    long times = word == "step" ? std::stol(words.at(2)) : 0;
    for (; times > 0; times--) step(processor);
    if (word == "int") interrupt(processor);
    else if (word == "pre") preempt(processor);
    else if (word == "res") go_on(processor);
    else if (word == "nudge") nudge(processor);
    else if (word != "step") fail("no schedule line %s", word.c_str());
}

static std::vector<Words> lines_of(std::istream &trace) {
    std::vector<Words> lines;
    std::string line;
    while (std::getline(trace, line)) {
        Words words = words_of(line);
        if (!words.empty() && words[0][0] != '#') lines.push_back(words);
    }
    return lines;
}

// The numbers of the processors that have a program or a handler, or that a line of the schedule names.
static std::set<int> numbers_in(const std::vector<Words> &lines) {
    static const std::set<std::string> naming = {"prog", "irq", "step", "int", "pre", "res", "nudge"};
    std::set<int> numbers;
    for (const Words &words : lines)
        if (naming.count(words[0])) numbers.insert(std::stoi(words.at(1)));
    if (numbers.size() > most_processors) fail("a trace has %d processors at most that do something", most_processors);
    return numbers;
}

void drive(std::istream &trace) {
    machine.setup = Setup();
    std::vector<Words> lines = lines_of(trace);
    std::set<int> numbers = numbers_in(lines);
    machine.setup.set_processors((int)numbers.size());
    machine.setup.numbers.assign(numbers.begin(), numbers.end());
    bool is_going = false;
    for (const Words &words : lines) {
        if (words[0] == "end") return;
        if (is_going) {
            make_line(words);
        } else if (words[0] == "go") {
            is_going = true;
            machine.start();
        } else {
            read_header_line(machine.setup, words);
        }
    }
    fail("the trace has no end");
}

static std::string text_of(const Program &program) {
    std::string text;
    for (const Operation &operation : program) text += std::string(" ") + name_of(operation.verb) + " " + std::to_string(operation.lock);
    return text + "\n";
}

static std::string header_text(const Setup &setup) {
    std::string text = std::string("mode ") + name_of(setup.mode) + "\ncpus " + std::to_string(setup.cpus) + "\n";
    if (setup.mode == Mode::cna) text += "threshold " + std::to_string(setup.threshold) + "\n";
    if (setup.mode == Mode::pv) text += "spins " + std::to_string(setup.spins) + "\n";
    for (int lock = 0; lock < setup.locks(); lock++) text += "lock " + std::to_string(lock) + (setup.is_rw[lock] ? " rw\n" : " spin\n");
    for (int p = 0; p < setup.processors; p++)
        if (!setup.programs[p].empty()) text += "prog " + std::to_string(setup.numbers[p]) + text_of(setup.programs[p]);
    for (int p = 0; p < setup.processors; p++)
        for (const Program &handler : setup.handlers[p]) text += "irq " + std::to_string(setup.numbers[p]) + text_of(handler);
    return text + "go\n";
}

static std::string schedule_text(const Setup &setup, const Schedule &schedule) {
    std::string text;
    for (size_t i = 0; i < schedule.size();) {
        size_t run = 1;
        bool is_step = std::string(schedule[i].word) == "step";
        while (is_step && i + run < schedule.size() && schedule[i + run] == schedule[i]) run++;
        text += std::string(schedule[i].word) + " " + std::to_string(setup.numbers[schedule[i].processor]);
        text += is_step ? " " + std::to_string(run) + "\n" : "\n";
        i += run;
    }
    return text + "end\n";
}

std::string trace_text(const Setup &setup, const Schedule &schedule, const std::string &comment) {
    return "qtrace " + std::to_string(setup.format) + "\n# " + comment + "\n" + header_text(setup) + schedule_text(setup, schedule);
}
