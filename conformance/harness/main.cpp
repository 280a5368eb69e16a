// The lock code of Linux on virtual processors.
//   harness TABLE drive < TRACE                       writes the transcript of the trace
//   harness TABLE random FAMILY SEED RUNS FOLDER      random runs: FOLDER/N.trace, FOLDER/N.linux and FOLDER/index
//     --leave                                         an interrupt may also come before the count of the nodes falls
//     --wide                                          traces of format 2, with processors of high numbers
//     --change KIND FUNCTION OPERATION ROW [BITS]          (one word) one change of what the kernel's code does
// The index has a line for each run: its number, how it ended, and the causes of differences that it met.
#include <cstdio>
#include <fstream>
#include <iostream>
#include "changes.h"
#include "fault.h"
#include "scheduler.h"
#include "traces.h"

struct Arguments {
    std::vector<std::string> words;
    bool is_wide = false;
};

static int usage() {
    fprintf(stderr, "usage: harness TABLE drive | harness TABLE random FAMILY SEED RUNS FOLDER [--leave] [--wide] [--change CHANGE]\n");
    return 2;
}

static std::string causes_text() {
    std::string text;
    if (!machine.late_pending.empty() || machine.causes.split) text += " split";
    if (machine.causes.stride) text += " stride";
    if (machine.causes.late) text += " leave";
    if (machine.causes.event) text += " event";
    return text;
}

// One run. On x86 it is made again where a tail came in between the halves of setting pending, with P1 at the second half.
static Schedule random_run(const Family &family, bool is_wide, uint64_t seed, Ending &ending) {
    machine.late_pending.clear();
    for (int tries = 0;; tries++) {
        Random random(seed);
        Kind kind;
        machine.setup = random_setup(random, family, is_wide, kind);
        Schedule schedule = random_schedule(random, kind, ending);
        if (machine.split_pending.empty() || tries == 8) return schedule;
        machine.late_pending.insert(machine.split_pending.begin(), machine.split_pending.end());
    }
}

static void random_runs(const Family &family, bool is_wide, uint64_t seed, int runs, const std::string &folder) {
    std::ofstream index(folder + "/index");
    uint64_t acts = 0;
    for (int run = 0; run < runs; run++) {
        Ending ending;
        Schedule schedule = random_run(family, is_wide, seed * 1000003 + run, ending);
        std::string number = std::to_string(run), about = name_of(ending) + causes_text();
        std::ofstream(folder + "/" + number + ".trace")
            << trace_text(machine.setup, schedule, std::string(family.name) + " seed " + std::to_string(seed) + " run " + number + ": " + about);
        std::ofstream(folder + "/" + number + ".linux") << machine.transcript << machine.closing();
        index << number << " " << about << "\n";
        acts += machine.acts;
    }
    printf("operations %llu acts %llu\n", (unsigned long long)machine.operations, (unsigned long long)acts);
}

static bool read_arguments(int count, char **values, Arguments &arguments) {
    if (count < 3) return false;
    table.read(values[1]);
    for (int i = 2; i < count; i++) {
        std::string word = values[i];
        if (word == "--leave") machine.stops_before_leave = true;
        else if (word == "--wide") arguments.is_wide = true;
        else if (word == "--change" && i + 1 < count) change.read(values[++i]);
        else arguments.words.push_back(word);
    }
    return true;
}

int main(int count, char **values) {
    Arguments arguments;
    if (!read_arguments(count, values, arguments)) return usage();
    const auto &words = arguments.words;
    if (words.size() == 1 && words[0] == "drive") {
        drive(std::cin);
        std::cout << machine.transcript << machine.closing();
        if (machine.causes.split) std::cerr << "a tail came in between the halves of setting pending\n";
        return 0;
    }
    if (words.size() != 5 || words[0] != "random") return usage();
    random_runs(family_named(words[1]), arguments.is_wide, std::stoull(words[2]), std::stoi(words[3]), words[4]);
    return 0;
}
