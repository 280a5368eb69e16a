// The optimistic spin queue of Linux on virtual processors; `main.cpp` above has the spinlocks.
//   harness-osq TABLE drive < RUN                     writes the transcript of the run
//   harness-osq TABLE random osq SEED RUNS FOLDER     random runs: FOLDER/N.trace, FOLDER/N.linux and FOLDER/index
//     --change KIND FUNCTION OPERATION ROW [BITS]     (one word) one change of what the kernel's code does
// Beside the program stands a file PROGRAM.places with the places of plain accesses.
#include <cstdio>
#include <fstream>
#include <iostream>
#include "../changes.h"
#include "queue.h"
#include "runs.h"

static void random_runs(uint64_t seed, int runs, const std::string &folder) {
    std::ofstream index(folder + "/index");
    uint64_t acts = 0;
    for (int run = 0; run < runs; run++) {
        Random random(seed * 1000003 + run);
        Schedule schedule = random_run(random);
        std::string number = std::to_string(run), ending = queue.is_finished() ? "finished" : "cut";
        std::ofstream(folder + "/" + number + ".trace")
            << run_text(schedule, "osq seed " + std::to_string(seed) + " run " + number + ": " + ending);
        std::ofstream(folder + "/" + number + ".linux") << queue.transcript << queue.closing();
        index << number << " " << ending << "\n";
        acts += queue.acts;
    }
    printf("operations %llu acts %llu\n", (unsigned long long)queue.operations, (unsigned long long)acts);
}

int main(int count, char **values) {
    std::vector<std::string> words(values, values + count);
    if (count < 3) {
        fprintf(stderr, "usage: harness-osq TABLE drive | harness-osq TABLE random osq SEED RUNS FOLDER [--change CHANGE]\n");
        return 2;
    }
    table.read(words[1]);
    read_plain_places(words[0] + ".places");
    if (count == 9 && words[7] == "--change") change.read(words[8]);
    if (words[2] == "drive") {
        drive(std::cin);
        std::cout << queue.transcript << queue.closing();
        return 0;
    }
    random_runs(std::stoull(words.at(4)), std::stoi(words.at(5)), words.at(6));
    return 0;
}
