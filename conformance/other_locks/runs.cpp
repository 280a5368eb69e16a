// harness SEED RUNS FOLDER AUDITED: random runs of the lock; the history of each of the first AUDITED runs, and of each that stalls, goes
// to FOLDER/RUN.history. Prints a line for each stall, and the figures.
// harness tell SEED RUN: the schedule of one run, an operation or event a line.
#include "machine.h"
#include <cstdio>
#include <cstdlib>
#include <cstring>

// So many turns in a row without an event are a stall. Nothing in these programs takes longer than some hundred.
constexpr int most_quiet = 50000;
constexpr int chance_of_preemption = 40, chance_of_interrupt = 12;

struct Setup {
    int processors, locks;
    std::vector<Program> tasks;
    std::vector<std::vector<Program>> handlers; // of each processor
};

struct Totals {
    uint64_t operations = 0, interrupts = 0, stalls = 0;
};

// Tasks on processors with handlers use the lower locks, and handlers the upper ones: so no handler waits for its own task.
static Setup random_setup(Random &random) {
    Setup setup{random.between(2, most_processors), random.between(2, most_locks), {}, {}};
    bool has_handlers = random.below(2);
    int lower = has_handlers ? setup.locks / 2 : setup.locks;
    for (int processor = 0; processor < setup.processors; processor++) {
        bool is_interrupted = has_handlers && random.below(3);
        Program task;
        for (int left = random.between(4, 13); left > 0; left--) task.push_back({random.below(is_interrupted ? lower : setup.locks), random.below(6) == 0});
        setup.tasks.push_back(task);
        std::vector<Program> handlers(is_interrupted ? random.between(1, 5) : 0);
        for (Program &handler : handlers)
            for (int left = random.between(1, 2); left > 0; left--) handler.push_back({lower + random.below(setup.locks - lower), false});
        setup.handlers.push_back(handlers);
    }
    return setup;
}

static void start(const Setup &setup, bool tells_schedule) {
    reset_memory();
    machine.processors = setup.processors;
    machine.locks = setup.locks;
    machine.history.clear();
    machine.schedule.clear();
    machine.tells_schedule = tells_schedule;
    machine.operations = machine.events = machine.last_event = 0;
    memset(machine.depth, 0, sizeof machine.depth);
    memset(machine.is_preempted, 0, sizeof machine.is_preempted);
    reset_architecture();
    for (int processor = 0; processor < setup.processors; processor++) spawn(processor, setup.tasks[processor]);
}

static std::vector<int> unfinished() {
    std::vector<int> found;
    for (int processor = 0; processor < machine.processors; processor++)
        if (!machine.top(processor).is_finished) found.push_back(processor);
    return found;
}

static void note(const std::string &what) {
    if (machine.tells_schedule) machine.schedule += what + "\n";
}

// Goes on until all have finished, or nothing happens any more; whether it stalled.
static bool go_on(const Setup &setup, Random &random, Totals &totals) {
    std::vector<size_t> handled(setup.processors);
    uint64_t seen = 0;
    for (int quiet = 0, last = 0; quiet < most_quiet; quiet++) {
        std::vector<int> can = unfinished();
        if (can.empty()) return false;
        if (machine.events != seen) quiet = 0;
        seen = machine.events;
        int processor = random.below(3) && !machine.top(last).is_finished ? last : can[random.below((int)can.size())];
        if (random.below(chance_of_preemption) == 0) {
            int other = random.below(setup.processors);
            machine.is_preempted[other] ^= true;
            note("processor " + std::to_string(other) + (machine.is_preempted[other] ? " is preempted" : " goes on"));
        }
        last = processor;
        if (machine.is_preempted[processor] && random.below(8)) continue;
        bool may_interrupt = machine.depth[processor] < contexts_each && handled[processor] < setup.handlers[processor].size();
        if (may_interrupt && random.below(chance_of_interrupt) == 0) {
            totals.interrupts++;
            note("processor " + std::to_string(processor) + " is interrupted");
            spawn(processor, setup.handlers[processor][handled[processor]++]);
        } else {
            turn(processor);
        }
    }
    return true;
}

static std::string history() {
    static const char *const counts[] = {"lock_pending", "lock_slowpath", "lock_use_node2", "lock_use_node3", "lock_use_node4",
                                         "lock_no_node", "pv_lock_stealing", "pv_wait_node", "pv_wait_head", "pv_kick_unlock"};
    std::string text = "qtrace 1\nmode native\ncpus " + std::to_string(machine.processors) + "\n";
    for (int lock = 0; lock < machine.locks; lock++) text += "lock " + std::to_string(lock) + " spin\n";
    text += "go\n" + machine.history + "end " + std::to_string(machine.events) + "\n";
    for (const char *count : counts) text += std::string(count) + " 0\n";
    return text;
}

static void write(const std::string &folder, int run) {
    std::string path = folder + "/" + std::to_string(run) + ".history", text = history();
    FILE *out = fopen(path.c_str(), "w");
    if (!out || fputs(text.c_str(), out) < 0 || fclose(out)) fail("a history could not be written");
}

static void check_rest() {
    for (int lock = 0; lock < machine.locks; lock++)
        if (words[lock].value) fail("at the end a lock is not at rest");
}

// Who has not finished, and before which operation it stands.
static std::string standing() {
    std::string text;
    for (int processor = 0; processor < machine.processors; processor++)
        for (int depth = 0; depth < machine.depth[processor]; depth++) {
            const Context &context = machine.contexts[processor][depth];
            if (!context.is_finished) text += "; " + std::to_string(processor) + "." + std::to_string(depth) + " lock " + std::to_string(context.lock) + " before " + context.at;
        }
    return text;
}

static bool run(uint64_t seed, int number, Totals &totals, bool tells_schedule) {
    Random random(seed * 1000003 + number);
    Setup setup = random_setup(random);
    start(setup, tells_schedule);
    bool is_stalled = go_on(setup, random, totals);
    if (!is_stalled) check_rest();
    totals.operations += is_stalled ? machine.last_event : machine.operations;
    totals.stalls += is_stalled;
    return is_stalled;
}

static int tell_run(uint64_t seed, int number) {
    Totals totals;
    bool is_stalled = run(seed, number, totals, true);
    printf("%s%s%s\n", machine.schedule.c_str(), is_stalled ? "it stalls" : "all have finished", standing().c_str());
    return 0;
}

int main(int count, char **arguments) {
    if (count == 4 && !strcmp(arguments[1], "tell")) return tell_run(strtoull(arguments[2], nullptr, 10), atoi(arguments[3]));
    if (count != 5) return 2;
    uint64_t seed = strtoull(arguments[1], nullptr, 10);
    int runs = atoi(arguments[2]), audited = atoi(arguments[4]);
    Totals totals;
    for (int number = 0; number < runs; number++) {
        bool is_stalled = run(seed, number, totals, false);
        if (is_stalled) printf("stall %d %llu%s\n", number, (unsigned long long)machine.last_event, standing().c_str());
        if (is_stalled || number < audited) write(arguments[3], number);
    }
    printf("runs %d operations %llu interrupts %llu stalls %llu wrong links %llu %s\n", runs, (unsigned long long)totals.operations, (unsigned long long)totals.interrupts,
           (unsigned long long)totals.stalls, (unsigned long long)machine.wrong_links, figures_of_architecture().c_str());
    return 0;
}
