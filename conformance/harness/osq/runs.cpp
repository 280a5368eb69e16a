#include "runs.h"
#include <algorithm>
#include <istream>
#include "../fault.h"
#include "queue.h"

using Words = std::vector<std::string>;

// ---- runs that are read ----
static void read_header_line(const Words &words) {
    if (words[0] == "cpus") queue.processors = std::stoi(words.at(1));
    else if (words[0] == "prog") queue.rounds[std::stoi(words.at(1))] = std::stoi(words.at(2));
    else if (words[0] != "qosq") fail("no header line %s", words[0].c_str());
}

static void make_line(const Words &words) {
    int processor = std::stoi(words.at(1));
    if (words[0] == "give") return give(processor);
    if (words[0] != "step") fail("no schedule line %s", words[0].c_str());
    for (long times = std::stol(words.at(2)); times > 0; times--) step(processor);
}

void drive(std::istream &input) {
    queue.processors = 1;
    std::fill(queue.rounds, queue.rounds + most_processors, 0);
    bool is_going = false;
    std::string line;
    while (std::getline(input, line)) {
        Words words = words_of(line);
        if (words.empty() || words[0][0] == '#') continue;
        if (words[0] == "end") return;
        if (is_going) {
            make_line(words);
        } else if (words[0] == "go") {
            is_going = true;
            queue.start();
        } else {
            read_header_line(words);
        }
    }
    fail("the run has no end");
}

// ---- random runs ----
namespace {
constexpr uint64_t longest_run = 3000; // acts

enum class Strategy { even, sticky, weighted, freezing };

// Chances of a run.
struct Habits {
    uint64_t most_acts;
    Strategy strategy;
    double stickiness, gives, idle;
};

void draw_rounds(Random &random) {
    queue.processors = random.with_chance(0.05) ? 1 : random.with_chance(0.5) ? random.between(2, 4) : random.between(4, 10);
    int most = random.with_chance(0.7) ? 3 : 10;
    std::fill(queue.rounds, queue.rounds + most_processors, 0);
    for (int p = 0; p < queue.processors; p++) queue.rounds[p] = random.with_chance(0.05) ? 0 : random.between(1, most);
}

Habits draw_habits(Random &random) {
    static const double gives[] = {0, 0.01, 0.05, 0.2};
    Habits habits;
    habits.most_acts = random.with_chance(0.1) ? random.between(5, 100) : longest_run;
    habits.strategy = (Strategy)random.below(4);
    habits.stickiness = 0.5 + random.below(45) / 100.0;
    habits.gives = gives[random.below(4)];
    habits.idle = random.with_chance(0.1) ? 0.02 : 0;
    return habits;
}

class Scheduler {
    Random &random;
    Habits habits;
    Schedule schedule;
    std::vector<int> weights = std::vector<int>(queue.processors, 1);
    int last = 0, frozen = nobody, turns = 0;

    int any_processor() { return random.below(queue.processors); }
    int one_of(const std::vector<int> &choice) { return choice[random.below((int)choice.size())]; }

    bool gives() {
        if (habits.gives == 0 || !random.with_chance(habits.gives)) return false;
        int p = any_processor();
        if (is_give_idle(p) && !random.with_chance(0.1)) return false;
        give(p);
        schedule.push_back({true, p});
        return true;
    }

    std::vector<int> able() {
        bool takes_idle = habits.idle > 0 && random.with_chance(habits.idle);
        std::vector<int> found;
        for (int p = 0; p < queue.processors; p++)
            if (takes_idle || !queue.of[p].is_finished) found.push_back(p);
        return found;
    }

    int by_weight(const std::vector<int> &choice) {
        static const int steps[] = {1, 4, 16, 40};
        if (turns % 40 == 0)
            for (int &weight : weights) weight = steps[random.below(4)];
        int sum = 0;
        for (int p : choice) sum += weights[p];
        int left = random.below(sum);
        for (int p : choice)
            if ((left -= weights[p]) < 0) return p;
        fail("weights");
    }

    int not_frozen(const std::vector<int> &choice, int p) {
        if (random.with_chance(0.03)) frozen = random.with_chance(0.5) ? any_processor() : nobody;
        for (int tries = 0; tries < 4 && p == frozen; tries++) p = one_of(choice);
        return p;
    }

    int chosen(const std::vector<int> &choice) {
        int p = one_of(choice);
        bool can_last = std::count(choice.begin(), choice.end(), last) > 0;
        switch (habits.strategy) {
        case Strategy::even: return p;
        case Strategy::sticky: return random.with_chance(habits.stickiness) && can_last ? last : p;
        case Strategy::weighted: return by_weight(choice);
        case Strategy::freezing: return not_frozen(choice, p);
        }
        return p;
    }

public:
    explicit Scheduler(Random &random) : random(random), habits(draw_habits(random)) {}

    Schedule run() {
        for (; queue.acts < habits.most_acts && !queue.is_finished(); turns++) {
            if (gives()) continue;
            last = chosen(able());
            if (turn(last)) schedule.push_back({false, last});
        }
        return schedule;
    }
};
} // namespace

Schedule random_run(Random &random) {
    draw_rounds(random);
    queue.start();
    Schedule schedule = Scheduler(random).run();
    if (queue.is_finished()) queue.check_rest();
    return schedule;
}

// ---- runs that are written ----
static std::string schedule_text(const Schedule &schedule) {
    std::string text;
    for (size_t i = 0; i < schedule.size();) {
        size_t run = 1;
        bool gives = schedule[i].gives;
        while (!gives && i + run < schedule.size() && schedule[i + run] == schedule[i]) run++;
        text += (gives ? "give " : "step ") + std::to_string(schedule[i].processor);
        text += gives ? "\n" : " " + std::to_string(run) + "\n";
        i += run;
    }
    return text + "end\n";
}

std::string run_text(const Schedule &schedule, const std::string &comment) {
    std::string text = "qosq 1\n# " + comment + "\ncpus " + std::to_string(queue.processors) + "\n";
    for (int p = 0; p < queue.processors; p++)
        if (queue.rounds[p] > 0) text += "prog " + std::to_string(p) + " " + std::to_string(queue.rounds[p]) + "\n";
    return text + "go\n" + schedule_text(schedule);
}
