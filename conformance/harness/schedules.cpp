#include "schedules.h"
#include <algorithm>
#include "fault.h"
#include "scheduler.h"

const char *name_of(Ending ending) { return ending == Ending::finished ? "finished" : ending == Ending::stuck ? "stuck" : "cut"; }

namespace {
constexpr int longest_run = 4000; // acts

enum class Strategy { even, sticky, weighted, freezing };

// Chances of a run.
struct Habits {
    uint64_t most_acts;
    Strategy strategy;
    double stickiness, interrupts, preemptions, nudges, idle;
};

double chance_of_interrupt(Kind kind) {
    switch (kind) {
    case Kind::plain: return 0;
    case Kind::interrupts: return 0.02;
    case Kind::deep_interrupts: return 0.12;
    case Kind::tower: return 0.01;
    }
    return 0;
}

Habits random_habits(Random &random, Kind kind) {
    Habits habits;
    habits.most_acts = random.with_chance(0.08) ? random.between(10, 120) : longest_run;
    habits.strategy = (Strategy)random.below(4);
    habits.stickiness = 0.5 + random.below(45) / 100.0;
    habits.interrupts = chance_of_interrupt(kind);
    habits.preemptions = random.with_chance(0.25) ? 0.01 : 0;
    habits.nudges = machine.setup.mode == Mode::pv && random.with_chance(0.4) ? 0.02 : 0;
    habits.idle = random.with_chance(0.1) ? 0.01 : 0;
    return habits;
}

class Scheduler {
    Random &random;
    Kind kind;
    Habits habits;
    Schedule schedule;
    std::vector<int> weights = std::vector<int>(machine.setup.processors, 1);
    int last = 0, frozen = -1;
    int turns = 0;

    int any_processor() { return random.below(machine.setup.processors); }
    int one_of(const std::vector<int> &choice) { return choice[random.below((int)choice.size())]; }
    bool happens(double chance) { return chance > 0 && random.with_chance(chance); }

    void make(const char *word, int processor, void (*line)(int)) {
        schedule.push_back({word, processor});
        line(processor);
    }

    // ---- what is not a step ----
    bool interrupts() {
        if (!happens(habits.interrupts)) return false;
        int p = any_processor();
        if (is_interrupt_idle(p) && !random.with_chance(0.02)) return false;
        make("int", p, interrupt);
        return true;
    }

    // Where the count of the nodes is about to fall.
    bool interrupts_leave() {
        for (int p = 0; p < machine.setup.processors; p++) {
            if (!is_before_leave(machine.processors[p].top()) || is_interrupt_idle(p) || !random.with_chance(0.2)) continue;
            make("int", p, interrupt);
            return true;
        }
        return false;
    }

    bool preempts() {
        if (!happens(habits.preemptions)) return false;
        int p = any_processor();
        if (machine.processors[p].is_preempted) return false;
        make("pre", p, preempt);
        return true;
    }

    bool nudges() {
        if (!happens(habits.nudges)) return false;
        int p = any_processor();
        bool ends_halt = machine.processors[p].is_halted && !machine.processors[p].is_preempted;
        if (!ends_halt && !random.with_chance(0.02)) return false;
        make("nudge", p, nudge);
        return true;
    }

    void let_go_on() {
        for (int p = 0; p < machine.setup.processors; p++)
            if (machine.processors[p].is_preempted && random.with_chance(0.03)) make("res", p, go_on);
    }

    // Acts that do nothing.
    bool idles() {
        if (!happens(habits.idle)) return false;
        int p = any_processor(), which = random.below(3);
        if (which == 0 && is_step_idle(p)) make("step", p, step);
        else if (which == 1) make("res", p, go_on);
        else if (is_interrupt_idle(p)) make("int", p, interrupt);
        return true;
    }

    bool makes_other_line() { return interrupts() || interrupts_leave() || preempts() || nudges(); }

    // ---- steps ----
    std::vector<int> able() const {
        std::vector<int> found;
        for (int p = 0; p < machine.setup.processors; p++)
            if (!is_step_idle(p)) found.push_back(p);
        return found;
    }

    int by_weight(const std::vector<int> &choice) {
        static const int steps[] = {1, 4, 16, 40};
        if (turns % 60 == 0)
            for (int &weight : weights) weight = steps[random.below(4)];
        int sum = 0;
        for (int p : choice) sum += weights[p];
        int left = random.below(sum);
        for (int p : choice)
            if ((left -= weights[p]) < 0) return p;
        fail("weights");
    }

    int not_frozen(const std::vector<int> &choice, int p) {
        if (random.with_chance(0.03)) frozen = random.with_chance(0.5) ? any_processor() : -1;
        for (int tries = 0; tries < 4 && p == frozen; tries++) p = one_of(choice);
        return p;
    }

    int chosen(const std::vector<int> &choice) {
        int p = one_of(choice);
        bool can_last = std::count(choice.begin(), choice.end(), last) > 0;
        switch (habits.strategy) {
        case Strategy::even: return p;
        case Strategy::sticky: return random.with_chance(habits.stickiness) && can_last ? last : p;
        case Strategy::weighted: return by_weight(choice);
        case Strategy::freezing: return not_frozen(choice, p);
        }
        return p;
    }

    // ---- towers: the holder takes all locks first, then stands still while the others pile up ----
    int without_node(const std::vector<int> &choice, int p) { // who has no node looks often, and swaps late
        for (int q : choice) {
            const Context &context = machine.processors[q].top();
            bool waits = !context.is_finished && !machine.processors[q].is_halted && context.phase == Phase::without_node;
            if (!waits) continue;
            bool looks = context.at->operation == shim_load_operation;
            if (looks && random.with_chance(0.3)) p = q;
            if (!looks && random.with_chance(0.9))
                for (int tries = 0; tries < 4 && p == q; tries++) p = one_of(choice);
        }
        return p;
    }

    bool piles_up() {
        int locks = machine.setup.locks(), q = machine.setup.processors - 1 - random.below(machine.setup.processors - 1 - locks);
        const Context &context = machine.processors[q].top();
        bool waits = !context.is_finished && !context.has_taken &&
                     (context.phase == Phase::queued || context.phase == Phase::without_node);
        if (turns <= 10 * locks || !waits || !random.with_chance(0.2) || is_interrupt_idle(q)) return false;
        make("int", q, interrupt);
        return true;
    }

    int chosen_for_tower(const std::vector<int> &choice) {
        int locks = machine.setup.locks(), p = chosen(choice);
        bool is_taking = turns <= locks;
        if (is_taking && !is_step_idle(0)) p = 0;
        p = without_node(choice, p);
        bool stands_still = !is_taking && turns < 120 + 60 * locks;
        for (int tries = 0; tries < 6 && stands_still && p == 0; tries++) p = one_of(choice);
        return p;
    }

    void make_step(const std::vector<int> &choice) {
        int locks = machine.setup.locks();
        bool is_tower = kind == Kind::tower;
        bool is_piling = is_tower && turns > locks && turns < 120 + 60 * locks;
        if (is_piling && piles_up()) return;
        last = is_tower ? chosen_for_tower(choice) : chosen(choice);
        if (turn(last)) schedule.push_back({"step", last});
    }

    // ---- where nobody can step ----
    bool lets_one_go_on() {
        for (int p = 0; p < machine.setup.processors; p++) {
            if (!machine.processors[p].is_preempted) continue;
            make("res", p, go_on);
            return true;
        }
        return false;
    }

    static bool is_owed_kick(int processor) {
        for (int p = 0; p < machine.setup.processors; p++)
            for (const Context *context : machine.processors[p].stack)
                if (!context->is_finished && context->at->operation == shim_kick_operation && context->target == processor) return true;
        return false;
    }

    // Of a lock that nobody holds, the front that sleeps is owed a kick; else Linux has lost it.
    static void check_sleepers() {
        for (int p = 0; p < machine.setup.processors; p++) {
            const Context &context = machine.processors[p].top();
            bool is_free = machine.holders[context.lock].of_spinlock[context.is_wait_lock] == nobody;
            if (!machine.processors[p].is_halted || !is_free || is_owed_kick(p)) continue;
            if (context.last == Row::E12 || flag_of_node(p, context.node)) fail("Linux: nobody will wake %d.%d", p, context.depth);
        }
    }

    bool is_silent() const { return machine.acts > machine.last_event + 300 + 120 * (uint64_t)machine.setup.processors; }

public:
    Scheduler(Random &random, Kind kind) : random(random), kind(kind), habits(random_habits(random, kind)) {}

    Schedule run(Ending &ending) {
        ending = Ending::cut;
        for (; machine.acts < habits.most_acts && !machine.is_at_rest(); turns++) {
            if (is_silent()) ending = Ending::stuck;
            if (ending == Ending::stuck) break;
            if (makes_other_line()) continue;
            let_go_on();
            if (idles()) continue;
            std::vector<int> choice = able();
            if (!choice.empty()) {
                make_step(choice);
            } else if (!lets_one_go_on()) {
                check_sleepers();
                ending = Ending::stuck;
            }
        }
        if (machine.is_at_rest()) ending = Ending::finished;
        return schedule;
    }
};
} // namespace

Schedule random_schedule(Random &random, Kind kind, Ending &ending) {
    machine.start();
    Schedule schedule = Scheduler(random, kind).run(ending);
    if (ending == Ending::finished) machine.check_rest();
    return schedule;
}
