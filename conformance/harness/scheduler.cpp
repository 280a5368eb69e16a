#include "scheduler.h"
#include "fault.h"

extern "C" {
void enter_lock(uint32_t *);
int enter_try(uint32_t *);
void enter_unlock(uint32_t *);
void enter_read(uint32_t *);
int enter_tryread(uint32_t *);
void enter_runlock(uint32_t *);
void enter_write(uint32_t *);
int enter_trywrite(uint32_t *);
void enter_wunlock(uint32_t *);
}

constexpr int most_contexts = 6, stack_size = 96 * 1024;
// So many operations in a row without an act are an endless loop.
constexpr int most_without_act = 100000;

static ucontext_t scheduler;
static std::unique_ptr<Context> pool[most_processors][most_contexts];

void give_way(const shim_place *at) {
    Context &context = *machine.current;
    context.at = at;
    swapcontext(&context.registers, &scheduler);
}

static void run(Context &context) {
    machine.has_acted = false;
    machine.current = &context;
    swapcontext(&scheduler, &context.registers);
    machine.current = nullptr;
}

// ---- what a coroutine does ----

// A try that fails goes on behind its release. Linux's answer is what the acts have told.
static void answer_try(Context &context, bool answer) {
    if (answer == context.has_missed) fail("Linux: the answer of a try is not what its operations did");
    if (!answer) context.position = release_behind(*context.program, context.position);
}

static void make_operation(Context &context) {
    const Operation &operation = (*context.program)[context.position];
    uint32_t *lock = lock_at(operation.lock);
    context.phase = operation.verb == Verb::try_lock ? Phase::trying : Phase::outside;
    context.has_taken = context.has_taken_rw = context.has_missed = false;
    switch (operation.verb) {
    case Verb::lock: enter_lock(lock); break;
    case Verb::try_lock: answer_try(context, enter_try(lock)); return;
    case Verb::unlock: enter_unlock(lock); return;
    case Verb::read: enter_read(lock); break;
    case Verb::try_read: answer_try(context, enter_tryread(lock)); return;
    case Verb::read_unlock: enter_runlock(lock); return;
    case Verb::write: enter_write(lock); break;
    case Verb::try_write: answer_try(context, enter_trywrite(lock)); return;
    case Verb::write_unlock: enter_wunlock(lock); return;
    }
    bool has_taken = operation.verb == Verb::lock ? context.has_taken : context.has_taken_rw;
    if (!has_taken) fail("Linux: a call that locks returned, and nothing was taken");
}

static void run_program(int processor, int depth) {
    Context &context = *pool[processor][depth];
    for (; context.position < context.program->size(); context.position++) make_operation(context);
    if (!context.kept_counts.empty()) fail("a count was made for an act that did not come");
    context.is_finished = true;
    for (;;) give_way(nullptr);
}

void spawn(int processor, const Program &program) {
    int depth = (int)machine.processors[processor].stack.size();
    auto &slot = pool[processor][depth];
    std::unique_ptr<char[]> stack = slot ? std::move(slot->stack) : std::make_unique<char[]>(stack_size);
    slot = std::make_unique<Context>();
    slot->processor = processor;
    slot->depth = depth;
    slot->program = &program;
    slot->stack = std::move(stack);
    getcontext(&slot->registers);
    slot->registers.uc_stack.ss_sp = slot->stack.get();
    slot->registers.uc_stack.ss_size = stack_size;
    slot->registers.uc_link = nullptr;
    makecontext(&slot->registers, (void (*)())run_program, 2, processor, depth);
    machine.processors[processor].stack.push_back(slot.get());
    run(*slot);
    if (machine.has_acted) fail("an act before the first turn");
}

// ---- turns ----

bool is_step_idle(int processor) {
    const Processor &p = machine.processors[processor];
    return p.is_preempted || (p.is_halted && !p.is_kicked) || p.is_finished();
}

bool is_interrupt_idle(int processor) {
    const Processor &p = machine.processors[processor];
    const Context &top = p.top();
    bool is_about_to_halt = !top.is_finished && top.at->operation == shim_halt_operation && !p.is_halted;
    return p.is_preempted || p.stack.size() >= most_contexts || p.next_handler >= machine.setup.handlers[processor].size() ||
           is_about_to_halt;
}

bool is_before_leave(const Context &context) {
    bool is_own_place = context.at == &context.own_place;
    return context.at && !is_own_place && context.at->operation == shim_none_operation;
}

// Leaves the place behind the halt, which is no act.
static void end_halt(int processor) {
    Processor &p = machine.processors[processor];
    p.is_halted = false;
    if (p.top().at->operation != shim_wake_operation) fail("a halt ends that is none");
    run(p.top());
    if (machine.has_acted) fail("the end of a halt was an act");
}

bool turn(int processor) {
    Processor &p = machine.processors[processor];
    if (is_step_idle(processor)) {
        machine.acts++;
        return true;
    }
    if (p.is_halted) {
        machine.acts++;
        p.is_kicked = false;
        tell(p.top(), "wake " + p.top().lock_name());
        end_halt(processor);
        return true;
    }
    run(p.top());
    bool has_acted = machine.has_acted;
    while (p.stack.size() > 1 && p.top().is_finished) p.stack.pop_back();
    return has_acted;
}

void step(int processor) {
    for (int turns = 0; !turn(processor); turns++)
        if (turns > most_without_act) fail("Linux: an endless loop without an act");
}

void interrupt(int processor) {
    Processor &p = machine.processors[processor];
    machine.acts++;
    if (is_interrupt_idle(processor)) return;
    if (is_before_leave(p.top())) machine.causes.late = true;
    if (p.is_halted) end_halt(processor);
    spawn(processor, machine.setup.handlers[processor][p.next_handler++]);
    tell(p.top(), "int");
}

void preempt(int processor) {
    machine.acts++;
    machine.processors[processor].is_preempted = true;
}

void go_on(int processor) {
    machine.acts++;
    machine.processors[processor].is_preempted = false;
}

void nudge(int processor) {
    Processor &p = machine.processors[processor];
    machine.acts++;
    if (p.is_preempted || !p.is_halted) return;
    tell(p.top(), "nudge");
    end_halt(processor);
}
