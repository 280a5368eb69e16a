// Virtual processors by turns: each is a coroutine, and stands before its next operation.
#include "../fault.h"
#include "queue.h"

extern "C" {
bool osq_lock(void *);
void osq_unlock(void *);
extern uint32_t osq_tail;
}

constexpr int stack_size = 96 * 1024;
// So many operations in a row without an act are an endless loop.
constexpr int most_without_act = 100000;

Queue queue;
static ucontext_t scheduler;

void give_way(const shim_place *at) {
    Processor &processor = *queue.current;
    processor.at = at;
    swapcontext(&processor.registers, &scheduler);
}

static void run(Processor &processor) {
    queue.has_acted = false;
    queue.current = &processor;
    swapcontext(&scheduler, &processor.registers);
    queue.current = nullptr;
}

// Linux's answer is what the acts have told: it holds the lock, or has left the queue and goes on to its next round.
static void make_round(Processor &processor) {
    int rounds = processor.rounds_left;
    bool has_taken = osq_lock(&osq_tail);
    bool has_quit = processor.rounds_left < rounds;
    if (has_taken != (queue.holder == processor.number) || has_taken == has_quit)
        fail("Linux: the answer of the lock is not what its operations did");
    if (!has_taken) return;
    osq_unlock(&osq_tail);
    if (processor.rounds_left == rounds) fail("Linux: the release returned, and nothing was released");
}

static void run_rounds(int number) {
    Processor &processor = queue.of[number];
    while (processor.rounds_left > 0) make_round(processor);
    processor.is_finished = true;
    for (;;) give_way(nullptr);
}

static void spawn(int number) {
    Processor &processor = queue.of[number];
    std::unique_ptr<char[]> stack = processor.stack ? std::move(processor.stack) : std::make_unique<char[]>(stack_size);
    processor = {};
    processor.number = number;
    processor.rounds_left = queue.rounds[number];
    processor.stack = std::move(stack);
    if (processor.rounds_left == 0) return;
    processor.is_finished = false;
    processor.phase = Phase::locking;
    getcontext(&processor.registers);
    processor.registers.uc_stack.ss_sp = processor.stack.get();
    processor.registers.uc_stack.ss_size = stack_size;
    processor.registers.uc_link = nullptr;
    makecontext(&processor.registers, (void (*)())run_rounds, 1, number);
    run(processor);
    if (queue.has_acted) fail("an act before the first turn");
}

void Queue::start() {
    clear_memory();
    acts = 0;
    holder = handed_to = nobody;
    transcript.clear();
    for (int p = 0; p < processors; p++) spawn(p);
}

bool Queue::is_finished() const {
    for (int p = 0; p < processors; p++)
        if (!of[p].is_finished) return false;
    return true;
}

void Queue::check_rest() const {
    if (!is_at_rest()) fail("Linux: the queue is not at rest");
}

bool turn(int number) {
    Processor &processor = queue.of[number];
    if (processor.is_finished) {
        queue.acts++;
        return true;
    }
    run(processor);
    return queue.has_acted;
}

void step(int number) {
    for (int turns = 0; !turn(number); turns++)
        if (turns > most_without_act) fail("Linux: an endless loop without an act");
}

bool is_give_idle(int number) {
    const Processor &processor = queue.of[number];
    return processor.phase != Phase::locking || processor.is_asked;
}

void give(int number) {
    queue.acts++;
    if (!is_give_idle(number)) queue.of[number].is_asked = true;
}

void show_state() {
    fprintf(stderr, "after %llu acts:\n", (unsigned long long)queue.acts);
    for (int p = 0; p < queue.processors; p++)
        fprintf(stderr, "  %d rounds left %d, at %s:%d, last row %s\n", p, queue.of[p].rounds_left,
                queue.of[p].at ? queue.of[p].at->function : "the end", queue.of[p].at ? queue.of[p].at->line : 0, name_of(queue.of[p].last));
}
