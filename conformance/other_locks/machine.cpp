#include "machine.h"
#include <cstdio>
#include <cstdlib>
#include <cstring>

extern "C" {
void enter_lock(void *lock);
int enter_try(void *lock);
void enter_unlock(void *lock);
extern char __start_shim_cpu_area[], __stop_shim_cpu_area[];
extern const shim_nodes shim_nodes;
}

constexpr size_t stack_size = 64 * 1024;

Machine machine;
Word words[most_locks];
static ucontext_t scheduler;
static char *area;
static size_t area_size;

static std::string name_of(const Context &context) {
    return std::to_string(context.processor) + "." + std::to_string(context.depth);
}

void fail(const std::string &why) {
    fprintf(stderr, "other_locks: %s; operation %llu", why.c_str(), (unsigned long long)machine.operations);
    if (machine.current) fprintf(stderr, ", by %s", name_of(*machine.current).c_str());
    fprintf(stderr, "\n%s", machine.history.c_str());
    exit(9);
}

// ---- events and operations ----

void give_way(const std::string &what) {
    Context &context = *machine.current;
    context.at = what;
    swapcontext(&context.registers, &scheduler);
    machine.operations++;
    if (machine.tells_schedule) machine.schedule += name_of(context) + " lock " + std::to_string(context.lock) + ": " + what + "\n";
}

void tell(const std::string &what) {
    const Context &context = *machine.current;
    machine.history += std::to_string(++machine.events) + " " + name_of(context) + " " + what + "\n";
    machine.last_event = machine.operations;
    if (machine.tells_schedule) machine.schedule += name_of(context) + " " + what + "\n";
}

static Who self() {
    return {machine.current->processor, machine.current->depth};
}

void take(const char *manner) {
    Context &context = *machine.current;
    if (!(machine.holder[context.lock] == nobody)) fail("two holders");
    machine.holder[context.lock] = self();
    context.has_taken = true;
    tell("take " + std::to_string(context.lock) + " " + manner);
}

void release(void *word) {
    int lock = (int)((Word *)word - words);
    if (!(machine.holder[lock] == self())) fail("a release by another than the holder");
    machine.holder[lock] = nobody;
    tell("release " + std::to_string(lock));
}

Spot spot_of(const volatile void *place) {
    size_t at = (const char *)place - area;
    if (!area || (const char *)place < area || at >= area_size * most_processors) return {-1, -1, 0, ""};
    size_t in_nodes = at % area_size - ((const char *)shim_nodes.variable - __start_shim_cpu_area);
    int processor = (int)(at / area_size);
    if (in_nodes < shim_nodes.first || in_nodes >= shim_nodes.first + nodes_each * shim_nodes.size) return {processor, -1, in_nodes, "count"};
    int node = (int)((in_nodes - shim_nodes.first) / shim_nodes.size);
    size_t field = (in_nodes - shim_nodes.first) % shim_nodes.size;
    for (const shim_field &known : shim_nodes.fields)
        if (known.name && known.offset == field) return {processor, node, field, known.name};
    return {processor, node, field, "?"};
}

static std::string text_of(const Spot &spot) {
    std::string of = " of processor " + std::to_string(spot.processor);
    return spot.node < 0 ? spot.name + of : spot.name + " of node " + std::to_string(spot.node) + of;
}

static Context &user_of(const Spot &spot) {
    Who who = machine.node_of[spot.processor][spot.node];
    return machine.contexts[who.processor][who.depth];
}

void check_link(Spot spot, bool is_in_use) {
    if (is_in_use && user_of(spot).lock == machine.current->lock) return;
    machine.wrong_links++;
    if (machine.tells_schedule) machine.schedule += name_of(*machine.current) + " links to a node that is not its predecessor's\n";
}

void tell_handoff(Spot spot) {
    tell("pass " + std::to_string(machine.current->lock) + " " + name_of(user_of(spot)));
}

// ---- memory ----

bool is_lock(const volatile void *place) {
    return (const char *)place >= (const char *)words && (const char *)place < (const char *)(words + most_locks);
}

void reset_memory() {
    area_size = (__stop_shim_cpu_area - __start_shim_cpu_area + 63) / 64 * 64;
    if (!area) area = (char *)aligned_alloc(64, area_size * most_processors);
    memset(area, 0, area_size * most_processors);
    memset(words, 0, sizeof words);
    for (Who &holder : machine.holder) holder = nobody;
}

extern "C" {
int shim_cpu(void) { return machine.current ? machine.current->processor : 0; }
void *shim_of_cpu(const void *variable, int cpu) { return area + cpu * area_size + ((const char *)variable - __start_shim_cpu_area); }
bool shim_is_preempted(int cpu) { return machine.is_preempted[cpu]; }
void shim_yield(const char *function) { give_way(std::string(function) + " yields"); }
void shim_bug(const char *function, int line) { fail(std::string("Linux: BUG in ") + function + ":" + std::to_string(line)); }

u64 shim_load(const volatile void *place, int size, const char *function) {
    Spot spot = spot_of(place);
    give_way(std::string(function) + " loads " + (is_lock(place) ? "the lock" : text_of(spot)));
    u64 value = 0;
    memcpy(&value, (const void *)place, size);
    return value;
}

// The compiler's calls before each plain access.
static void plain(void *place, bool is_store) {
    Spot spot = spot_of(place);
    if (!machine.current || spot.processor < 0) return;
    give_way((is_store ? "plain store to " : "plain load of ") + text_of(spot));
    note_plain(spot, place, is_store);
}

void __tsan_init(void) {}
void __tsan_func_entry(void *) {}
void __tsan_func_exit(void) {}
#define PLAIN(size) \
    void __tsan_read##size(void *place) { plain(place, false); } \
    void __tsan_write##size(void *place) { plain(place, true); } \
    void __tsan_unaligned_read##size(void *place) { plain(place, false); } \
    void __tsan_unaligned_write##size(void *place) { plain(place, true); }
PLAIN(1) PLAIN(2) PLAIN(4) PLAIN(8) PLAIN(16)
}

// ---- turns ----

// How long the lock is held: some operations of its own.
static void hold(const Context &context) {
    for (int left = (context.lock * 7 + (int)context.position * 3 + context.processor) % 12; left >= 0; left--) give_way("in the critical section");
}

static void make_operation(Context &context) {
    const Operation &operation = context.program[context.position];
    void *word = &words[operation.lock].value;
    context.lock = operation.lock;
    context.is_trying = operation.is_try;
    context.has_taken = context.has_arrived = false;
    if (operation.is_try) {
        bool answer = enter_try(word);
        if (answer != context.has_taken) fail("the answer of a try is not what its operations did");
        if (!answer) return tell("miss " + std::to_string(operation.lock));
    } else {
        enter_lock(word);
        if (!context.has_taken) fail("a call that locks returned, and nothing was taken");
    }
    hold(context);
    enter_unlock(word);
}

static void run_program(int processor, int depth) {
    Context &context = machine.contexts[processor][depth];
    for (; context.position < context.program.size(); context.position++) make_operation(context);
    context.is_finished = true;
    for (;;) swapcontext(&context.registers, &scheduler);
}

static void run(Context &context) {
    machine.current = &context;
    swapcontext(&scheduler, &context.registers);
    machine.current = nullptr;
}

void spawn(int processor, const Program &program) {
    int depth = machine.depth[processor]++;
    Context &context = machine.contexts[processor][depth];
    char *stack = context.stack ? context.stack : (char *)malloc(stack_size);
    context = Context{processor, depth, program, 0, false, 0, false, false, false, "", {}, stack};
    getcontext(&context.registers);
    context.registers.uc_stack.ss_sp = stack;
    context.registers.uc_stack.ss_size = stack_size;
    context.registers.uc_link = nullptr;
    makecontext(&context.registers, (void (*)())run_program, 2, processor, depth);
    run(context);
}

void turn(int processor) {
    run(machine.top(processor));
    while (machine.depth[processor] > 1 && machine.top(processor).is_finished) machine.depth[processor]--;
}
