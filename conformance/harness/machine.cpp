#include "machine.h"
#include <cstdio>
#include "fault.h"
#include "scheduler.h"

// What the kernel's code goes by.
extern "C" {
int shim_is_pv, shim_spins, virt_spin_lock_key;
unsigned long lockevents[128];
extern const int shim_has_test_and_set;
void __pv_init_lock_hash(void);
}

Machine machine;

Standing Context::standing() const {
    return {phase, machine.setup.mode == Mode::pv ? Code::pv : Code::native, last};
}

void Machine::start() {
    if (setup.mode == Mode::test_and_set && !shim_has_test_and_set) fail("this code of Linux has no test-and-set lock");
    clear_memory();
    shim_is_pv = setup.mode == Mode::pv;
    virt_spin_lock_key = setup.mode == Mode::test_and_set;
    shim_spins = setup.spins;
    __pv_init_lock_hash();
    acts = last_event = 0;
    transcript.clear();
    for (uint64_t &count : counts) count = 0;
    for (Holders &lock : holders) lock = {{nobody, nobody}, nobody, {}};
    causes = {};
    pending_operations = 0;
    split_pending.clear();
    for (int p = 0; p < setup.processors; p++) {
        processors[p] = {{}, false, false, false, false, 0};
        spawn(p, setup.programs[p]);
    }
}

bool Machine::is_at_rest() const {
    for (int p = 0; p < setup.processors; p++)
        if (!processors[p].is_finished() || processors[p].stack.size() > 1) return false;
    return true;
}

void Machine::check_rest() const {
    for (int lock = 0; lock < setup.locks(); lock++)
        if (lock_at(lock)[0] || lock_at(lock)[1]) fail("Linux: lock %d is not at rest", lock);
    for (int p = 0; p < setup.processors; p++)
        if (nodes_taken(p)) fail("Linux: processor %d has nodes that are taken", p);
    if (!hash_is_empty()) fail("Linux: the hash is not empty");
}

std::string Machine::closing() const {
    std::string text = "end " + std::to_string(acts) + "\n";
    for (int kind = 0; kind < count_kinds; kind++) text += std::string(count_names[kind]) + " " + std::to_string(counts[kind]) + "\n";
    return text;
}

void show_state() {
    fprintf(stderr, "after %llu acts:\n", (unsigned long long)machine.acts);
    for (int p = 0; p < machine.setup.processors; p++)
        for (const Context *context : machine.processors[p].stack)
            fprintf(stderr, "  %d.%d operation %zu, at %s:%d, last row %s\n", machine.setup.numbers[p], context->depth, context->position,
                    context->at ? context->at->function : "the end", context->at ? context->at->line : 0, name_of(context->last));
}
