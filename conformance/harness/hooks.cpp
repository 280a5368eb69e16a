// The functions that the shims call: each gives way, makes its operation alone, and records it.
#include <cstring>
#include "changes.h"
#include "effects.h"
#include "fault.h"
#include "scheduler.h"

namespace {
ChangeKind change_of(const shim_place *at, const volatile void *address, int size) {
    if (change.kind == ChangeKind::nothing) return ChangeKind::nothing;
    Word word = address ? spot_of(address, size).word : Word::none;
    return change.at(table.find(*at, word, machine.current->standing()));
}

// The lock of the operation is the one on which the context acts.
void note_lock(Context &context, const shim_place &at, const Spot &spot) {
    if (spot.is_of_spinlock()) {
        context.lock = spot.lock;
        context.is_wait_lock = spot.is_wait_lock;
    }
    if (spot.is_of_rw_lock()) context.rw_lock = spot.lock;
    if (strcmp(at.function, "queued_spin_lock") != 0) return;
    context.phase = Phase::locking;
    context.has_taken = false;
    context.node = -1;
}

// An operation without a word, which Linux makes or the rows only.
void make_without_word(const shim_place *at, bool ends_loop) {
    give_way(at);
    record(*machine.current, {at, {}, 0, 0, false, ends_loop, 0});
}

// An act of the rows before the operation at this place, for which Linux makes none.
void make_none(const shim_place *at, bool ends_loop) {
    shim_place &place = machine.current->own_place;
    place = *at;
    place.operation = shim_none_operation;
    make_without_word(&place, ends_loop);
}

// Linux's stride: it waits on at its node, and has not looked at the state of the node before. The rows look, and go on as
// Linux does where the processor before runs.
void make_left_out_look(const shim_place *at) {
    if (machine.current->last != Row::W1 || strcmp(at->function, "pv_wait_node") != 0) return;
    make_none(at, false);
    if (!is_running(machine.current->before)) machine.causes.stride = true;
}

uint64_t operate(const shim_place *at, volatile void *address, int size, const Maker &effect) {
    give_way(at);
    Context &context = *machine.current;
    Spot spot = spot_of(address, size);
    uint64_t before = value_at(address, size);
    uint8_t locked_before = locked_byte(spot);
    Effect made = effect(before);
    uint64_t after = store_effect(made, address, size, before);
    note_lock(context, *at, spot);
    record(context, {at, spot, before, after, made.has_swapped, false, locked_before});
    return before;
}

// Makes the operation, twice where the change says so; answers what the last one met.
uint64_t operate_by(ChangeKind kind, const shim_place *at, volatile void *address, int size, const Maker &effect) {
    if (kind == ChangeKind::repeat) operate(at, address, size, effect);
    return operate(at, address, size, effect);
}

uint64_t updated(const shim_place *at, uint64_t before, uint64_t argument) {
    switch (at->operation) {
    case shim_or_operation:
    case shim_bit_operation: return before | argument;
    case shim_andnot_operation: return before & ~argument;
    case shim_add_operation: return before + argument;
    case shim_subtract_operation: return before - argument;
    default: fail("%s changes nothing", name_of(at->operation));
    }
}

uint64_t look(const shim_place *at, const volatile void *address, int size, ChangeKind kind) {
    Look &look = machine.current->look;
    bool is_held_back = look.is_held_back;
    if (kind != ChangeKind::skip) give_way(at);
    look = {at, address, size, value_at(address, size), is_held_back};
    return look.value;
}
} // namespace

extern "C" {
uint64_t shim_load(const shim_place *at, const volatile void *address, int size) {
    make_left_out_look(at);
    ChangeKind kind = change_of(at, address, size);
    uint64_t turned = kind == ChangeKind::value ? change.bits : 0;
    if (at->operation == shim_wait_operation) return look(at, address, size, kind) ^ turned;
    if (kind == ChangeKind::skip) return 0;
    return operate_by(kind, at, (volatile void *)address, size, no_effect) ^ turned;
}

int shim_ends(int ends) {
    Context &context = *machine.current;
    Look &look = context.look;
    ChangeKind kind = change_of(look.at, look.address, look.size);
    if (kind == ChangeKind::skip) return 1;
    look.is_held_back = kind == ChangeKind::repeat && ends && !look.is_held_back;
    if (look.is_held_back) ends = 0;
    Spot spot = spot_of(look.address, look.size);
    note_lock(context, *look.at, spot);
    record(context, {look.at, spot, look.value, look.value, false, ends != 0, locked_byte(spot)});
    return ends;
}

void shim_store(const shim_place *at, volatile void *address, int size, uint64_t value) {
    make_left_out_look(at);
    if (spot_of(address, size).word == Word::flag) { // the handover
        if (!machine.current->knows_next) make_none(at, true);
        if (machine.setup.mode == Mode::cna) make_none(at, false);
    }
    ChangeKind kind = change_of(at, address, size);
    if (kind == ChangeKind::skip) return;
    if (kind == ChangeKind::value) value ^= change.bits;
    operate_by(kind, at, address, size, store_of(value));
}

uint64_t shim_swap(const shim_place *at, volatile void *address, int size, uint64_t expected, uint64_t value) {
    ChangeKind kind = change_of(at, address, size);
    expected &= bits_of(size);
    if (kind == ChangeKind::skip) return expected;
    if (kind == ChangeKind::value) value ^= change.bits;
    if (kind == ChangeKind::blind) {
        operate(at, address, size, blind_swap_of(value));
        return expected;
    }
    uint64_t compared = kind == ChangeKind::expected ? expected ^ change.bits : expected;
    uint64_t met = operate_by(kind, at, address, size, swap_of(compared, value));
    return kind == ChangeKind::expected ? met ^ change.bits : met;
}

uint64_t shim_exchange(const shim_place *at, volatile void *address, int size, uint64_t value) {
    ChangeKind kind = change_of(at, address, size);
    if (kind == ChangeKind::skip) return value_at(address, size);
    if (kind == ChangeKind::value) value ^= change.bits;
    return operate_by(kind, at, address, size, store_of(value));
}

uint64_t shim_update(const shim_place *at, volatile void *address, int size, uint64_t argument) {
    ChangeKind kind = change_of(at, address, size);
    if (kind == ChangeKind::skip) return value_at(address, size);
    uint64_t turned = kind == ChangeKind::value ? argument ^ change.bits : argument;
    return operate_by(kind, at, address, size, [=](uint64_t before) { return Effect{true, updated(at, before, turned)}; });
}

void *shim_of_processor(const void *variable, int number) { return copy_of(variable, machine.setup.processor_numbered(number)); }

void *shim_own_node(const shim_place *at, const void *variable) {
    machine.first_node = (char *)variable;
    make_without_word(at, false);
    Context &context = *machine.current;
    int taken = nodes_taken(context.processor);
    bool has_node = taken < nodes_each;
    context.node = has_node ? taken : -1;
    context.phase = has_node ? Phase::with_node : Phase::without_node;
    context.knows_next = false;
    if (has_node) machine.context_of_node[context.processor][taken] = context.depth;
    return copy_of(variable, context.processor);
}

int shim_processor(void) { return machine.setup.numbers[machine.current->processor]; }

int shim_processors(void) { return machine.setup.processors; }

int shim_in_interrupt(void) { return machine.current->depth > 0; }

void shim_leave(const shim_place *at) {
    if (machine.stops_before_leave) give_way(at);
}

void shim_count(unsigned long event) { count_event(*machine.current, event); }

void shim_bug(const char *function, int line) { fail("Linux: BUG in %s:%d", function, line); }

void shim_halt(const shim_place *at) {
    if (change_of(at, nullptr, 0) == ChangeKind::skip) return;
    Context &context = *machine.current;
    make_without_word(at, false);
    machine.processors[context.processor].is_halted = true;
    tell(context, "halt " + context.lock_name());
    context.own_place = *at;
    context.own_place.operation = shim_wake_operation;
    give_way(&context.own_place);
}

int shim_has_event(void) { return machine.processors[machine.current->processor].has_event; }

// The wait ends without a look at the byte, and has used the kick up.
void shim_clear_event(void) {
    Processor &own = machine.processors[machine.current->processor];
    own.has_event = own.is_kicked = false;
    machine.causes.event = true;
}

// An event that an earlier wait has left ends the poll at once. Where it comes of a kick since then, the halt ends by that.
void shim_poll(const shim_place *at) {
    const Processor &own = machine.processors[machine.current->processor];
    if (own.is_kicked || !own.has_event) return shim_halt(at);
    machine.causes.event = true;
}

void shim_kick(const shim_place *at, int number) {
    ChangeKind kind = change_of(at, nullptr, 0);
    if (kind == ChangeKind::skip) return;
    if (kind == ChangeKind::value) number ^= (int)change.bits;
    Context &context = *machine.current;
    int processor = machine.setup.processor_numbered(number);
    make_without_word(at, false);
    machine.processors[processor].is_kicked = machine.processors[processor].has_event = true;
    tell(context, "kick " + std::to_string(number));
    if (processor != context.target) fail("Linux: a kick of another processor than that of the node in the hash");
}

void *shim_hash(unsigned long bucket, unsigned long buckets, unsigned int *bits) {
    if (bucket != 2 * sizeof(void *)) fail("a bucket has another size");
    return new_hash(buckets, bits);
}
}
