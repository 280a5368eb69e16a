// What an operation of the kernel's code means: which act of the rows it is, the event, the counts, and checks.
#include <cstring>
#include "fault.h"
#include "machine.h"

constexpr uint8_t held_byte = 1, slow_byte = 3;
constexpr uint32_t writer_bits = 0x1ff, locked_bits = 0xff, pending_bit = 0x100;

const char *const count_names[count_kinds] = {"lock_pending",   "lock_slowpath", "lock_use_node2",   "lock_use_node3", "lock_use_node4",
                                              "lock_no_node",   "pv_lock_stealing", "pv_wait_node", "pv_wait_head",   "pv_kick_unlock"};
extern "C" const char *const lock_event_names[];

static int number_of(int processor) { return machine.setup.numbers[processor]; }

static Who who(const Context &context) { return {context.processor, context.depth}; }

void tell(Context &context, const std::string &event) {
    machine.transcript += std::to_string(machine.acts) + " " + std::to_string(number_of(context.processor)) + "." + std::to_string(context.depth) +
                          " " + event + "\n";
    machine.last_event = machine.acts;
}

void count_event(Context &context, unsigned long event) {
    for (int kind = 0; kind < count_kinds; kind++) {
        if (strcmp(lock_event_names[event], count_names[kind]) != 0) continue;
        // These two Linux counts before the operation of the row that counts them.
        bool is_early = (kind == 1 && machine.setup.mode != Mode::pv) || kind == 9;
        if (is_early) context.kept_counts.push_back(kind);
        else machine.counts[kind]++;
    }
}

// ---- takes and releases, with the checks that they are lawful ----
static void take(Context &context, const char *how) {
    Who &holder = machine.holders[context.lock].of_spinlock[context.is_wait_lock];
    if (holder != nobody) fail("Linux: two holders of lock %s", context.lock_name().c_str());
    holder = who(context);
    context.has_taken = true;
    tell(context, "take " + context.lock_name() + " " + how);
}

static void release(Context &context, const std::string &owing) {
    Who &holder = machine.holders[context.lock].of_spinlock[context.is_wait_lock];
    if (holder != who(context)) fail("Linux: lock %s is released by one who has not taken it", context.lock_name().c_str());
    holder = nobody;
    tell(context, "release " + context.lock_name() + owing);
}

static void miss(Context &context, const std::string &lock) {
    context.has_missed = true;
    tell(context, "miss " + lock);
}

static void take_as_reader(Context &context, const char *how) {
    Holders &holders = machine.holders[context.rw_lock];
    if (holders.writer != nobody) fail("Linux: a reader beside a writer");
    holders.readers.insert(who(context));
    context.has_taken_rw = true;
    tell(context, "rtake " + std::to_string(context.rw_lock) + " " + how);
}

static void take_as_writer(Context &context, const char *how) {
    Holders &holders = machine.holders[context.rw_lock];
    if (holders.writer != nobody || !holders.readers.empty()) fail("Linux: a writer beside another");
    holders.writer = who(context);
    context.has_taken_rw = true;
    tell(context, "wtake " + std::to_string(context.rw_lock) + " " + how);
}

static void release_as_reader(Context &context) {
    if (!machine.holders[context.rw_lock].readers.erase(who(context))) fail("Linux: a reader releases what it has not taken");
    tell(context, "rrelease " + std::to_string(context.rw_lock));
}

static void release_as_writer(Context &context) {
    Who &writer = machine.holders[context.rw_lock].writer;
    if (writer != who(context)) fail("Linux: a writer releases what it has not taken");
    writer = nobody;
    tell(context, "wrelease " + std::to_string(context.rw_lock));
}

// ---- the event of an act, by its row ----
static void tell_of_rw_lock(Context &context, Row row, const Made &made) {
    bool was_open = !(made.before & writer_bits);
    switch (row) {
    case Row::R1: if (was_open) take_as_reader(context, "fast"); break;
    case Row::R2: if (made.ends_loop) take_as_reader(context, "irq"); break;
    case Row::R5: if (made.ends_loop) take_as_reader(context, "queued"); break;
    case Row::Wr1: if (made.has_swapped) take_as_writer(context, "fast"); break;
    case Row::Wr3:
    case Row::Wr6: if (made.has_swapped) take_as_writer(context, "queued"); break;
    case Row::Y1: if (!was_open) miss(context, std::to_string(context.rw_lock)); break;
    case Row::Y2: if (was_open) take_as_reader(context, "try"); break;
    case Row::Y3: miss(context, std::to_string(context.rw_lock)); break;
    case Row::Y4: if (made.before) miss(context, std::to_string(context.rw_lock)); break;
    case Row::Y5: made.has_swapped ? take_as_writer(context, "try") : miss(context, std::to_string(context.rw_lock)); break;
    case Row::Z1: release_as_reader(context); break;
    case Row::Z2: release_as_writer(context); break;
    default: break;
    }
}

static void tell_of_pv(Context &context, Row row, const Made &made) {
    switch (row) {
    case Row::H2: if (made.has_swapped) take(context, "steal"); break;
    case Row::E4: if (made.has_swapped) take(context, "head"); break;
    case Row::E7: if (!made.before) take(context, "head"); break;
    case Row::E13: if (made.has_swapped) tell(context, "leave " + context.lock_name()); break;
    case Row::U2: if (made.has_swapped) release(context, ""); break;
    case Row::U4: release(context, " owing " + std::to_string(number_of(context.target))); break;
    default: tell_of_rw_lock(context, row, made);
    }
}

static void tell_of_pass(Context &context, const Spot &to) {
    tell(context, "pass " + context.lock_name() + " " + std::to_string(number_of(to.processor)) + "." +
                      std::to_string(machine.context_of_node[to.processor][to.index]));
}

static void tell_of(Context &context, Row row, const Made &made) {
    switch (row) {
    case Row::F1: if (made.has_swapped) take(context, "fast"); break;
    case Row::T1: if (made.before) miss(context, context.lock_name()); break;
    case Row::T2: made.has_swapped ? take(context, "try") : miss(context, context.lock_name()); break;
    case Row::U1: release(context, ""); break;
    case Row::V2: if (made.has_swapped) take(context, "virt"); break;
    case Row::P4: take(context, "pending"); break;
    case Row::G3: if (made.has_swapped) take(context, "retry"); break;
    case Row::N2: if (made.has_swapped) take(context, "nonode"); break;
    case Row::G4:
        context.phase = Phase::queued;
        tell(context, "arrive " + context.lock_name());
        break;
    case Row::G5: context.before = made.spot; break;
    case Row::G8: if (made.has_swapped) take(context, "sole"); break;
    case Row::G9: take(context, "head"); break;
    case Row::G10:
    case Row::E14: context.knows_next |= made.ends_loop; break;
    case Row::G11:
    case Row::E15: tell_of_pass(context, made.spot); break;
    default: tell_of_pv(context, row, made);
    }
}

// ---- which act it is ----

// x86 reads the rest of the word after it has set pending. Where the word had no tail before, and has one now, the rows cannot
// follow with P1 at the first half: the run is made again with P1 here.
static bool is_second_half_act(Context &context, uint32_t met) {
    PendingInTwo &pending = context.pending;
    if (pending.is_late) return true;
    if (pending.met & ~locked_bits) return false;
    if (met & ~locked_bits & ~pending_bit) {
        machine.causes.split = true;
        machine.split_pending.insert(pending.number);
        return false;
    }
    return (pending.met & locked_bits) && !(met & locked_bits);
}

static bool is_act(Context &context, const Entry &entry, const Made &made) {
    bool is_held = made.before & locked_bits;
    switch (entry.when) {
    case When::always: return true;
    case When::never: return false;
    case When::last_look: return made.ends_loop;
    case When::nonzero: return made.before != 0;
    case When::other: fail("a look for the own node is none of a spinlock");
    case When::swapped: return made.has_swapped;
    case When::held: return is_held;
    case When::swapped_or_held: return made.has_swapped || is_held;
    case When::second_half: return is_second_half_act(context, (uint32_t)made.before);
    }
    return false;
}

// The row of this operation, or none. On x86 P1 stands at the first half of setting pending, or at the second.
static Row row_of(Context &context, const Entry &entry, const Made &made) {
    PendingInTwo &pending = context.pending;
    if (!is_act(context, entry, made)) return Row::none;
    if (entry.when == When::second_half && pending.is_late) {
        pending.is_late = false;
        return Row::P1;
    }
    if (entry.row != Row::P1) return entry.row;
    pending.met = (uint32_t)made.before;
    if (made.at->operation != shim_bit_operation) return Row::P1;
    pending.number = machine.pending_operations++;
    pending.is_late = machine.late_pending.count(pending.number) > 0;
    return pending.is_late ? Row::none : Row::P1;
}

static void act(Context &context, Row row, const Made &made) {
    if (machine.has_acted) fail("two acts in one turn of %d.%d, the second %s", context.processor, context.depth, name_of(row));
    machine.has_acted = true;
    machine.acts++;
    for (int kind : context.kept_counts) machine.counts[kind]++;
    context.kept_counts.clear();
    tell_of(context, row, made);
    context.last = row;
}

// The locked byte is one of its three values, slow in `pv` alone, and changes exactly where a take or a release is told.
static void check_locked_byte(const Made &made, const std::string &event) {
    if (!made.spot.is_of_spinlock()) return;
    uint8_t byte = locked_byte(made.spot);
    bool was_held = made.locked_before, is_held = byte;
    if (byte > held_byte && (byte != slow_byte || machine.setup.mode != Mode::pv)) fail("Linux: the locked byte is %d", byte);
    bool tells_take = event.find(" take ") != std::string::npos, tells_release = event.find(" release ") != std::string::npos;
    if (tells_take != (!was_held && is_held) || tells_release != (was_held && !is_held))
        fail("the locked byte was %d and is %d, but the event is '%s' in %s:%d", was_held, is_held, event.c_str(), made.at->function,
             made.at->line);
}

void record(Context &context, const Made &made) {
    machine.operations++;
    const Entry *entry = table.find(*made.at, made.spot.word, context.standing());
    if (!entry)
        fail("no line of the table: %s:%d %s, %s of %s, after %s", made.at->file, made.at->line, made.at->function,
             name_of(made.at->operation), name_of(made.spot.word), name_of(context.last));
    size_t told = machine.transcript.size();
    Row row = row_of(context, *entry, made);
    if (row != Row::none) act(context, row, made);
    bool finds_entry = made.spot.word == Word::hash_node && made.at->operation == shim_load_operation;
    if (finds_entry) context.target = spot_of((const void *)made.before, 8).processor;
    check_locked_byte(made, machine.transcript.substr(told));
}
