// What an operation of the queue's code means: which act of the rows it is, the event, and checks.
#include "../fault.h"
#include "queue.h"

static void tell(const Processor &processor, const std::string &event) {
    queue.transcript += std::to_string(queue.acts) + " " + std::to_string(processor.number) + " " + event + "\n";
}

static void end_round(Processor &processor) {
    processor.rounds_left--;
    processor.is_asked = false;
    processor.phase = processor.rounds_left > 0 ? Phase::locking : Phase::outside;
}

static void take(Processor &processor, const char *how) {
    if (queue.holder != nobody) fail("Linux: two holders");
    queue.holder = processor.number;
    processor.phase = Phase::releasing;
    tell(processor, how);
}

static void take_free(Processor &processor) {
    if (queue.handed_to != nobody) fail("Linux: the lock is taken past the one to whom it was handed");
    take(processor, "take free");
}

static void take_handed(Processor &processor) {
    if (queue.handed_to != processor.number) fail("Linux: the lock was not handed to %d", processor.number);
    queue.handed_to = nobody;
    take(processor, "take handed");
}

static void quit(Processor &processor) {
    if (queue.handed_to == processor.number) fail("Linux: %d gives up, and the lock was handed to it", processor.number);
    tell(processor, "quit");
    end_round(processor);
}

static void release(Processor &processor, int to) {
    if (queue.holder != processor.number) fail("Linux: the lock is released by one who has not taken it");
    queue.holder = nobody;
    queue.handed_to = to;
    tell(processor, to == nobody ? "release" : "release to " + std::to_string(to));
    end_round(processor);
}

static void tell_of(Processor &processor, Row row, const Made &made) {
    switch (row) {
    case Row::O2:
        if (!made.before) take_free(processor);
        else tell(processor, "arrive");
        break;
    case Row::O5:
        if (made.before) take_handed(processor);
        else if (made.ends_loop) processor.phase = Phase::quitting;
        break;
    case Row::Q2: if (made.before) take_handed(processor); break;
    case Row::Q5: if (made.has_swapped) quit(processor); break;
    case Row::Q9: quit(processor); break;
    case Row::X1:
    case Row::X5: if (made.has_swapped) release(processor, nobody); break;
    case Row::X3: release(processor, made.spot.processor); break;
    default: break;
    }
}

static bool is_act(const Processor &processor, const Entry &entry, const Made &made) {
    switch (entry.when) {
    case When::always: return true;
    case When::never: return false;
    case When::other: return made.before != (uint64_t)node_of(processor.number);
    default: fail("the table has a condition that is none of the queue");
    }
}

void record(Processor &processor, const Made &made) {
    queue.operations++;
    const Entry *entry = table.find(*made.at, made.spot.word, processor.standing());
    if (!entry)
        fail("no line of the table: %s:%d %s, %s of %s, after %s", made.at->file, made.at->line, made.at->function,
             name_of(made.at->operation), name_of(made.spot.word), name_of(processor.last));
    if (!is_act(processor, *entry, made)) return;
    if (queue.has_acted) fail("two acts in one turn of %d, the second %s", processor.number, name_of(entry->row));
    queue.has_acted = true;
    queue.acts++;
    tell_of(processor, entry->row, made);
    processor.last = entry->row;
}
