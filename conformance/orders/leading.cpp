// Where a row leads from what it met, what becomes of the registers, and who holds then.
#include <algorithm>
#include "stepper.h"

bool Stepper::holds(const Condition &condition, const uint8_t *met) const {
    auto node_of = [&] { return row().field == Field::flag ? met[0] - 1 : met[0]; };
    switch (condition.kind) {
    case Condition::swapped: return swapped;
    case Condition::fields:
        for (int field = 0; field < 3; field++) {
            int wanted = condition.value[field];
            if (wanted == Condition::nonzero ? !met[field] : wanted == Condition::own ? met[field] != t + 1 : wanted >= 0 && met[field] != wanted)
                return false;
        }
        return true;
    case Condition::unset:
    case Condition::none:
    case Condition::running: return met[0] == 0;
    case Condition::go:
    case Condition::halted: return met[0] == 1;
    case Condition::node: return node_of() > 0;
    case Condition::hashed_state: return met[0] == 2;
    case Condition::family: return condition.value[0] == lock.family;
    case Condition::local: return met[0] && lock.setup.workers[met[0] - 1].socket == lock.setup.workers[t].socket;
    case Condition::below: return value(runs_) < lock.setup.threshold;
    case Condition::is_set: return value((Register)condition.value[0]) != 0;
    case Condition::why: return value(why_) == condition.value[0];
    case Condition::more: return value(left_) > 1;
    case Condition::patient: return value(rounds_) >= lock.setup.rounds;
    case Condition::interrupt: return lock.setup.workers[t].kind == 'i';
    }
    return false;
}

const Case *Stepper::chosen(const uint8_t *met) const {
    for (const Case &c : row().cases)
        if (std::all_of(c.conditions.begin(), c.conditions.end(), [&](auto &condition) { return holds(condition, met); })) return &c;
    return nullptr;
}

void Stepper::assign(State &next, const Case &chosen, const uint8_t *met) const {
    auto &registers = mine(next).registers;
    for (const Assignment &a : chosen.assignments) switch (a.kind) {
        case Assignment::met: registers[a.to] = row().field == Field::flag ? met[0] - 1 : met[0]; break;
        case Assignment::tail: registers[a.to] = met[0]; break;
        case Assignment::of_register: registers[a.to] = value((Register)a.value); break;
        case Assignment::number: registers[a.to] = a.value; break;
        case Assignment::spins: registers[a.to] = lock.setup.spins; break;
        case Assignment::plus: registers[a.to] = value(a.to) + a.value + (a.value == 0); break;
        case Assignment::minus: registers[a.to] = value(a.to) - 1; break;
        }
}

void Stepper::follow(State &next, const uint8_t *met) {
    const Case *found = chosen(met);
    if (!found) throw "row " + row().label + " has no case for what it met";
    if (found->where == Case::again) return;
    std::copy(met, met + 3, deed.met);
    mine(next).step = 0;
    assign(next, *found, met);
    tell(next, found->event);
    deed.event = found->event.c_str();
    lead(next, *found);
    emit(next);
}

void Stepper::ends(State &next) {
    mine(next).left--;
    mine(next).row = mine(next).left ? lock.first_row(t) : done;
    mine(next).registers.fill(0);
}

void Stepper::lead(State &next, const Case &found) {
    Thread &thread = mine(next);
    bool is_waiting = lock.is_readers() && !row().is_readers;
    uint8_t then = thread.registers[then_];
    switch (found.where) {
    case Case::row: thread.row = found.via >= 0 && lock.setup.extras ? found.via : found.next; break;
    case Case::granted:
        thread.registers.fill(0);
        thread.row = is_waiting ? then : lock.section;
        break;
    case Case::done:
        if (deed.row == lock.last_row(t)) ends(next);
        else thread.row = lock.section;
        break;
    case Case::freed:
        if (is_waiting) thread.row = lock.section;
        else ends(next);
        break;
    case Case::missed: ends(next); break;
    case Case::waitlock:
        thread.registers[then_] = found.next;
        thread.row = lock.table.find("F1");
        break;
    case Case::freewait: thread.row = lock.table.find("U1"); break;
    case Case::again: break;
    }
}

void Stepper::take(State &next, const std::string &how, bool is_waiting) {
    uint8_t &holders = is_waiting ? next.waits : next.alone;
    if (holders) failure = Failure::two_holders;
    holders |= 1 << t;
    if (how != "head" && how != "sole") return;
    if (lock.setup.family != "cna" && (next.queue & 15) != (uint32_t)t + 1 && failure == Failure::none) failure = Failure::out_of_order;
    uint32_t rest = 0;
    for (int i = 0, kept = 0; i < 8; i++) {
        uint32_t waiter = next.queue >> 4 * i & 15;
        if (waiter && waiter != (uint32_t)t + 1) rest |= waiter << 4 * kept++;
    }
    next.queue = rest;
}

// The ghosts: who holds, and who stands in the queue.
void Stepper::tell(State &next, const std::string &event) {
    if (event.empty()) return;
    bool is_waiting = lock.is_readers() && !row().is_readers;
    auto begins = [&](const char *word) { return event.rfind(word, 0) == 0; };
    uint8_t me = 1 << t;
    if (begins("take")) take(next, event.substr(7), is_waiting);
    if (begins("release")) (is_waiting ? next.waits : next.alone) &= ~me;
    if (begins("rrelease")) next.shared &= ~me;
    if (begins("wrelease")) next.alone &= ~me;
    if (begins("rtake") || begins("wtake")) {
        if (next.alone || (begins("wtake") && next.shared)) failure = Failure::two_holders;
        (begins("rtake") ? next.shared : next.alone) |= me;
    }
    if (!begins("arrive")) return;
    int at = 0;
    while (next.queue >> 4 * at & 15) at++;
    next.queue |= (uint32_t)(t + 1) << 4 * at;
}

// Hands the state to the sink, without the registers and views that nobody will use.
void Stepper::emit(State &next) {
    Thread &thread = mine(next);
    if (lock.setup.split) word().close(next, t);
    if (thread.row != done) {
        uint32_t live = (thread.left > 1 ? lock.live : lock.live_at_last)[thread.row];
        for (int i = 0; i < registers; i++)
            if (thread.step == 0 && i != then_ && !(live & 1u << i)) thread.registers[i] = 0;
        if (!(live & own_view)) thread.sight.own = View();
        if (!(live & address_view)) thread.sight.address = View();
    }
    sink.take(next, deed, failure);
    failure = Failure::none;
}
