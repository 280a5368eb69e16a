// The functions that the shims call: each gives way, makes its operation alone, and records it. Of the plain accesses those to the
// links and flags of nodes are operations too: -fsanitize=thread makes a call right before each.
#include <fstream>
#include <map>
#include "../changes.h"
#include "../effects.h"
#include "../fault.h"
#include "queue.h"

namespace {
struct PlainPlace {
    std::string file, function;
    shim_place at;
};
// By the address behind the call.
std::map<const void *, PlainPlace> plain_places;

ChangeKind change_of(const shim_place *at, const volatile void *address, int size) {
    if (change.kind == ChangeKind::nothing) return ChangeKind::nothing;
    return change.at(table.find(*at, spot_of(address, size).word, queue.current->standing()));
}

uint64_t operate(const shim_place *at, volatile void *address, int size, const Maker &effect) {
    give_way(at);
    Spot spot = spot_of(address, size);
    uint64_t before = value_at(address, size);
    Effect made = effect(before);
    store_effect(made, address, size, before);
    record(*queue.current, {at, spot, before, made.has_swapped, false});
    return before;
}

// Makes the operation, twice where the change says so; answers what the last one met.
uint64_t operate_by(ChangeKind kind, const shim_place *at, volatile void *address, int size, const Maker &effect) {
    if (kind == ChangeKind::repeat) operate(at, address, size, effect);
    return operate(at, address, size, effect);
}

uint64_t look(const shim_place *at, const volatile void *address, int size, ChangeKind kind) {
    Look &look = queue.current->look;
    bool is_held_back = look.is_held_back;
    if (kind != ChangeKind::skip) give_way(at);
    look = {at, address, size, value_at(address, size), is_held_back};
    return look.value;
}

// A plain access is made when this returns, and nobody runs in between.
void make_plain(void *address, int size, bool stores, const void *behind) {
    Processor *processor = queue.current;
    Spot spot = spot_of(address, size);
    if (!processor || spot.word == Word::none) return;
    bool is_own = spot.processor == processor->number;
    if (spot.word == Word::cpu && (is_own || !stores)) return;
    if (!is_own) fail("Linux: a plain %s of %s, of the node of %d, by %d", stores ? "store" : "look", name_of(spot.word), spot.processor, processor->number);
    auto found = plain_places.find(behind);
    if (found == plain_places.end()) fail("no place is known of a plain access at %p", behind);
    const shim_place *at = &found->second.at;
    if ((at->operation == shim_store_operation) != stores) fail("%s:%d is a plain access of another kind", at->file, at->line);
    give_way(at);
    record(*processor, {at, spot, value_at(address, size), false, false});
}
} // namespace

void read_plain_places(const std::string &path) {
    std::ifstream lines(path);
    if (!lines) fail("no places %s", path.c_str());
    std::string address, kind, file, function;
    int line;
    while (lines >> address >> kind >> file >> line >> function) {
        PlainPlace &place = plain_places[(const void *)std::stoull(address, nullptr, 16)];
        place = {file, function, {}};
        place.at = {operation_named(kind), place.file.c_str(), place.function.c_str(), line};
    }
}

extern "C" {
uint64_t shim_load(const shim_place *at, const volatile void *address, int size) {
    ChangeKind kind = change_of(at, address, size);
    uint64_t turned = kind == ChangeKind::value ? change.bits : 0;
    if (at->operation == shim_wait_operation) return look(at, address, size, kind) ^ turned;
    if (kind == ChangeKind::skip) return 0;
    return operate_by(kind, at, (volatile void *)address, size, no_effect) ^ turned;
}

int shim_ends(int ends) {
    Processor &processor = *queue.current;
    Look &look = processor.look;
    ChangeKind kind = change_of(look.at, look.address, look.size);
    if (kind == ChangeKind::skip) return 1;
    look.is_held_back = kind == ChangeKind::repeat && ends && !look.is_held_back;
    if (look.is_held_back) ends = 0;
    record(processor, {look.at, spot_of(look.address, look.size), look.value, false, ends != 0});
    return ends;
}

void shim_store(const shim_place *at, volatile void *address, int size, uint64_t value) {
    ChangeKind kind = change_of(at, address, size);
    if (kind == ChangeKind::skip) return;
    if (kind == ChangeKind::value) value ^= change.bits;
    operate_by(kind, at, address, size, store_of(value));
}

uint64_t shim_swap(const shim_place *at, volatile void *address, int size, uint64_t expected, uint64_t value) {
    ChangeKind kind = change_of(at, address, size);
    expected &= bits_of(size);
    if (kind == ChangeKind::skip) return expected;
    if (kind == ChangeKind::value) value ^= change.bits;
    if (kind == ChangeKind::blind) {
        operate(at, address, size, blind_swap_of(value));
        return expected;
    }
    uint64_t compared = kind == ChangeKind::expected ? expected ^ change.bits : expected;
    uint64_t met = operate_by(kind, at, address, size, swap_of(compared, value));
    return kind == ChangeKind::expected ? met ^ change.bits : met;
}

uint64_t shim_exchange(const shim_place *at, volatile void *address, int size, uint64_t value) {
    ChangeKind kind = change_of(at, address, size);
    if (kind == ChangeKind::skip) return value_at(address, size);
    if (kind == ChangeKind::value) value ^= change.bits;
    return operate_by(kind, at, address, size, store_of(value));
}

void *shim_own_node(const shim_place *, const void *variable) { return copy_of(variable, queue.current->number); }
void *shim_of_processor(const void *variable, int number) { return copy_of(variable, number); }
int shim_processor(void) { return queue.current->number; }
int shim_is_asked(void) { return queue.current->is_asked; }
void shim_bug(const char *function, int line) { fail("Linux: BUG in %s:%d", function, line); }

void __tsan_init(void) {}
void __tsan_func_entry(void *) {}
void __tsan_func_exit(void) {}
#define ACCESSES(size) \
    void __tsan_read##size(void *address) { make_plain(address, size, false, __builtin_return_address(0)); } \
    void __tsan_write##size(void *address) { make_plain(address, size, true, __builtin_return_address(0)); } \
    void __tsan_unaligned_read##size(void *address) { make_plain(address, size, false, __builtin_return_address(0)); } \
    void __tsan_unaligned_write##size(void *address) { make_plain(address, size, true, __builtin_return_address(0)); }
ACCESSES(1)
ACCESSES(2)
ACCESSES(4)
ACCESSES(8)
ACCESSES(16)
#undef ACCESSES
}
