#include "memory.h"
#include <cstdlib>
#include <cstring>
#include <sys/mman.h>
#include "fault.h"
#include "machine.h"

// The kernel's variables of a processor stand in this section, each processor's copy has the same layout.
extern "C" char __start_conformance_per_cpu[], __stop_conformance_per_cpu[];

namespace {
constexpr int node_size = 32;
// Where the fields of a node stand in it.
constexpr int at_next = 0, at_flag = 8, at_count = 12, at_cpu = 16, at_state = 20;

struct alignas(64) LockMemory {
    uint32_t words[2];
};
struct Bucket {
    const void *lock;
    const void *node;
};

// The hash goes by a lock's address; so that a run is the same each time, this address is.
LockMemory *reserve_locks() {
    void *place = (void *)0x200000000000, *got = mmap(place, sizeof(LockMemory) * most_locks, PROT_READ | PROT_WRITE,
                                                       MAP_PRIVATE | MAP_ANONYMOUS | MAP_FIXED_NOREPLACE, -1, 0);
    if (got != place) fail("no memory at the fixed address of the locks");
    return (LockMemory *)got;
}

LockMemory *const locks = reserve_locks();
const size_t copy_size = (__stop_conformance_per_cpu - __start_conformance_per_cpu + 63) / 64 * 64;
char *const copies = (char *)aligned_alloc(64, copy_size * most_processors);
Bucket *hash;
unsigned long hash_buckets;

bool is_within(const char *p, const void *start, size_t size) {
    return p >= (const char *)start && p < (const char *)start + size;
}

Word spinlock_part(long offset, int size) {
    if (offset == 0) return size == 4 ? Word::word : size == 1 ? Word::locked : size == 2 ? Word::both : Word::none;
    if (offset == 1 && size == 1) return Word::pending;
    return offset == 2 && size == 2 ? Word::tail : Word::none;
}

Spot lock_spot(long offset, int size) {
    Spot spot;
    spot.lock = (int)(offset / sizeof(LockMemory));
    offset %= sizeof(LockMemory);
    bool is_rw = spot.lock < machine.setup.locks() && machine.setup.is_rw[spot.lock];
    if (is_rw && offset < 4) {
        spot.word = offset != 0 ? Word::none : size == 4 ? Word::rw_word : size == 1 ? Word::rw_writer : Word::none;
        return spot;
    }
    spot.is_wait_lock = offset >= 4;
    spot.word = spinlock_part(offset % 4, size);
    return spot;
}

Word node_part(long offset, int size) {
    switch (offset) {
    case at_next: return size == 8 ? Word::next : Word::none;
    case at_flag: return size == 4 ? Word::flag : Word::none;
    case at_count: return Word::count;
    case at_cpu: return Word::cpu;
    case at_state: return size == 1 ? Word::state : Word::none;
    default: return Word::none;
    }
}

Spot node_spot(long offset, int size) {
    Spot spot;
    spot.processor = (int)(offset / copy_size);
    offset = (long)(offset % copy_size) - (machine.first_node - __start_conformance_per_cpu);
    if (offset < 0 || offset >= nodes_each * node_size) return spot;
    spot.index = (int)(offset / node_size);
    spot.word = node_part(offset % node_size, size);
    return spot;
}

const char *node_at(int processor, int index) { return (char *)copy_of(machine.first_node, processor) + index * node_size; }
} // namespace

Spot spot_of(const volatile void *address, int size) {
    const char *p = (const char *)address;
    if (is_within(p, locks, sizeof(LockMemory) * most_locks)) return lock_spot(p - (const char *)locks, size);
    if (is_within(p, copies, copy_size * most_processors)) return node_spot(p - copies, size);
    Spot spot;
    if (hash && is_within(p, hash, hash_buckets * sizeof(Bucket)))
        spot.word = (p - (const char *)hash) % sizeof(Bucket) ? Word::hash_node : Word::hash_lock;
    return spot;
}

void clear_memory() {
    memset((void *)locks, 0, sizeof(LockMemory) * most_locks);
    memset(copies, 0, copy_size * most_processors);
    if (!machine.first_node) machine.first_node = __start_conformance_per_cpu;
}

uint32_t *lock_at(int lock) { return locks[lock].words; }

uint32_t spinlock_word(int lock, bool is_wait_lock) { return locks[lock].words[is_wait_lock ? 1 : 0]; }

uint8_t locked_byte(const Spot &spot) { return spot.is_of_spinlock() ? (uint8_t)spinlock_word(spot.lock, spot.is_wait_lock) : 0; }

void *copy_of(const void *variable, int processor) {
    return copies + processor * copy_size + ((const char *)variable - __start_conformance_per_cpu);
}

int nodes_taken(int processor) { return *(const int *)(node_at(processor, 0) + at_count); }

int flag_of_node(int processor, int index) { return *(const int *)(node_at(processor, index) + at_flag); }

bool is_running(const Spot &node) { return node_at(node.processor, node.index)[at_state] == 0; }

void *new_hash(unsigned long buckets, unsigned int *bits) {
    *bits = 0;
    while ((1ul << *bits) < buckets) ++*bits;
    free(hash);
    hash_buckets = 1ul << *bits;
    hash = (Bucket *)calloc(hash_buckets, sizeof(Bucket));
    if (!hash) fail("no memory for the hash");
    return hash;
}

bool hash_is_empty() {
    for (unsigned long i = 0; i < hash_buckets; i++)
        if (hash[i].lock) return false;
    return true;
}
