// The memory that the kernel's code works on: locks, the nodes of each processor, and the hash of the paravirtual lock.
#pragma once
#include <cstdint>
#include "words.h"

constexpr int most_processors = 64, most_locks = 32, nodes_each = 4;

struct Spot {
    Word word = Word::none;
    int lock = -1;
    bool is_wait_lock = false;
    int processor = -1; // whose node
    int index = -1;     // which of its nodes

    bool is_of_spinlock() const { return word >= Word::word && word <= Word::tail; }
    bool is_of_rw_lock() const { return word == Word::rw_word || word == Word::rw_writer; }
};

// What the `size` bytes from this address are.
Spot spot_of(const volatile void *address, int size);
// All locks free, all nodes at rest.
void clear_memory();

// The word of a spinlock, or of a reader-writer lock, which has its wait lock behind it.
uint32_t *lock_at(int lock);
uint8_t locked_byte(const Spot &spot);
uint32_t spinlock_word(int lock, bool is_wait_lock);
// The processor's own copy of a variable of the template.
void *copy_of(const void *variable, int processor);
// How many nodes of the processor are taken, and the flag of one.
int nodes_taken(int processor);
int flag_of_node(int processor, int index);
// Whether the processor of a node runs, by the node's state.
bool is_running(const Spot &node);
// A new, empty hash of the paravirtual lock, with the number of bits of its size.
void *new_hash(unsigned long buckets, unsigned int *bits);
bool hash_is_empty();
