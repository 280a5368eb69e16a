// The kernel's code is compiled with a call at each plain access, of which -fsanitize=thread makes the calls; its library is
// not linked. A plain access to a lock or a node must be one of the few that the code makes on purpose.
#include "fault.h"
#include "machine.h"

// The count of the own nodes; the processor of any node; and the own node before it is published.
static bool is_purposeful(const Spot &spot, bool is_own, bool stores, bool is_new) {
    switch (spot.word) {
    case Word::none: return true;
    case Word::count: return is_own;
    case Word::cpu: return !stores || is_own;
    default: return stores && is_own && is_new;
    }
}

static void check_plain(void *address, int size, bool stores) {
    const Context *context = machine.current;
    if (!context) return;
    Spot spot = spot_of(address, size);
    bool is_own = spot.processor == context->processor;
    bool is_fine = is_purposeful(spot, is_own, stores, context->phase == Phase::with_node && spot.index == context->node);
    if (!is_fine)
        fail("Linux: a plain %s of %s, of node %d.%d, by %d.%d", stores ? "store" : "look", name_of(spot.word), spot.processor, spot.index,
             context->processor, context->depth);
}

extern "C" {
void __tsan_init(void) {}
void __tsan_func_entry(void *) {}
void __tsan_func_exit(void) {}
#define ACCESSES(size) \
    void __tsan_read##size(void *address) { check_plain(address, size, false); } \
    void __tsan_write##size(void *address) { check_plain(address, size, true); } \
    void __tsan_unaligned_read##size(void *address) { check_plain(address, size, false); } \
    void __tsan_unaligned_write##size(void *address) { check_plain(address, size, true); }
ACCESSES(1)
ACCESSES(2)
ACCESSES(4)
ACCESSES(8)
ACCESSES(16)
#undef ACCESSES
}
