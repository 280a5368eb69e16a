#include "setup.h"
#include <algorithm>
#include "fault.h"

void Setup::set_processors(int count) {
    processors = cpus = count;
    programs.resize(count);
    handlers.resize(count);
    numbers.clear();
    for (int p = 0; p < count; p++) numbers.push_back(p);
}

int Setup::processor_numbered(int number) const {
    auto found = std::lower_bound(numbers.begin(), numbers.end(), number);
    if (found == numbers.end() || *found != number) fail("no processor has the number %d", number);
    return (int)(found - numbers.begin());
}

static const char *const mode_names[] = {"virt", "native", "cna", "pv"};
static const char *const verb_names[] = {"lock", "try", "unlock", "read", "tryread", "runlock", "write", "trywrite", "wunlock"};

const char *name_of(Mode mode) { return mode_names[(int)mode]; }

const char *name_of(Verb verb) { return verb_names[(int)verb]; }

Mode mode_named(const std::string &name) {
    for (int i = 0; i < 4; i++)
        if (name == mode_names[i]) return (Mode)i;
    fail("no mode %s", name.c_str());
}

Verb verb_named(const std::string &name) {
    for (int i = 0; i < 9; i++)
        if (name == verb_names[i]) return (Verb)i;
    fail("no verb %s", name.c_str());
}

Verb release_of(Verb verb) {
    switch (verb) {
    case Verb::lock:
    case Verb::try_lock: return Verb::unlock;
    case Verb::read:
    case Verb::try_read: return Verb::read_unlock;
    case Verb::write:
    case Verb::try_write: return Verb::write_unlock;
    default: fail("%s takes nothing", name_of(verb));
    }
}

size_t release_behind(const Program &program, size_t position) {
    const Operation &taken = program[position];
    for (size_t i = position + 1; i < program.size(); i++)
        if (program[i].verb == release_of(taken.verb) && program[i].lock == taken.lock) return i;
    fail("%s %d is not released", name_of(taken.verb), taken.lock);
}
