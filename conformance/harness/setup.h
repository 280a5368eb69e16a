// What a trace's header says: the lock family, processors, locks, programs and handlers (docs/FORMATS.md).
#pragma once
#include <string>
#include <vector>

enum class Mode { test_and_set, native, cna, pv };
enum class Verb { lock, try_lock, unlock, read, try_read, read_unlock, write, try_write, write_unlock };

struct Operation {
    Verb verb;
    int lock;
};
using Program = std::vector<Operation>;

struct Setup {
    Mode mode = Mode::native; // cna stands for the native code, on one socket
    int threshold = 65535;
    int format = 1;
    int processors = 1;
    int cpus = 1; // as many the header says; of these only the processors have a program or a handler
    std::vector<int> numbers = {0}; // of each processor, by which Linux and the trace call it; they rise
    int spins = 32768;
    std::vector<bool> is_rw;                    // of each lock
    std::vector<Program> programs;              // of each processor
    std::vector<std::vector<Program>> handlers; // of each processor

    int locks() const { return (int)is_rw.size(); }
    // So many processors, with their own numbers and no programs.
    void set_processors(int count);
    // Which processor has this number; one that none has ends the run.
    int processor_numbered(int number) const;
};

const char *name_of(Mode mode);
Mode mode_named(const std::string &name);
const char *name_of(Verb verb);
Verb verb_named(const std::string &name);
// Which verb releases what this one takes.
Verb release_of(Verb verb);
// Where the program releases what it tries to take at this position.
size_t release_behind(const Program &program, size_t position);
