#!/usr/bin/env python3
"""race.py [--runs N] [--kind spin|rw] [--crowd | --alignments | --against FILE] [--values] PROGRAM [MODE..]

Compares the running locks of these modes (`virt`, `native`, `cna` and `pv`, if none is said) with plain Rust. PROGRAM is a built `lk_race`
(`rt run` in crates/lk_race leaves it in out/). Beside each mode stands the same lock in plain Rust, over atomic words with every step
SeqCst: the test-and-set lock, the queued lock, that of Dice and Kogan on two sockets whose processors take turns, with a threshold of 16,
and the paravirtual lock, whose waiters spin for 32,768 turns and then park; and beside all stand std's Mutex and RwLock. What lies under a
lock is in an UnsafeCell there. These are in `race.rs`, which is compiled here by `rustc -O`. Each race is run N times (nine, if not said),
all locks in turn, so that they have the same machine; printed are the least and the middle nanoseconds a turn, each against that of the
same lock in plain Rust, and the middle nanoseconds of processor time a turn, user and system, of all threads.

spin, bare   a turn takes the lock and frees it; nothing lies under it
spin, work   it changes the two numbers of the value under the lock in between
rw, bare     a turn takes the lock as a reader and frees it, and each hundredth as a writer; not in `pv`, which has no such lock
rw, work     a reader compares the two numbers of the value, and a writer changes them. In PROGRAM the value is a `Shared`: a reader has
             a copy of it for its own processor, and the writer changes the value and then sets the copy of each processor. In plain
             Rust, and under std's RwLock, there is one value, which readers compare in place

A turn without contention is short, and on many processors of Intel it takes up to 3 ns more or less by where its loop stands in the
lines of the code: so a figure of either program also goes by where the compiler happened to lay its loop, and `--alignments` takes that
out.
On two and four threads each thread makes its share of the turns, and the program has as many processors as it has threads, always the
same, since the time that a line of the cache takes goes by where it goes to. A race has so many turns that the start of its threads
plays little part: in a short one they run one after another, as luck has it, and do not contend. Where the least is far below the
middle, such luck is left; where other work runs beside it, the times are those of the scheduler.

--crowd      in place of these: `spin, work` on as many threads as there are processors, on twice and on eight times as many, with `pv`
             also for one turn of a spin. With more threads than processors the queues that spin get few turns, since each of theirs takes
             so long
--alignments in place of these: one thread, and each program linked eight times, with 16, 32, .. 128 bytes of dead code in front, so that
             its loops stand at every place in two lines of 64 bytes at which a function can begin. PROGRAM is not proved again: what
             is linked is PROGRAM.o, which `rt run` leaves beside it. A race has 400,000 turns, and the figure of an alignment is the
             least of the N runs. Printed are the least, the middle and the most of the eight, of PROGRAM and of plain Rust, and the
             ratio of the middles
--values     in place of these: a turn takes a spinlock, adds one to a number of its value, and frees it, with a value of 8 bytes and one
             of 1 KiB, on one, two and four threads. Beside each mode stands the same lock in plain Rust with the value in an
             UnsafeCell, and beside all std's Mutex and the Mutex of Rattle's library, which has std's as its peer. With --alignments too
             one thread does so at each alignment
--against FILE  in place of these: PROGRAM beside FILE, another build of `lk_race`, such as that of the version before. On four threads N
             times eight runs of each, in turn, and on two N times 32, since there a run may take twice as long as another. Each of
             eight begins its stack 16 bytes further on, and each run its heap so many times 64 bytes further on, so that 64 runs
             have each such place in a page: where a value lies makes a tenth of a contended turn, and each build would have one
             place for all its runs. On one thread each program is linked at each alignment, as above. Printed are the least and the
             middle of PROGRAM, those of FILE, and the ratio of the middles; and on more threads between which two it lies in 95 of
             a hundred draws from the same runs. With --values, of values. Not at real-time priority: there a thread that was just
             made may stand behind another one on its processor, and two threads run one after the other
"""
import argparse
import itertools
import os
import random
import re
import resource
import statistics
import subprocess
import sys
import tempfile

sys.dont_write_bytecode = True

HERE = os.path.dirname(os.path.abspath(__file__))
sys.path.append(os.path.join(HERE, "shared"))

from linking import PADS, linked, padded

TURNS = {1: 4000000, 2: 4000000, 4: 2000000}
CROWDS = {1: 2000000, 2: 800000, 8: 800000}
FEW_TURNS = {1: 400000, 2: 80000, 8: 64000}
ALIGNED_TURNS = 400000
AGAINST_TURNS = {2: 1000000, 4: 1000000}
AGAINST_RUNS = {2: 32, 4: 8}
DRAWS = 2000
PLACES = range(0, 128, 16)
LINE, LINES = 64, 64
# From one run to the next the heap begins so many lines further on, of those of a page.
LINES_ON = 27
MODES = ["virt", "native", "cna", "pv"]
SIZES = {"spin8": "8 bytes", "spin1024": "1 KiB"}
VALUE_TURNS = {1: 400000, 2: 400000, 4: 400000}
BARE = {"spin": "bare", "rw": "rwbare"}
QUEUES = ["native", "cna"]
OF_STD = {"spin": "Mutex", "rw": "RwLock"}
WORKS = (("bare", 0), ("work", 1))


# What begins the heap HEAP bytes further on, when a program loads it.
SHIFT = """
#include <stdlib.h>

__attribute__((constructor)) static void shift(void)
{
    const char *bytes = getenv("HEAP");
    volatile char *room = bytes && atoi(bytes) ? malloc(atoi(bytes) - sizeof(size_t)) : NULL;

    if (room)
        *room = 1;
}
"""


def turn(command, threads, turns, work, moved=()):
    """The nanoseconds a turn of one race, and those of processor time. What is moved says by what its environment has."""
    mode, kind, *spins = command[1:]
    kind = kind if work else BARE[kind]
    words = [command[0], mode, kind, str(threads), str(turns // threads), *spins]
    processors = sorted(os.sched_getaffinity(0))[:threads]
    before = resource.getrusage(resource.RUSAGE_CHILDREN)
    how = {"env": {**os.environ, **dict(moved)}, "preexec_fn": lambda: os.sched_setaffinity(0, processors)}
    told = subprocess.run(words, capture_output=True, text=True, check=True, **how)
    after = resource.getrusage(resource.RUSAGE_CHILDREN)
    if "right" not in told.stdout:
        sys.exit("%s: %s" % (" ".join(words), told.stdout))
    used = after.ru_utime - before.ru_utime + after.ru_stime - before.ru_stime
    return int(re.search(r"(\d+) microseconds", told.stderr)[1]) * 1e3 / turns, used * 1e9 / turns


def race(name, locks, threads, turns, work, runs):
    """Runs a race of all locks, each with so many turns, and prints a line for each."""
    times = {lock: [] for lock in locks}
    for _ in range(runs):
        for lock, command in locks.items():
            times[lock].append(turn(command, threads, turns[lock], work))
    told = {}
    for lock, pairs in times.items():
        took, used = zip(*pairs)
        told[lock] = least, middle, used = min(took), statistics.median(took), statistics.median(used)
        peer = told.get("plain " + lock)
        ratios = "%12.2f %12.2f" % (least / peer[0], middle / peer[1]) if peer else "%12s %12s" % ("", "")
        print("%-24s %-16s %10.1f %10.1f %s %10.1f" % (name, lock, least, middle, ratios, used), flush=True)


def locks_of(kind, modes, program, plain):
    """The command of each lock: its peer in plain Rust stands before it."""
    locks = {OF_STD[kind]: [plain, "std", kind]}
    for mode in modes:
        if (mode, kind) != ("pv", "rw"):
            locks["plain " + mode] = [plain, mode, kind]
            locks[mode] = [program, mode, kind]
    return locks


def race_all(kind, locks, runs):
    """The races of a kind of lock, with at most as many threads as there are processors."""
    for threads, turns in TURNS.items():
        for name, work in WORKS:
            title = "%s, %s, %d thread%s" % (kind, name, threads, "s" * (threads > 1))
            race(title, locks, threads, {lock: turns for lock in locks}, work, runs)


def race_crowds(locks, runs):
    """The races with as many threads as there are processors, and with more."""
    for lock in [lock for lock in locks if lock.endswith("pv")]:
        locks[lock + ", 1"] = [*locks[lock], "1"]
    for times, turns in CROWDS.items():
        threads = times * len(os.sched_getaffinity(0))
        few = {lock: FEW_TURNS[times] if lock.split()[-1] in QUEUES else turns for lock in locks}
        race("spin, work, %d threads" % threads, locks, threads, few, 1, runs)


def race_values(modes, program, plain, runs):
    """The races for values of each size."""
    for kind, size in SIZES.items():
        locks = {"plain mutex": [plain, "std", kind], "mutex": [program, "mutex", kind]}
        for mode in modes:
            locks["plain " + mode] = [plain, mode, kind]
            locks[mode] = [program, mode, kind]
        for threads, turns in VALUE_TURNS.items():
            title = "%s, %d thread%s" % (size, threads, "s" * (threads > 1))
            race(title, locks, threads, {lock: turns for lock in locks}, 1, runs)


def linked_plain(folder):
    """The program in plain Rust, linked likewise."""
    made = []
    for number, pad in enumerate(padded(folder)):
        made.append(os.path.join(folder, "plain%d" % number))
        compile_plain(made[-1], "-C", "link-arg=-fuse-ld=bfd", "-C", "link-arg=" + pad)
    return made


def compile_plain(plain, *flags):
    """The program in plain Rust."""
    subprocess.run(["rustc", "-O", "--edition", "2024", *flags, "-o", plain, os.path.join(HERE, "race.rs")], check=True)


def race_alignments(kind, modes, programs, runs, works=WORKS):
    """Races of one thread for each lock, at each alignment, all in turn; prints a line for each race."""
    for mode in [mode for mode in modes if (mode, kind) != ("pv", "rw")]:
        for name, work in works:
            least = [[float("inf")] * len(PADS) for _ in programs]
            for _ in range(runs):
                for number in range(len(PADS)):
                    for lock, builds in enumerate(programs):
                        took, _used = turn([builds[number], mode, kind], 1, ALIGNED_TURNS, work)
                        least[lock][number] = min(least[lock][number], took)
            figures = [figure for took in least for figure in (min(took), statistics.median(took), max(took))]
            print(("%-24s" + "%9.1f" * 6 + "%9.2f") % ("%s, %s, %s" % (kind, name, mode), *figures, figures[1] / figures[4]), flush=True)


def ratio_of(ours, theirs):
    """The ratio of the middles."""
    return statistics.median(ours) / statistics.median(theirs)


def ratios_of(ours, theirs):
    """Between which two the ratio of the middles lies in 95 of a hundred draws from the same runs."""
    drawn = sorted(ratio_of(random.choices(ours, k=len(ours)), random.choices(theirs, k=len(theirs))) for _ in range(DRAWS))
    return drawn[DRAWS // 40], drawn[-1 - DRAWS // 40]


def shifter(folder):
    """The library that begins the heap further on."""
    made = os.path.join(folder, "shift.so")
    subprocess.run(["cc", "-O1", "-shared", "-fPIC", "-x", "c", "-", "-o", made], input=SHIFT, text=True, check=True)
    return made


def moves(shift, runs):
    """For each run what begins its stack and its heap further on."""
    for number in range(runs):
        yield {"PLACE": "x" * PLACES[number % len(PLACES)], "HEAP": str(number * LINES_ON % LINES * LINE), "LD_PRELOAD": shift}


def race_places(kind, modes, programs, runs, works, shift):
    """Races of two programs on two and on four threads, at places of the stack and of the heap, in turn; prints a line for each race."""
    for mode in [mode for mode in modes if (mode, kind) != ("pv", "rw")]:
        for (threads, turns), (name, work) in itertools.product(AGAINST_TURNS.items(), works):
            times = {program: [] for program in programs}
            for number, moved in enumerate(moves(shift, runs * AGAINST_RUNS[threads])):
                for program in programs if number % 2 else reversed(programs):
                    took, _used = turn([program, mode, kind], threads, turns, work, moved)
                    times[program].append(took)
            figures = [figure for took in times.values() for figure in (min(took), statistics.median(took))]
            title = "%s, %s, %s, %d threads" % (kind, name, mode, threads)
            ratios = (ratio_of(*times.values()), *ratios_of(*times.values()))
            print(("%-32s" + "%9.1f" * 4 + "%9.2f" * 3) % (title, *figures, *ratios), flush=True)


def race_against(args, modes, kinds, scratch):
    """The races of two builds of the program, on one thread and on more."""
    programs = [os.path.abspath(args.program), os.path.abspath(args.against)]
    builds = [linked(program, scratch, name) for program, name in zip(programs, ("ours", "theirs"))]
    works = [("work", 1)] if args.values else WORKS
    print(("%-24s" + "%9s" * 7) % ("race of one thread", "least ns", "middle", "most", "against", "middle", "most", "ratio"))
    for kind in kinds:
        race_alignments(kind, modes, builds, args.runs, works)
    print(("%-32s" + "%9s" * 7) % ("race", "least ns", "middle", "against", "middle", "ratio", "from", "to"))
    for kind in kinds:
        race_places(kind, modes, programs, args.runs, works, shifter(scratch))


def main():
    said = argparse.ArgumentParser(usage=__doc__)
    said.add_argument("--runs", type=int, default=9)
    said.add_argument("--kind", choices=list(OF_STD))
    said.add_argument("--crowd", action="store_true")
    said.add_argument("--alignments", action="store_true")
    said.add_argument("--against")
    said.add_argument("--values", action="store_true")
    said.add_argument("program")
    said.add_argument("modes", nargs="*")
    args = said.parse_args()
    modes = args.modes or MODES
    if not set(modes) <= set(MODES):
        said.error("a mode is one of " + ", ".join(MODES))
    if args.crowd and (args.alignments or args.kind == "rw"):
        said.error("a crowd races for spinlocks, and not at each alignment")
    if args.against and (args.crowd or args.alignments):
        said.error("a race against another build has its own threads and alignments")
    if args.values and (args.crowd or args.kind):
        said.error("values have a table of their own")
    with tempfile.TemporaryDirectory() as scratch:
        race_in(scratch, args, modes, [args.kind] if args.kind else list(OF_STD))


def race_in(scratch, args, modes, kinds):
    """The races that the words ask for, with what is compiled for them in this folder."""
    program = os.path.abspath(args.program)
    if args.against:
        race_against(args, modes, SIZES if args.values else kinds, scratch)
        return
    if args.alignments:
        programs = linked(program, scratch, "ours"), linked_plain(scratch)
        print(("%-24s" + "%9s" * 7) % ("race of one thread", "least ns", "middle", "most", "plain", "middle", "most", "ratio"))
        for kind in SIZES if args.values else kinds:
            race_alignments(kind, modes, programs, args.runs, [("work", 1)] if args.values else WORKS)
        return
    plain = os.path.join(scratch, "race")
    compile_plain(plain)
    heads = "race", "lock", "least ns", "middle ns", "least ratio", "middle ratio", "used ns"
    print("%-24s %-16s %10s %10s %12s %12s %10s" % heads)
    if args.values:
        race_values(modes, program, plain, args.runs)
        return
    if args.crowd:
        race_crowds(locks_of("spin", modes, program, plain), args.runs)
        return
    for kind in kinds:
        race_all(kind, locks_of(kind, modes, program, plain), args.runs)


main()
