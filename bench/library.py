#!/usr/bin/env python3
"""library.py [--runs N] [--alignments] [RACE]

Compares the locks of the C library with a mutex and a spinlock of POSIX threads, with the queued lock of Concurrency Kit where Debian's
libck-dev is installed, and, where a built `lk_race` is named, with the same locks called from Rattle. A turn takes the lock and frees it; in
`work` it raises two numbers in between. Each race is run N times (nine, if not said), all locks in turn, so that they have the same machine.
Printed are the least and the middle nanoseconds a turn, for 1, 2, 4 and 8 threads. Where valgrind is installed, so are the instructions of a
turn of one thread: those of a run of 20,000 turns less those of a run of 10,000, in 10,000 parts.

Two rows tell what any library pays: in `inline` a word is exchanged from 0 to 1 and back in the loop itself, in `calls` by a function each,
and neither tests anything else.

A waiter of the C library yields at each 64th look, and in Rattle by `Backoff`. In `pv` its processor halts when its 32,768 turns are over:
from C it then goes on looking, by the calls of qlock.h; in `pv-sleeps`, by those of qlock_sleep.h, and in Rattle it sleeps. With more
threads than processors a queue gets few turns, since the next in line may not run. Where other work runs beside it, the times are those of
the scheduler.

--alignments in place of these: one thread, and each program linked eight times, with 16, 32, .. 128 bytes of dead code in front, since a
             turn takes up to 3 ns more or less by where its loop stands in the lines of the code. RACE is linked from RACE.o, which
             `rt run` leaves beside it. A race has 300,000 turns. Printed are the middles of the eight links: of the least of the N
             runs of each, and of the middle run of each
"""
import argparse
import os
import random
import re
import shutil
import statistics
import subprocess
import sys
import tempfile
from pathlib import Path

sys.dont_write_bytecode = True

HERE = Path(__file__).resolve().parent
sys.path[:0] = [str(HERE.parent / "library"), str(HERE / "shared")]

from building import compiled
from linking import linked, padded

TURNS = {1: 2000000, 2: 1000000, 4: 1000000, 8: 16000}
OURS = ("virt", "native", "cna", "pv")
SLEEPS = "pv-sleeps"
LEAST = ("inline", "calls")
ALIGNED_TURNS = 300000
KIT = Path("/usr/include/ck_spinlock.h")
# What lies under a lock, and the word of lk_race for it.
WORKS = {"bare": "bare", "work": "spin"}


def locks_of(program, race):
    """For each lock the program, its name there, and the words for what lies under it."""
    found = {f"{name}, C": (program, name, {work: work for work in WORKS}) for name in (*OURS, SLEEPS)}
    if race:
        found.update({f"{name}, Rattle": (race, name, WORKS) for name in OURS})
    others = (*LEAST, "mutex", "spin", *(["mcs"] if KIT.exists() else []))
    return {**found, **{name: (program, name, {work: work for work in WORKS}) for name in others}}


def took(lock, work, threads, turns):
    """The nanoseconds a turn of one race."""
    program, name, words = lock
    processors = sorted(os.sched_getaffinity(0))[:threads]
    asked = [program, name, words[work], str(threads), str(turns // threads)]
    run = subprocess.run(asked, capture_output=True, text=True, preexec_fn=lambda: os.sched_setaffinity(0, processors))
    if run.returncode or "right" not in run.stdout:
        sys.exit(f"library.py: {' '.join(map(str, asked))}: {run.stdout}{run.stderr}")
    return int(re.search(r"(\d+) microseconds", run.stderr)[1]) * 1e3 / (turns // threads * threads)


def instructions(lock, work):
    """The instructions of a turn of one thread."""
    program, name, words = lock
    counts = []
    for turns in ("10000", "20000"):
        asked = ["valgrind", "--tool=callgrind", "--callgrind-out-file=/dev/null", program, name, words[work], "1", turns]
        run = subprocess.run(asked, capture_output=True, text=True)
        counts.append(int(re.search(r"Collected : (\d+)", run.stderr)[1]))
    return (counts[1] - counts[0]) / 10000


def races(locks, runs):
    print("%-16s %-14s %10s %10s" % ("race", "lock", "least ns", "middle ns"))
    for threads in TURNS:
        for work in WORKS:
            times = {name: [] for name in locks}
            for _ in range(runs):
                for name, lock in locks.items():
                    times[name].append(took(lock, work, threads, TURNS[threads]))
            for name, each in times.items():
                title = f"{work}, {threads} thread{'s' * (threads > 1)}"
                print("%-16s %-14s %10.1f %10.1f" % (title, name, min(each), statistics.median(each)), flush=True)


def aligned(folder, flags, race):
    """The locks of each link."""
    programs = [compiled(HERE / "library.c", Path(folder) / f"library{number}", [*flags, "-fuse-ld=bfd", pad]) for number, pad in enumerate(padded(folder))]
    races = linked(os.path.abspath(race), folder, "race") if race else [None] * len(programs)
    return [locks_of(program, race) for program, race in zip(programs, races)]


def races_aligned(links, runs):
    """Races of one thread at each alignment, in an order that is drawn anew each time."""
    times = {(name, work, number): [] for number, locks in enumerate(links) for name in locks for work in WORKS}
    for _ in range(runs):
        for name, work, number in random.sample(list(times), len(times)):
            times[name, work, number].append(took(links[number][name], work, 1, ALIGNED_TURNS))
    print("%-16s %-14s %10s %10s" % ("race", "lock", "of least", "of middle"))
    for work in WORKS:
        for name in links[0]:
            each = [times[name, work, number] for number in range(len(links))]
            print("%-16s %-14s %10.1f %10.1f" % (work, name, *(statistics.median(map(of, each)) for of in (min, statistics.median))), flush=True)


def main():
    said = argparse.ArgumentParser(usage=__doc__)
    said.add_argument("--runs", type=int, default=9)
    said.add_argument("--alignments", action="store_true")
    said.add_argument("race", nargs="?")
    asked = said.parse_args()
    flags = ["-DWITH_CK"] if KIT.exists() else []
    with tempfile.TemporaryDirectory() as folder:
        if asked.alignments:
            races_aligned(aligned(folder, flags, asked.race), asked.runs)
            return
        program = compiled(HERE / "library.c", Path(folder) / "library", flags)
        locks = locks_of(program, asked.race and os.path.abspath(asked.race))
        races(locks, asked.runs)
        if shutil.which("valgrind"):
            for name, lock in locks.items():
                print("%-16s %-14s %10.1f instructions a turn" % ("bare, 1 thread", name, instructions(lock, "bare")))


if __name__ == "__main__":
    main()
