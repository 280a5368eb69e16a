#!/usr/bin/env python3
"""lockdep_check.py [--events NUMBER]

Gives tools/audits/lockdep small traces, lawful ones, one with each fault, and each that it has to refuse, and compares status and words. The
judge of tools/judge.py audits. Prints failures only, and ends with 1 if there are any. With --events it makes a trace of so many events
instead, has the tool audit it by the program, and prints the answer and the time.
"""
import contextlib
import importlib.machinery
import importlib.util
import io
import random
import re
import sys
import tempfile
import time
from pathlib import Path

sys.dont_write_bytecode = True
HERE = Path(__file__).resolve().parent
sys.path.insert(0, str(HERE.parent))

import judge
from audits import auditor

HEAD = "cpus=4\n\nKernel buffer statistics:\n  Note: \"entries\" are the entries left in the kernel ring buffer and are not\n        recorded in the trace data. They should all be zero.\n\n"
TIMES = "bytes: 3192\noldest event ts: 3\nnow ts: 136\n"
WHOLE = "overrun: 0\ncommit overrun: 0\ndropped events: 0\nread events: 0\n"
# A spinlock that an interrupt waits for, and a reader beside another.
LAWFUL = """\
0 101 d..2. 1 acquire aa &rq->__lock
0 101 d..2. 2 acquired aa &rq->__lock
1 0 d.h2. 3 acquire aa &rq->__lock
0 101 d..2. 4 release aa &rq->__lock
1 0 d.h2. 5 acquired aa &rq->__lock
1 0 d.h2. 6 release aa &rq->__lock
2 102 ...1. 7 acquire bb read tasklist_lock
2 102 ...1. 8 acquired bb tasklist_lock
3 103 ...1. 9 acquire bb try read tasklist_lock
2 102 ...1. 10 release bb tasklist_lock
3 103 ...1. 11 release bb tasklist_lock
"""
TWO = """\
0 101 d..2. 1 acquire aa &rq->__lock
0 101 d..2. 2 acquired aa &rq->__lock
1 102 d..2. {} acquire aa try &rq->__lock
0 101 d..2. 4 release aa &rq->__lock
1 102 d..2. 5 release aa &rq->__lock
"""
RELEASED = LAWFUL + "0 101 d..2. 20 acquire cc console\n0 101 d..2. 21 acquired cc console\n1 102 d..2. 22 release cc console\n2 103 d..2. 23 acquire cc console\n2 103 d..2. 24 acquired cc console\n"
# Takes without a release: before releases are told, behind them, and among them.
WITHOUT = "0 101 d..2. {0} acquire cc x\n0 101 d..2. {0} acquired cc x\n1 102 d..2. {1} acquire cc x\n1 102 d..2. {1} acquired cc x\n"
LATE, EARLY = WITHOUT.format(1, 2) + LAWFUL, LAWFUL + WITHOUT.format(20, 21)
AMONG = EARLY + "1 102 d..2. 22 release cc x\n"
OVERRIDE = LAWFUL + "".join(f"{cpu} {pid} d..2. {at} acquire dd try sched_map-wait-type-override\n" for cpu, pid, at in ((0, 101, 20), (1, 102, 21)))
FOLDED = LAWFUL + "".join(f"0 101 d..2. {20 + at} {verb}\n" for at, verb in enumerate(["acquire bb try read tasklist_lock"] * 2 + ["release bb tasklist_lock"] * 2))
MANY = LAWFUL + "".join(f"0 101 d..2. {20 + 2 * lock} acquire {lock + 256:x} try many\n0 101 d..2. {21 + 2 * lock} release {lock + 256:x} many\n" for lock in range(40))
# The same with other numbers: those of a processor's time stamps, half a microsecond apart, and ticks.
STAMPS, TICKS = (re.sub(r"(?m)^(\S+ \S+ \S+ )(\d+)", lambda found: found[1] + str(number(int(found[2]))), LAWFUL) for number in (lambda at: at * 1500, lambda at: at // 4))
FULL = WHOLE.replace("dropped events: 0", "dropped events: 7")
# Its name, the events, what the statistics say of processor 0, the status, and what is said.
CASES = (
    ("lawful", LAWFUL, WHOLE, 0, "lawful: 8 events told of 11, of 2 locks (1 reader-writer), in 1 history"),
    ("two holders", TWO.format(3), WHOLE, 8, "breach 8 Beside: the lock at aa, &rq->__lock; its last events:\n  2 task 101 takes\n  3 task 102 takes\n  none of"),
    ("two of one number", TWO.format(2), WHOLE, 8, "  drawn twice: 2; the order"),
    ("one number twice, lawful", LAWFUL.replace(" 3 ", " 2 "), WHOLE, 0, "\ndrawn twice: 1 number (an interrupt"),
    ("released by another", RELEASED, WHOLE, 0, "released by another task: console"),
    ("releases told late", LATE, WHOLE, 0, "left out: 2 takes before the first release or behind the last one"),
    ("releases told no more", EARLY, WHOLE, 0, "left out: 2 takes before the first release or behind the last one"),
    ("a take among releases, without one", AMONG, WHOLE, 8, "Beside: the lock at cc, x; its last events:\n  20 task 101 takes\n  21 task 102 takes\n"),
    ("no releases", LAWFUL.replace(" release", " released"), WHOLE, 3, "there is no lock_release"),
    ("a wait override", OVERRIDE, WHOLE, 0, "left out: 2 overrides of wait types"),
    ("folded", FOLDED, WHOLE, 0, "left out: 1 takes by a reader that reads already, folded"),
    ("many locks", MANY, WHOLE, 0, "of 42 locks (1 reader-writer), in 2 histories"),
    ("a full buffer", LAWFUL, FULL, 0, "left out: 7 events behind the end of a full buffer"),
    ("seconds", LAWFUL.replace(" 5 ", " 0.5 "), WHOLE, 3, "the time 0.5 is no counter"),
    ("a time stamp counter", LAWFUL.replace(" 11 ", " 987654321 "), WHOLE, 3, "this is a clock of time"),
    ("time stamps of a busy machine", STAMPS, WHOLE, 3, "the numbers of 11 events span 15000: this is a clock of time, and no counter"),
    ("ticks", TICKS, WHOLE, 3, "8 of 11 events have the number of another: this is a clock of time, and no counter"),
    ("an overrun", LAWFUL, WHOLE.replace("overrun: 0\nc", "overrun: 3\nc"), 3, "processor 0 has lost 3 events (overrun)"),
    ("a commit overrun", LAWFUL, WHOLE.replace("commit overrun: 0", "commit overrun: 2"), 3, "processor 0 has lost 2 events (commit overrun)"),
    ("read in part", LAWFUL, WHOLE.replace("read events: 0", "read events: 1"), 3, "processor 0 has 4 events by its statistics, and 3 were read"),
    ("no statistics", LAWFUL, None, 3, "there are no statistics"),
    ("lost events", LAWFUL + "CPU:1 [LOST 12 EVENTS]\n", WHOLE, 3, "events were lost: CPU:1 [LOST 12 EVENTS]"),
    ("dropped events", "CPU:0 [157 EVENTS DROPPED]\n" + LAWFUL, WHOLE, 3, "events were lost: CPU:0 [157 EVENTS DROPPED]"),
    ("annotations alone", "0 101 d..2. 1 acquire aa map\n0 101 d..2. 2 acquired bb x\n0 101 d..2. 3 release aa map\n", WHOLE, 3, "no take and no release is told"),
    ("no lock statistics", LAWFUL.replace("acquired", "contended"), WHOLE, 3, "there is no lock_acquired"),
)


def in_ftrace(line):
    cpu, pid, flags, at, verb, rest = line.split(" ", 5)
    return f"            name-{pid}     [00{cpu}] {flags}  {at}: lock_{verb}: {rest}\n"


def in_trace_cmd(line):
    cpu, pid, flags, at, verb, rest = line.split(" ", 5)
    return f"    name-{pid}    {cpu}{flags}     {at}: lock_{verb}:         0x{rest}\n"


def shaped(events, shape):
    return "# tracer: nop\n" + "".join(shape(line) if line[0].isdigit() else line + "\n" for line in events.splitlines())


def stats_of(events, first):
    """The statistics, as trace-cmd 3.1.6 prints them: a processor has as many entries as it has lines."""
    if first is None:
        return "cpus=4\n"
    lines = [line for line in events.splitlines() if line[0].isdigit()]
    entries = [sum(line.startswith(f"{cpu} ") for line in lines) for cpu in range(4)]
    parts = [f"CPU: {cpu}\nentries: {entries[cpu]}\n{TIMES}{WHOLE if cpu else first}\n" for cpu in range(4)]
    return HEAD + "".join(parts) + "".join(f"\nCPU{cpu} data recorded at offset=0x{cpu + 1}000\n    4096 bytes in size" for cpu in range(4)) + "\n"


def by_judge(text):
    line = judge.verdict(text.decode())
    return auditor.Answer(8 if line.startswith("breach") else 0, line, f"unlawful line {line.split()[1]}" if line.startswith("breach") else "")


def asked(tool, folder, events, first, shape):
    trace, stat = folder / "trace", folder / "stat"
    trace.write_text(shaped(events, shape))
    stat.write_text(stats_of(events, first))
    said = io.StringIO()
    with contextlib.redirect_stdout(said), contextlib.redirect_stderr(said):
        status = tool.main([str(trace), "--stat", str(stat)])
    return status, said.getvalue()


def failures(tool):
    with tempfile.TemporaryDirectory() as room:
        for name, events, first, status, words in CASES:
            for shape in (in_ftrace, in_trace_cmd):
                found = asked(tool, Path(room), events, first, shape)
                if found[0] != status or words not in found[1]:
                    yield f"lockdep, {name}, {shape.__name__}: wanted {status} and {words!r}, found {found}"


# Of a large trace: tasks, locks, of which each fourth is a reader-writer lock, and how many of a hundred acquires are annotations.
TASKS, LARGE_LOCKS, ANNOTATIONS = 200, 1200, 40


def large(number):
    """So many events of tasks on four processors, of which some hold a lock each: lawful ones."""
    chance, held, readers, at = random.Random(1), {}, {}, 0
    while at < number:
        pid = chance.randrange(TASKS)
        cpu, lock = pid % 4, chance.randrange(LARGE_LOCKS)
        reads, name = lock % 4 == 0 and chance.random() < 0.7, f"{lock:x} {{}}class{lock % 97}"
        if pid in held:
            old, name, reads = held.pop(pid)
            readers[old] = readers[old] - 1 if reads else 0
            verbs = [f"release {name.format('')}"]
        elif chance.randrange(100) < ANNOTATIONS:
            verbs = [f"acquire {lock + 99999:x} map", f"release {lock + 99999:x} map"]
        elif readers.get(lock, 0) == 0 or reads and readers[lock] > 0:
            readers[lock] = readers.get(lock, 0) + 1 if reads else -1
            held[pid] = lock, name, reads
            verbs = [f"acquire {name.format('read ' if reads else '')}", f"acquired {name.format('')}"]
        else:
            continue
        for verb in verbs[: number - at]:
            at += 1
            yield f"{cpu} {pid + 100} d..2. {at} {verb}\n"


def measured(tool, number):
    """What the tool says of a large trace, and how long it takes."""
    with tempfile.TemporaryDirectory() as room:
        trace, stat, entries = Path(room) / "trace", Path(room) / "stat", [0] * 4
        with open(trace, "w") as out:
            for line in large(number):
                entries[int(line[0])] += 1
                out.write(in_trace_cmd(line.rstrip()))
        stat.write_text("".join(f"CPU: {cpu}\nentries: {entries[cpu]}\n{WHOLE}" for cpu in range(4)))
        begun, used = time.monotonic(), time.process_time()
        status = tool.main([str(trace), "--stat", str(stat)])
        seconds = time.monotonic() - begun
    print(f"{seconds:.1f} s, of which {time.process_time() - used:.1f} s of this processor's time: {number / seconds * 60 / 1e6:.1f} million events a minute")
    return status


def main(words):
    if words and (len(words) != 2 or words[0] != "--events" or not words[1].isdigit()):
        print(__doc__.strip())
        return 0 if words[0] in ("-h", "--help") else 2
    loader = importlib.machinery.SourceFileLoader("lockdep", str(HERE / "lockdep"))
    tool = importlib.util.module_from_spec(importlib.util.spec_from_loader("lockdep", loader))
    loader.exec_module(tool)
    if words:
        return measured(tool, int(words[1]))
    auditor.audit = by_judge
    found = list(failures(tool))
    for failure in found:
        print(failure)
    return 1 if found else 0


if __name__ == "__main__":
    sys.exit(main(sys.argv[1:]))
