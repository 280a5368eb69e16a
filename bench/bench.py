#!/usr/bin/env python3
"""bench.py [--runs N] [--keep FOLDER] PROGRAM

Measures a built qlock: makes its traces and runs, replays each of them N times (five, if not said), and prints for each the best
user and system time, that time per act and per line, and the peak memory; and, where valgrind is there, the instructions of one
more run, in millions, which do not depend on what else the machine does. Output goes to a file that is thrown away.

looks     one holder and one waiter that looks ten million times; in `pv` it looks whether it may steal, behind a front that has
          halted
lines     a million lines `step p 1`
short     ten thousand such lines: the memory must not depend on the length of a schedule
busy      64 processors on four locks, in odd bursts, so that the locks are contended. Handlers take the locks of the tasks
          that they interrupt, so that in the second half of the acts no lock is taken any more, and all only look; in `virt`,
          where no handlers come, the programs end early, and most acts are idle; in `pv` a nudge comes at every sixteenth burst
          or so
rounds    the same processors and bursts; a handler comes only when the program before it has ended, so that no processor waits
          for itself and every program ends; who ends early is idle until the next round, and in `pv` who has halted until the
          kick
rw        as `rounds`, on four reader-writer locks, a quarter of the operations as a writer
Two are runs of the optimistic spin queue, by the word `osq`:
looks     one holder and one waiter that looks at its flag ten million times
gives     64 processors of 64 rounds, in odd bursts; at every ninety-sixth or so one is asked to give up, so that most of a million
          acts are those of waiters, some of which quit
gen       `gen 7` two hundred times, less the time of as many runs that get the usage line: what the text takes, and how fast it is
In `cna` the 64 processors of `busy`, `rounds` and `rw` stand on four sockets, with a threshold of 16; in `pv` a waiter spins four turns
there.
"""
import os
import re
import resource
import shutil
import subprocess
import sys
import tempfile
import time

MODULUS = 2147483647


def draws(seed):
    x = seed
    while True:
        x = 48271 * x % MODULUS
        yield x


def header(mode, cpus, locks, kind="spin", sockets=1, threshold=None, spins=None):
    out = ["qtrace 1", "mode " + mode, "cpus %d" % cpus]
    if sockets > 1:
        out.append("sockets " + " ".join(str(p * sockets // cpus) for p in range(cpus)))
    if threshold is not None:
        out.append("threshold %d" % threshold)
    if spins is not None:
        out.append("spins %d" % spins)
    return out + ["lock %d %s" % (i, kind) for i in range(locks)]


def programs(cpus, pairs):
    return ["prog %d %s" % (p, " ".join("lock %d unlock %d" % (l, l) for l in pairs(p))) for p in range(cpus)]


def contended(mode, kind):
    """The header of 64 processors on four locks; in `cna` they stand on four sockets, in `pv` they spin four turns."""
    more = {"cna": {"sockets": 4, "threshold": 16}, "pv": {"spins": 4}}
    return header(mode, 64, 4, kind, **more.get(mode, {}))


def looks(mode):
    if mode == "pv":
        return header(mode, 3, 1, spins=1) + programs(3, lambda p: [0]) + ["go", "step 0 1", "step 1 14", "step 2 10000000", "end"], 10000015
    return header(mode, 2, 1) + programs(2, lambda p: [0]) + ["go", "step 0 1", "step 1 10000000", "end"], 10000001


def lines(mode, count=1000000):
    d = draws(11)
    pairs = {p: [next(d) % 4 for _ in range(32)] for p in range(64)}
    return header(mode, 64, 4) + programs(64, pairs.get) + ["go"] + ["step %d 1" % (next(d) % 64) for _ in range(count)] + ["end"], count


def busy(mode, bursts=150000):
    d = draws(7)
    pairs = {p: [next(d) % 4 for _ in range(32)] for p in range(64)}
    out = contended(mode, "spin") + programs(64, pairs.get)
    if mode != "virt":
        for _ in range(16):
            out += ["irq %d %s" % (p, " ".join("lock {0} unlock {0}".format(next(d) % 4) for _ in range(32))) for p in range(64)]
    out.append("go")
    acts = 0
    for _ in range(bursts):
        p = next(d) % 64
        if next(d) % 64 == 0:
            out.append("int %d" % p)
            acts += 1
        if mode == "pv" and next(d) % 16 == 0:
            out.append("nudge %d" % (next(d) % 64))
            acts += 1
        out.append("step %d 7" % p)
        acts += 7
    return out + ["end"], acts


def rounds_of(mode, kind, pair, rounds, bursts):
    """Each processor runs one program, and then a handler in each further round. In each mode all end in their round."""
    d = draws(13)
    parts = [["%s %d %s" % ("prog" if r == 0 else "irq", p, " ".join(pair(d) for _ in range(32))) for p in range(64)] for r in range(rounds)]
    out = contended(mode, kind) + [line for part in parts for line in part] + ["go"]
    for r in range(rounds):
        out += ["int %d" % p for p in range(64) if r > 0]
        out += ["step %d 7" % (next(d) % 64) for _ in range(bursts)]
    return out + ["end"], 64 * (rounds - 1) + 7 * rounds * bursts


def spin_pair(d):
    return "lock {0} unlock {0}".format(next(d) % 4)


def rw_pair(d):
    return ("write {0} wunlock {0}" if next(d) % 4 == 0 else "read {0} runlock {0}").format(next(d) % 4)


def rounds(mode):
    return rounds_of(mode, "spin", spin_pair, *{"virt": (16, 4500), "native": (4, 38000), "cna": (3, 58000), "pv": (4, 44000)}[mode])


def rw(mode):
    return rounds_of(mode, "rw", rw_pair, 5, 25000)


def osq_header(cpus, rounds):
    return ["qosq 1", "cpus %d" % cpus] + ["prog %d %d" % (p, rounds) for p in range(cpus)] + ["go"]


def osq_looks():
    return osq_header(2, 1) + ["step 0 2", "step 1 4", "step 1 10000000", "end"], 10000006


def osq_gives(bursts=143000):
    d = draws(17)
    out, acts = osq_header(64, 64), 0
    for _ in range(bursts):
        p = next(d) % 64
        if next(d) % 96 == 0:
            out.append("give %d" % (next(d) % 64))
            acts += 1
        out.append("step %d 7" % p)
        acts += 7
    return out + ["end"], acts


TRACES = {"looks": looks, "lines": lines, "short": lambda mode: lines(mode, 10000), "busy": busy, "rounds": rounds, "rw": rw}
RUNS = {"looks": osq_looks, "gives": osq_gives}


def inputs():
    """Each input: its name, the word that it is for, its lines, and how many acts it has."""
    for mode in ("virt", "native", "cna", "pv"):
        for name, make in TRACES.items():
            yield ("%s-%s" % (name, mode), "replay", *make(mode))
    for name, make in RUNS.items():
        yield ("%s-osq" % name, "osq", *make())


def peak_memory(pid):
    """The peak memory of a process so far, in KiB; 0 where it has ended. The kernel's figure of a child counts what its parent had."""
    try:
        with open("/proc/%d/status" % pid) as status:
            return max([int(line.split()[1]) for line in status if line.startswith("VmHWM:")], default=0)
    except OSError:
        return 0


def measure(program, word, path):
    """One run: its status, its note, its user and system time in seconds, and its peak memory in KiB."""
    with open(path, "rb") as source, tempfile.TemporaryFile() as sink, tempfile.TemporaryFile() as notes:
        child = subprocess.Popen([program, word], stdin=source, stdout=sink, stderr=notes)
        memory, ended = 0, 0
        while not ended:
            memory = max(memory, peak_memory(child.pid))
            ended, status, usage = os.wait4(child.pid, os.WNOHANG)
            time.sleep(0.0002)
        child.returncode = os.waitstatus_to_exitcode(status)
        notes.seek(0)
        return child.returncode, notes.read(), usage.ru_utime + usage.ru_stime, memory


def spent(command, times, sink):
    """The user and system time of so many runs, in seconds; each writes the file anew."""
    before = resource.getrusage(resource.RUSAGE_CHILDREN)
    for _ in range(times):
        sink.seek(0)
        sink.truncate()
        subprocess.run(command, stdin=subprocess.DEVNULL, stdout=sink, stderr=subprocess.DEVNULL)
    after = resource.getrusage(resource.RUSAGE_CHILDREN)
    return after.ru_utime + after.ru_stime - before.ru_utime - before.ru_stime


def gen(program, runs, times=200):
    """The bytes of `gen 7`, and the best time that its text takes beside what a run without words takes, in seconds."""
    with tempfile.TemporaryFile() as sink:
        best = min(spent([program, "gen", "7"], times, sink) - spent([program], times, tempfile.TemporaryFile()) for _ in range(runs))
        return sink.seek(0, os.SEEK_END), max(best, 1e-9) / times


def instructions(program, word, path):
    """The instructions of one run by valgrind, in millions; None where there is no valgrind, or it did not say."""
    if shutil.which("valgrind") is None:
        return None
    with open(path, "rb") as source:
        command = ["valgrind", "--tool=callgrind", "--callgrind-out-file=/dev/null", program, word]
        run = subprocess.run(command, stdin=source, stdout=subprocess.DEVNULL, stderr=subprocess.PIPE, text=True)
    told = re.search(r"Collected : (\d+)", run.stderr)
    return int(told[1]) / 1e6 if told else None


def main(argv):
    runs, keep = 5, None
    if argv[:1] in (["-h"], ["--help"]):
        return print(__doc__.strip())
    while argv and argv[0].startswith("--"):
        option = argv.pop(0)
        if option == "--runs" and argv:
            runs = int(argv.pop(0))
        elif option == "--keep" and argv:
            keep = argv.pop(0)
        else:
            sys.exit(__doc__)
    if len(argv) != 1:
        sys.exit(__doc__)
    program = os.path.abspath(argv[0])
    print("%-14s %10s %10s %10s %9s %9s %9s %9s" % ("trace", "acts", "lines", "seconds", "ns/act", "ns/line", "KiB", "M instr."))
    with tempfile.TemporaryDirectory() as scratch:
        folder = keep or scratch
        os.makedirs(folder, exist_ok=True)
        for name, word, text, acts in inputs():
            path = os.path.join(folder, "%s.%s" % (name, "qosq" if word == "osq" else "qtrace"))
            with open(path, "w") as f:
                f.write("\n".join(text) + "\n")
            results = [measure(program, word, path) for _ in range(runs)]
            bad = [r for r in results if r[0] != 0]
            if bad:
                print("%-14s status %d: %s" % (name, bad[0][0], bad[0][1].decode().strip()))
                continue
            seconds, memory = min(r[2] for r in results), max(r[3] for r in results)
            count = instructions(program, word, path)
            told = "" if count is None else "%.1f" % count
            figures = (name, acts, len(text), seconds, seconds / acts * 1e9, seconds / len(text) * 1e9, memory, told)
            print("%-14s %10d %10d %10.3f %9.1f %9.1f %9d %9s" % figures, flush=True)
    size, seconds = gen(program, runs)
    print("%-14s %d bytes in %.3f milliseconds, %.0f MB/s" % ("gen", size, seconds * 1e3, size / seconds / 1e6))


main(sys.argv[1:])
