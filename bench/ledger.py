#!/usr/bin/env python3
"""ledger.py [--runs N] [--jobs N] [--workers N] [--accounts N] [--mode MODE] [--guard KIND] PROGRAM

Measures `PROGRAM ledger` beside the plain peer in ledger.rs, which does the same under a `std::sync::Mutex`: the same job file is
given to both in turn, N times (eleven, if not said), and the least and the median of the times by the clock are printed, with their
ratio. The file has a hundred thousand jobs on four workers and eight accounts, if not said otherwise: four of ten move, two add, two
sum, two get. What both write for a fiftieth of the jobs is judged by tools/ledger_check.py first. The peer is built by `rustc -O`.
"""
import argparse
import os
import random
import statistics
import subprocess
import sys
import tempfile
import time

HERE = os.path.dirname(os.path.abspath(__file__))
CHECK = os.path.join(HERE, "..", "tools", "ledger_check.py")


def job_file(mode, guard, jobs, workers, accounts, seed=5):
    draw = random.Random(seed)
    lines = ["qjobs 1", "mode " + mode, "guard " + guard, "workers %d" % workers, "accounts " + " ".join(["1000"] * accounts)]
    for _ in range(jobs):
        worker, one, other = draw.randrange(workers), draw.randrange(accounts), draw.randrange(accounts)
        said = draw.choice(["move %d %d %d" % (one, other, draw.randrange(50))] * 4 + ["add %d %d" % (one, draw.randrange(50))] * 2
                           + ["sum"] * 2 + ["get %d" % one] * 2)
        lines.append("job %d %s" % (worker, said))
    return "\n".join(lines + ["end", ""])


def timed(command, given, out):
    with open(given, "rb") as source, open(out, "wb") as sink:
        began = time.perf_counter()
        subprocess.run(command, stdin=source, stdout=sink, check=True)
        return (time.perf_counter() - began) * 1000


def main():
    said = argparse.ArgumentParser(usage=__doc__)
    for name, value in (("--runs", 11), ("--jobs", 100000), ("--workers", 4), ("--accounts", 8)):
        said.add_argument(name, type=int, default=value)
    said.add_argument("--mode", default="virt")
    said.add_argument("--guard", default="spin")
    said.add_argument("program")
    args = said.parse_args()
    with tempfile.TemporaryDirectory() as folder:
        peer, given, out = (os.path.join(folder, name) for name in ("peer", "jobs.qjobs", "outcome"))
        subprocess.run(["rustc", "-O", "-o", peer, os.path.join(HERE, "ledger.rs")], check=True)
        commands = {"qlock ledger": [args.program, "ledger"], "plain, Mutex": [peer]}
        with open(given, "w") as file:
            file.write(job_file(args.mode, args.guard, args.jobs // 50, args.workers, args.accounts))
        for command in commands.values():
            timed(command, given, out)
            subprocess.run([sys.executable, CHECK, given, out], check=True)
        with open(given, "w") as file:
            file.write(job_file(args.mode, args.guard, args.jobs, args.workers, args.accounts))
        times = {name: [] for name in commands}
        for _ in range(args.runs):
            for name, command in commands.items():
                times[name].append(timed(command, given, out))
        least = {name: min(each) for name, each in times.items()}
        for name, each in times.items():
            print("%-14s least %7.1f ms   median %7.1f ms   %5.2f times the peer" % (
                name, least[name], statistics.median(each), least[name] / least["plain, Mutex"]))


if __name__ == "__main__":
    main()
