"""Compares the transcripts of random runs on Linux's code with those that qlock writes for the same traces, byte for byte, and has
qlock audit Linux's own."""
import concurrent.futures
import os
import subprocess
from typing import NamedTuple


class Compared(NamedTuple):
    name: str
    ending: str        # how the run ended
    causes: list       # of differences, that it met
    same: bool
    difference: str    # the first one
    verdict: str       # `lawful`, or what the audit of Linux's transcript answered; of the queue's runs none


def answer(program, word, text):
    """What the program writes; where it does not end with 0 its note stands behind it."""
    done = subprocess.run([program, word], input=text, capture_output=True)
    return done.stdout if done.returncode == 0 else done.stdout + done.stderr


def first_difference(linux, ours):
    pairs = zip(linux.split(b"\n") + [b"(no line)"], ours.split(b"\n") + [b"(no line)"])
    for number, (one, other) in enumerate(pairs, 1):
        if one != other:
            return "line %d: Linux %s, qlock %s" % (number, one.decode(), other.decode())
    return "none"


def audit(program, trace, linux):
    """The verdict on Linux's transcript behind the header of its trace."""
    header = trace[:trace.index(b"\ngo\n") + len(b"\ngo\n")]
    events = linux.split(b"\n").index(next(line for line in linux.split(b"\n") if line.startswith(b"end ")))
    told = answer(program, "audit", header + linux)
    return "lawful" if told == b"lawful %d\n" % events else told.decode().strip()


def compare_one(program, word, folder, line):
    name, ending, *causes = line.split()
    with open(os.path.join(folder, name + ".trace"), "rb") as written:
        trace = written.read()
    with open(os.path.join(folder, name + ".linux"), "rb") as written:
        linux = written.read()
    ours = answer(program, word, trace)
    verdict = audit(program, trace, linux) if word == "replay" else ""
    return Compared(name, ending, causes, linux == ours, "" if linux == ours else first_difference(linux, ours), verdict)


def compare(program, word, folder):
    """One Compared for each run of the folder."""
    with open(os.path.join(folder, "index")) as index:
        lines = index.read().splitlines()
    with concurrent.futures.ThreadPoolExecutor(2) as pool:
        yield from pool.map(lambda line: compare_one(program, word, folder, line), lines)
