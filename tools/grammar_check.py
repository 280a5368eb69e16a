#!/usr/bin/env python3
"""grammar_check.py [--seed S] N PROGRAM

Changes the inputs of examples/ at random, N times, gives each to PROGRAM, a built qlock, and compares the line and the fault that it
names with those that tools/grammar.py finds by itself. Prints those on which they differ, and how often each fault came; it ends with
1 if any differ.
"""
import argparse
import random
import re
import subprocess
import sys
from collections import Counter
from pathlib import Path

sys.dont_write_bytecode = True

import grammar

EXAMPLES = Path(__file__).resolve().parent.parent / "examples"
KINDS = {"replay": ("*.qtrace", "refusals/*.qtrace"), "osq": ("osq/*.qosq", "osq/refusals/*.qosq"), "ledger": ("ledger/*.qjobs", "ledger/refusals/*.qjobs")}
NOTE = re.compile(r"(?:bad input|limit) line (\d+): (\w+)")
WORDS = """qtrace qosq qjobs mode cpus sockets threshold spins lock prog irq go step int pre res nudge end give guard workers accounts job move
add sum get spin rw virt native cna pv try unlock read tryread runlock write trywrite wunlock # x -1 0 1 2 3 4 5 16 17 32 63 64 65 00001 1024
65536 100000001 9223372036854775808 18446744073709551615 18446744073709551616""".split()
BYTES = (9, 13, 32, 0, 127, 200)


def inputs(patterns):
    return [path.read_bytes() for pattern in patterns for path in sorted(EXAMPLES.glob(pattern))]


def change_word(draw, line):
    words = line.split(b" ")
    at = draw.randrange(len(words))
    word = draw.choice(WORDS).encode()
    return b" ".join(draw.choice((words[:at] + [word] + words[at + 1 :], words[:at] + [word] + words[at:], words[:at] + words[at + 1 :])))


def changed(draw, data):
    """The input with a line or a word of it changed, a few times."""
    lines = data.split(b"\n")
    for _ in range(draw.choice((1, 1, 1, 2, 3))):
        at, other = draw.randrange(len(lines)), draw.randrange(len(lines))
        kind = draw.randrange(8)
        if kind < 3:
            lines[at] = change_word(draw, lines[at])
        elif kind == 3:
            lines.insert(at, lines[other])
        elif kind == 4:
            lines[at], lines[other] = lines[other], lines[at]
        elif kind == 5:
            lines[at] += bytes([draw.choice(BYTES)])
        elif kind == 6 and len(lines) > 1:
            del lines[at]
        else:
            lines = lines[: at + 1]
    return b"\n".join(lines)


def by_program(program, word, data):
    run = subprocess.run([program, word], input=data, capture_output=True, timeout=60)
    found = NOTE.fullmatch(run.stderr.decode().strip())
    return found and (int(found[1]), found[2])


def by_grammar(word, data):
    try:
        grammar.read(word, data)
    except grammar.Refused as refused:
        return refused.line, refused.fault
    return None


def main():
    said = argparse.ArgumentParser(usage=__doc__)
    said.add_argument("--seed", type=int, default=1)
    said.add_argument("runs", type=int)
    said.add_argument("program")
    args = said.parse_args()
    draw, faults, differ = random.Random(args.seed), Counter(), 0
    given = {word: inputs(patterns) for word, patterns in KINDS.items()}
    for number in range(args.runs):
        word = draw.choice(("replay", "replay", "osq", "ledger"))
        data = changed(draw, draw.choice(given[word]))
        program, ours = by_program(args.program, word, data), by_grammar(word, data)
        faults[program[1] if program else "none"] += 1
        if program != ours:
            differ += 1
            print(f"run {number}, {word}: the program says {program}, the grammar {ours}, of {data!r}"[:2000])
    print(f"{args.runs} runs from seed {args.seed}, {differ} differ: {dict(faults)}")
    return 1 if differ else 0


if __name__ == "__main__":
    sys.exit(main())
