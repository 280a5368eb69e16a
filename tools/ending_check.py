#!/usr/bin/env python3
"""ending_check.py [--seed S] COUNT STEPS

Makes COUNT random traces of all families, with readers and writers, interrupts, preemption and nudges, takes the traces of examples/ to
them, and asks of what tools/ending.py says of each how it ends:

- a lock is said to be held exactly if its word says so, at the end;
- who is said to wait for a lock acquires that one, or fails in a try of it, before any other, once all are resumed and everybody goes on
  in turn; and the context that is said to run is the one that acts next;
- nothing is said exactly if every processor is finished;
- a run is said to be stuck exactly if steps in random orders change nothing, and then none of them has an event.

STEPS is the program that writes a trace's acts. Prints what is wrong, and how many endings of each kind there were; ends with 1 if
anything is wrong, or if a kind is missing among 200 traces or more.
"""
import argparse
import random
import re
import sys
from collections import Counter
from pathlib import Path

sys.dont_write_bytecode = True

import ending
from finder import traces

EXAMPLES = Path(__file__).resolve().parent.parent / "examples"
FAMILIES = [(mode, rw) for mode in ("virt", "native", "cna", "pv") for rw in (0, 1)]
# Rounds in which everybody goes on, and how many steps of each; and the random orders that are tried of a run that is stuck.
ROUNDS, TURN, ORDERS = 60, 40, 3
KINDS = ("done", "waits", "stuck")


def options(draw):
    mode, rw = draw.choice(FAMILIES)
    return argparse.Namespace(
        mode=mode, rw=rw, locks=draw.choice((1, 2)), cpus=draw.choice((2, 3, 4)), sockets=2, threshold=2, spins=2, operations=draw.choice((1, 2)),
        interrupts=draw.choice((0, 1, 2)), acts=draw.choice((0, 8, 20, 40)), preempt=draw.random() < 0.3, nudges=mode == "pv" and draw.random() < 0.3, header=None)


def crossed(trace, draw):
    """Some programs take two locks in the other order, so that runs get stuck."""
    for ops in trace.all_programs():
        if len(trace.kinds) > 1 and trace.kinds[:2] == ["spin", "spin"] and draw.random() < 0.5:
            first = draw.randrange(2)
            ops[:] = [("lock", first), ("lock", 1 - first), ("unlock", 1 - first), ("unlock", first)]
    return trace


def drawn(seed):
    draw = random.Random(seed)
    maker = traces.Maker(options(draw), seed)
    trace = crossed(maker.header(), draw)
    trace.acts = list(maker.acts(trace))
    return trace.text()


class Wrong(Exception):
    pass


def hold(is_so, what):
    if not is_so:
        raise Wrong(what)


def words_at_end(lines):
    """The last value of each lock's word."""
    found = {}
    for line in lines:
        name = re.search(r" lock (\S+) \(([^)]*)\)(?: -> \(([^)]*)\))?", line)
        if name:
            found[name[1]] = (name[3] or name[2]).split(",")
    return found


def is_held(name, kinds, word):
    if name.endswith("w") or kinds[int(name)] == "spin":
        return word[2] != "0"
    return True if word[2] != "0" else None if word[0] != "0" else False


def check_words(found, lines, kinds):
    for name, word in words_at_end(lines).items():
        held = is_held(name, kinds, word)
        said = bool(found.then.holders(name))
        # Readers that wait are counted in the word too.
        hold(held is None or held == said, f"lock {name} has the word {word}, and its holders are {found.then.holders(name)}")


def later(found, steps):
    """The lines behind the end, once all are resumed and go on in turn, with nudges in pv."""
    cpus = range(found.then.cpus)
    more = [f"res {cpu}" for cpu in cpus]
    for _ in range(ROUNDS):
        more += [f"step {cpu} {TURN}" for cpu in cpus]
        more += [f"nudge {cpu}" for cpu in cpus if found.then.mode == "pv"]
    lines = steps("\n".join([*found.body, *more, "end", ""]))
    return [line for line in lines if int(re.match(r"\d+", line)[0]) > found.acts]


def first_ends(lines):
    """Of each waiter the first event that ends an operation on a lock."""
    ends = {}
    for line in lines:
        _, _, cpu, context, _, _, event = ending.LINE.match(line).groups()
        verb, *words = (event or "none").split()
        if verb in ending.ENDS and not words[0].endswith("w"):
            ends.setdefault((int(cpu), int(context)), (verb, words[0]))
    return ends


def check_tops(found, lines):
    """The context that is said to run is the one that acts next."""
    tops = {}
    for line in reversed(lines):
        _, _, cpu, context, *_ = ending.LINE.match(line).groups()
        tops[int(cpu)] = int(context)
    for cpu, context in tops.items():
        hold(found.then.stacks[cpu] == context, f"{cpu}.{found.then.stacks[cpu]} is said to run, and {cpu}.{context} acts next")


def check_waits(found, steps):
    lines = later(found, steps)
    check_tops(found, lines)
    ends = first_ends(lines)
    for frame in found.then.living():
        if frame.waits and frame.who in ends:
            verb, lock = ends[frame.who]
            hold(lock == frame.waits and verb in (*ending.TAKES, "miss"), f"{frame.who} waits for lock {frame.waits}, and its next operation ends by {verb} {lock}")
        if frame.who in ends and not frame.waits and not frame.held:
            hold(ends[frame.who][0] in (*ending.TAKES, "miss"), f"{frame.who} holds nothing, and its next operation ends by {ends[frame.who]}")
        hold(frame.waits not in frame.held, f"{frame.who} waits for lock {frame.waits}, and holds it")
        for lock in frame.held:
            hold(found.then.holders(lock) and frame.who in found.then.holders(lock), f"{frame.who} holds lock {lock}, by its own events alone")


def check_stuck(found, steps, draw, is_said):
    """A run that is stuck stays so in any order of steps; one that is not does something."""
    changes = 0
    for _ in range(ORDERS):
        more = [f"step {draw.randrange(found.then.cpus)} {draw.randint(1, 30)}" for _ in range(60)]
        world = ending.World(found.header)
        for line in steps("\n".join([*found.body, *more, "end", ""])):
            changed = world.take(line)
            changes += changed and int(ending.LINE.match(line)[1]) > found.acts
    hold(not (is_said and changes), "it is said to be stuck, and another order of steps changes something")
    hold(is_said or changes or all(map(ending.is_done, found.next.values())) or found.then.preempted, "nothing changes in any order of steps, and it is not said to be stuck")


def check(text, steps, draw):
    """What kind of ending it is."""
    found = ending.Ending(text, steps)
    hold(found.look(), "the program refuses it")
    lines = ending.Telling(found).lines()
    check_words(found, steps(text), judge_kinds(found.header))
    check_waits(found, steps)
    is_stuck = any(line.startswith("stuck") for line in lines)
    check_stuck(found, steps, draw, is_stuck)
    done = all(map(ending.is_done, found.next.values()))
    hold(done == (not lines) or bool(lines) and not done, f"every processor is finished: {done}, and it says {lines}")
    return "stuck" if is_stuck else "waits" if lines else "done"


def judge_kinds(header):
    return [line.split()[2] for line in header if line.split()[:1] == ["lock"]]


def main():
    said = argparse.ArgumentParser(usage=__doc__)
    said.add_argument("--seed", type=int, default=1)
    said.add_argument("count", type=int)
    said.add_argument("steps")
    given = said.parse_args()
    steps, kinds, wrong = ending.steps_by(given.steps), Counter(), 0
    texts = [(path.name, path.read_text()) for path in sorted(EXAMPLES.glob("*.qtrace"))]
    texts += ((f"trace {number} of seed {given.seed}", drawn(given.seed * 1_000_003 + number)) for number in range(given.count))
    for name, text in texts:
        try:
            kinds[check(text, steps, random.Random(name))] += 1
        except Wrong as found:
            wrong += 1
            print(f"{name}: {found}\n{text}")
    missing = [kind for kind in KINDS if given.count >= 200 and not kinds[kind]]
    print(f"{sum(kinds.values())} endings, {wrong} wrong: {dict(kinds)}{' but none of ' + ', '.join(missing) if missing else ''}")
    return 1 if wrong or missing else 0


if __name__ == "__main__":
    sys.exit(main())
