"""Searches a setup for a deadlock, and makes a trace that ends in it.

The search goes through the schedules in which each operation is made whole, handlers come between operations, and a writer that waits may
say so, which keeps the readers of tasks out. It goes first where the operations of a cycle come nearer. It does not find every deadlock. A
trace is given only if the program's acts confirm it: many more steps of each processor change nothing.
"""
import collections
import heapq
import re
from typing import NamedTuple

import ending
from finder import traces

TRIES, RELEASES = ("try", "tryread", "trywrite"), ("unlock", "runlock", "wunlock")
READS, WRITES = ("read", "tryread"), ("write", "trywrite")
# The most contexts of a processor, and the most states that are looked at.
CONTEXTS, STATES = 6, 100_000
# How far a state counts from a place that it has passed.
FAR = 99
# The most acts that an operation takes where nobody is in its way.
WHOLE = 64
CAUSE = re.compile(r"on processor (\d+) (.+?) waits for lock \d+ at operation (\d+) .*?(?:may interrupt (.+?),.*)?operation (\d+) \(\w+ \d+\)$", re.M)


class Cause(NamedTuple):
    """A line of a cycle: a program of a processor waits at a place, behind the place of an operation of the same or another program."""
    cpu: int
    program: int
    at: int
    below: int
    behind: int

    def distance(self, state):
        """How many acts a state is away from it, about."""
        stack, used, _ = state[self.cpu]
        places = dict(stack)
        if self.program in places:
            left = self.at - places[self.program]
        elif used < self.program and self.below in places:
            left = max(self.behind - places[self.below], 0) + self.program - used + self.at
        else:
            left = -1
        return left if left >= 0 else FAR


def number_of(program):
    """The number of a program: 0 is the task's."""
    return int(program.split()[1]) if program.startswith("handler") else 0


def causes(cycle):
    """The lines of a cycle, each processor once."""
    found = {}
    for cpu, program, at, below, behind in CAUSE.findall(cycle):
        found.setdefault(int(cpu), Cause(int(cpu), number_of(program), int(at) - 1, number_of(below or program), int(behind)))
    return list(found.values())


class Search:
    """A state has, for each processor, its contexts, how many of its handlers have come, and whether it waits as a writer; a context is
    the number of its program and the place of its next operation."""

    def __init__(self, trace, cpus=None):
        """Of these processors alone, if they are given: the others do nothing."""
        self.programs = [[trace.programs.get(cpu, []), *trace.handlers.get(cpu, [])] if cpus is None or cpu in cpus else [[]] for cpu in range(trace.cpus)]

    def left(self, stack, cpu):
        """The contexts without the handlers that are over."""
        while len(stack) > 1 and stack[-1][1] >= len(self.programs[cpu][stack[-1][0]]):
            stack = stack[:-1]
        return stack

    def next(self, state, cpu):
        """The operation that a processor makes next, if there is one."""
        program, at = state[cpu][0][-1]
        ops = self.programs[cpu][program]
        return ops[at] if at < len(ops) else None

    def holds(self, state):
        """How each lock is held: the verbs by which it was acquired."""
        found = collections.defaultdict(list)
        for cpu, (stack, _, _) in enumerate(state):
            for program, at in stack:
                held = {}
                for verb, lock in self.programs[cpu][program][:at]:
                    if verb in RELEASES:
                        held.pop(lock)
                    else:
                        held[lock] = verb
                for lock, verb in held.items():
                    found[lock].append(verb)
        return found

    def is_awaited(self, state, cpu, lock):
        """Whether another processor waits for the lock as a writer."""
        return any(other != cpu and waits and self.next(state, other)[1] == lock for other, (_, _, waits) in enumerate(state))

    def is_free(self, state, cpu, held, verb, lock):
        """Whether an operation can be made now, whole."""
        if verb in RELEASES:
            return True
        if verb == "read" and len(state[cpu][0]) > 1:
            return not any(other in WRITES for other in held[lock])
        taken = any(other in WRITES for other in held[lock]) if verb in READS else held[lock]
        return not taken and not self.is_awaited(state, cpu, lock)

    def moved(self, state, cpu, program, at, waits=False):
        stack, used, _ = state[cpu]
        stack = self.left((*stack[:-1], (program, at)), cpu)
        return (*state[:cpu], (stack, used, waits), *state[cpu + 1 :])

    def acts(self, state):
        """Each act, and the state behind it."""
        held = self.holds(state)
        for cpu, (stack, used, waits) in enumerate(state):
            op, (program, at) = self.next(state, cpu), stack[-1]
            if op and self.is_free(state, cpu, held, *op):
                yield ("step", cpu), self.moved(state, cpu, program, at + 1)
            elif op and op[0] in TRIES:
                ops = self.programs[cpu][program]
                release = next(place for place in range(at + 1, len(ops)) if ops[place][0] in RELEASES and ops[place][1] == op[1])
                yield ("step", cpu), self.moved(state, cpu, program, release + 1)
            elif op and op[0] == "write" and not waits and not self.is_awaited(state, cpu, op[1]):
                yield ("wait", cpu), self.moved(state, cpu, program, at, True)
            if used + 1 < len(self.programs[cpu]) and len(stack) < CONTEXTS and not waits:
                yield ("int", cpu), (*state[:cpu], ((*stack, (used + 1, 0)), used + 1, False), *state[cpu + 1 :])

    def deadlock(self, aims=()):
        """The acts that lead into a deadlock; None if none was found."""
        start = tuple((((0, 0),), 0, False) for _ in self.programs)
        seen, todo = {start: None}, [(0, 0, start)]
        while todo and len(seen) < STATES:
            _, _, state = heapq.heappop(todo)
            following = list(self.acts(state))
            if all(word != "step" for (word, _), _ in following) and any(self.next(state, cpu) for cpu in range(len(state))):
                return self.path(seen, state)
            for act, after in following:
                if after not in seen:
                    seen[after] = act, state
                    heapq.heappush(todo, (sum(cause.distance(after) for cause in aims), len(seen), after))
        return None

    def path(self, seen, state):
        acts = []
        while seen[state]:
            act, state = seen[state]
            acts.append(act)
        return acts[::-1]


def steps_of(trace, cpu, steps):
    """How many steps of a processor, behind the acts of a trace, make its operation whole."""
    lines = steps(trace.text([f"step {cpu} {WHOLE}"])) or []
    for line in lines:
        found = ending.LINE.match(line)
        if int(found[1]) > len(trace.acts) and found[7] and found[7].split()[0] in ending.ENDS and not found[7].split()[1].endswith("w"):
            return int(found[1]) - len(trace.acts)
    return None


def traced(trace, acts, steps):
    """The trace of these acts, behind which everybody goes on until all are stuck; None if they are not."""
    trace = trace.copy()
    trace.acts = []
    for word, cpu in acts:
        count = 1 if word == "int" else WHOLE if word == "wait" else steps_of(trace, cpu, steps)
        if count is None:
            return None
        trace.acts += [("int" if word == "int" else "step", cpu)] * count
    turn = ending.Ending(trace.text(), steps).turn()
    for _ in range(2):
        for cpu in range(trace.cpus):
            trace.acts += [("step", cpu)] * turn
    told = ending.told(trace.text(), steps)
    return trace if any(line.startswith(("stuck: ", "if all go on in turn, they are stuck")) for line in told) else None


def search(text, steps, cycle=""):
    """A trace of this header that ends in a deadlock, made by the processors of the cycle alone if it can be; None if none was found."""
    trace, aims = traces.read(text), causes(cycle)
    for cpus in ({cause.cpu for cause in aims}, None) if aims else (None,):
        acts = Search(trace, cpus).deadlock(aims)
        found = traced(trace, acts, steps) if acts is not None else None
        if found:
            return found
    return None
