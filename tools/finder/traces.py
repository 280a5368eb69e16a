"""Traces as they are searched and shrunk: a header, and a list of acts, each a word and a processor."""
import copy
import itertools
import random

TAKES = {"lock": "unlock", "try": "unlock", "read": "runlock", "tryread": "runlock", "write": "wunlock", "trywrite": "wunlock"}
CHOICES = {"spin": (["lock", "try"], [5, 1]), "rw": (["read", "write", "tryread", "trywrite"], [4, 4, 1, 1])}


class Trace:
    """`programs` has the operations of each processor, `handlers` those of each of its handlers; an operation is a verb and a lock."""

    def __init__(self, mode, cpus):
        self.format, self.mode, self.cpus = 1, mode, cpus
        self.sockets, self.threshold, self.spins = None, None, None
        self.kinds, self.programs, self.handlers, self.acts = [], {}, {}, []

    def copy(self):
        return copy.deepcopy(self)

    def header(self):
        lines = [f"qtrace {self.format}", f"mode {self.mode}", f"cpus {self.cpus}"]
        if self.sockets:
            lines.append("sockets " + " ".join(map(str, self.sockets)))
        lines += [f"{name} {value}" for name, value in (("threshold", self.threshold), ("spins", self.spins)) if value is not None]
        lines += [f"lock {number} {kind}" for number, kind in enumerate(self.kinds)]
        lines += [f"prog {cpu} {spelled(ops)}" for cpu, ops in sorted(self.programs.items()) if ops]
        lines += [f"irq {cpu} {spelled(ops)}" for cpu, all_ops in sorted(self.handlers.items()) for ops in all_ops]
        return lines + ["go"]

    def schedule(self):
        """The lines of the schedule, each with how many acts it is."""
        for (word, cpu), group in itertools.groupby(self.acts):
            count = len(list(group))
            if word == "step":
                yield f"step {cpu} {count}", count
            else:
                yield from [(f"{word} {cpu}", 1)] * count

    def text(self, acts=()):
        """The trace, and behind its acts these lines of a schedule."""
        return "\n".join([*self.header(), *(line for line, _ in self.schedule()), *acts, "end", ""])

    def all_programs(self):
        yield from self.programs.values()
        for handlers in self.handlers.values():
            yield from handlers


def spelled(ops):
    return " ".join(f"{verb} {lock}" for verb, lock in ops)


def read(text):
    """The header of a trace, without a schedule."""
    trace = Trace("virt", 1)
    for first, *rest in (line.split() for line in text.splitlines() if line.split()):
        if first == "go":
            break
        numbers = [int(word) for word in rest if word.isdigit()]
        if first in ("cpus", "threshold", "spins"):
            setattr(trace, first, numbers[0])
        elif first == "qtrace":
            trace.format = numbers[0]
        elif first == "mode":
            trace.mode = rest[0]
        elif first == "sockets":
            trace.sockets = numbers
        elif first == "lock":
            trace.kinds.append(rest[1])
        elif first == "prog":
            trace.programs[numbers[0]] = operations(rest[1:])
        elif first == "irq":
            trace.handlers.setdefault(numbers[0], []).append(operations(rest[1:]))
    return trace


def operations(words):
    return [(verb, int(lock)) for verb, lock in zip(words[::2], words[1::2])]


class Maker:
    """Makes random traces as the options say."""

    def __init__(self, options, seed):
        self.options, self.random = options, random.Random(seed)
        self.given = read(options.header) if options.header else None

    def program(self, kinds, most):
        """Operations on locks in rising order, some of them nested, so that programs alone cannot deadlock."""
        ops, open_locks = [], []
        for _ in range(self.random.randint(1, most)):
            low = open_locks[-1][1] + 1 if open_locks else 0
            if open_locks and (low >= len(kinds) or self.random.random() < 0.7):
                verb, lock = open_locks.pop()
                ops.append((TAKES[verb], lock))
                low = open_locks[-1][1] + 1 if open_locks else 0
            if low < len(kinds):
                lock = self.random.randrange(low, len(kinds))
                verbs, weights = CHOICES[kinds[lock]]
                open_locks.append((self.random.choices(verbs, weights)[0], lock))
                ops.append(open_locks[-1])
        return ops + [(TAKES[verb], lock) for verb, lock in reversed(open_locks)]

    def header(self):
        options = self.options
        trace = Trace(options.mode, self.random.randint(2, options.cpus))
        trace.kinds = ["spin"] * options.locks + ["rw"] * options.rw
        if options.mode == "cna":
            trace.sockets = [self.random.randrange(options.sockets) for _ in range(trace.cpus)]
            trace.threshold = options.threshold
        if options.mode == "pv":
            trace.spins = options.spins
        for cpu in range(trace.cpus):
            trace.programs[cpu] = self.program(trace.kinds, options.operations)
            trace.handlers[cpu] = [self.program(trace.kinds, 2) for _ in range(options.interrupts)]
        return trace

    def trace(self):
        trace = self.given.copy() if self.given else self.header()
        trace.acts = list(self.acts(trace))
        return trace

    def extended(self, begun):
        """A trace that begins with the acts of another one."""
        trace = begun.copy()
        trace.acts += list(self.acts(begun))
        return trace

    def acts(self, trace):
        """Bursts of one processor's steps, of a mean length that is drawn for the whole trace, and other acts between them. They come
        behind the acts that the trace has."""
        mean = self.random.choice([1, 2, 4, 8])
        left = {cpu: len(handlers) - trace.acts.count(("int", cpu)) for cpu, handlers in trace.handlers.items()}
        paused = set(cpu for cpu in range(trace.cpus) if trace.acts.count(("pre", cpu)) > trace.acts.count(("res", cpu)))
        count = 0
        # A processor without a program and a handler has nothing to do.
        busy = [cpu for cpu in range(trace.cpus) if trace.programs.get(cpu) or trace.handlers.get(cpu)] or [0]
        most = self.options.acts or 30 * len(busy) + 20 * sum(map(len, trace.handlers.values()))
        while count < most:
            cpu = self.random.choice(busy)
            burst = [("step", cpu)] * (1 + int(self.random.expovariate(1 / mean)))
            if left.get(cpu, 0) > 0 and self.random.random() < 0.35:
                left[cpu] -= 1
                burst.append(("int", cpu))
            if self.options.preempt and self.random.random() < 0.08:
                burst = [("res" if cpu in paused else "pre", cpu)]
                paused ^= {cpu}
            if self.options.nudges and self.random.random() < 0.08:
                burst = [("nudge", cpu)]
            count += len(burst)
            yield from burst
