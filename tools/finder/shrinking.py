"""Makes a trace small: nothing stays that can be left out while the trace still has what is wanted."""


class Shrinker:
    def __init__(self, want, trace):
        self.want, self.trace = want, trace

    def try_one(self, trace):
        """Keeps the trace, cut behind what is wanted, if it has it."""
        act = self.want.act(trace)
        if act is None:
            return False
        trace.acts = trace.acts[:act]
        self.trace = trace
        return True

    def shrink(self):
        self.try_one(self.trace.copy())
        size = None
        while size != self.size():
            size = self.size()
            for shorter in (self.fewer_acts, self.fewer_cpus, self.fewer_handlers, self.fewer_operations, self.fewer_locks, self.plainer_header):
                shorter()
        self.fewer_lines()
        return self.trace

    def size(self):
        return len(self.trace.text())

    def fewer_acts(self):
        """Leaves out runs of acts, half of all first and one by one at the end."""
        length = max(1, len(self.trace.acts) // 2)
        while length:
            at = len(self.trace.acts) - length
            while at >= 0:
                trace = self.trace.copy()
                del trace.acts[at : at + length]
                self.try_one(trace)
                at = min(at - length, len(self.trace.acts) - length) if length > 1 else min(at - 1, len(self.trace.acts) - 1)
            length //= 2

    def fewer_cpus(self):
        for cpu in reversed(range(self.trace.cpus)):
            if self.trace.cpus > 1:
                self.try_one(without_cpu(self.trace, cpu))

    def fewer_handlers(self):
        for cpu in list(self.trace.handlers):
            for at in reversed(range(len(self.trace.handlers[cpu]))):
                trace = self.trace.copy()
                del trace.handlers[cpu][at]
                self.try_one(trace)

    def fewer_operations(self):
        """Leaves out what takes a lock together with what releases it."""
        number = 0
        while True:
            pairs = list(pairs_of(self.trace))
            if number >= len(pairs):
                return
            which, at, end = pairs[number]
            trace = self.trace.copy()
            ops = list(trace.all_programs())[which]
            del ops[end], ops[at]
            trace.handlers = {cpu: [ops for ops in handlers if ops] for cpu, handlers in trace.handlers.items()}
            if not self.try_one(trace):
                number += 1

    def fewer_locks(self):
        for lock in reversed(range(len(self.trace.kinds))):
            used = {each for ops in self.trace.all_programs() for _, each in ops}
            if lock not in used:
                self.try_one(without_lock(self.trace, lock))

    def plainer_header(self):
        for field, plain in (("sockets", None), ("threshold", None), ("spins", None), ("format", 1)):
            if getattr(self.trace, field) != plain:
                trace = self.trace.copy()
                setattr(trace, field, plain)
                self.try_one(trace)

    def fewer_lines(self):
        """Moves acts to the acts of the same processor before or behind them, where that makes fewer lines of the schedule."""
        at = 0
        while at < len(self.trace.acts):
            lines = len(list(self.trace.schedule()))
            for trace in moved(self.trace, at):
                if len(list(trace.schedule())) < lines and self.try_one(trace):
                    at = -1
                    break
            at += 1


def pairs_of(trace):
    """Where an operation takes a lock and where one releases it: the program, and the two places in it."""
    for which, ops in enumerate(trace.all_programs()):
        for at, (verb, lock) in enumerate(ops):
            if "unlock" not in verb:
                yield which, at, next(end for end in range(at, len(ops)) if "unlock" in ops[end][0] and ops[end][1] == lock)


def without_cpu(trace, cpu):
    trace = trace.copy()
    lower = {each: each - (each > cpu) for each in range(trace.cpus)}
    trace.acts = [(word, lower[each]) for word, each in trace.acts if each != cpu]
    trace.programs = {lower[each]: ops for each, ops in trace.programs.items() if each != cpu}
    trace.handlers = {lower[each]: handlers for each, handlers in trace.handlers.items() if each != cpu}
    trace.sockets = trace.sockets and [socket for each, socket in enumerate(trace.sockets) if each != cpu]
    trace.cpus -= 1
    return trace


def without_lock(trace, lock):
    trace = trace.copy()
    del trace.kinds[lock]
    for ops in trace.all_programs():
        ops[:] = [(verb, each - (each > lock)) for verb, each in ops]
    return trace


def moved(trace, at):
    """The trace with the run of acts that begins here moved to an earlier, or a later, run of the same processor."""
    acts = trace.acts
    if at and acts[at - 1] == acts[at]:
        return
    end = next((end for end in range(at, len(acts)) if acts[end] != acts[at]), len(acts))
    before = next((place for place in range(at - 1, -1, -1) if acts[place] == acts[at]), None)
    behind = next((place for place in range(end, len(acts)) if acts[place] == acts[at]), None)
    for place in (before, behind):
        if place is not None:
            copied = trace.copy()
            run = acts[at:end]
            rest = acts[:at] + acts[end:]
            target = place + 1 if place < at else place - len(run)
            copied.acts = rest[:target] + run + rest[target:]
            yield copied
