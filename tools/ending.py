#!/usr/bin/env python3
"""ending.py STEPS < TRACE

Says how a trace ends, where somebody is not done: who holds which lock since which act, who waits for it at which row, who has halted or
is preempted. Where no step of anybody changes anything any more, says so, and why. STEPS is the program that writes a trace's acts.
`./qlock replay`, `steps`, `view` and `picture` write these lines to standard error.

It goes by what that program says of the trace, and of the same trace with more steps behind it. So the row at which a waiter stands is the
one that it makes next. A run is stuck if many more steps of each processor store nothing and tell nothing: then the words stay as they
are, each context polls in a circle, and no other order of steps would change that.
"""
import copy
import os
import re
import subprocess
import sys

sys.dont_write_bytecode = True

import judge
import labels

LINE = re.compile(r"(\d+)(?:-(\d+))? (\d+)\.(\d+) ([^\s:]+) ?(.*?)(?:: (.*))?$")
ACTS = ("step", "int", "pre", "res", "nudge")
# The rows at which a head waits until a node is linked behind its own.
LINKS = ("G10", "C1", "E14")
TAKES, ENDS = ("take", "rtake", "wtake"), ("take", "rtake", "wtake", "release", "rrelease", "wrelease", "miss")
# The most acts of a trace whose ending is told, and the most acts that are tried behind it.
MOST, MOST_TRIED = 1_000_000, 1_500_000
ROUNDS = (2, 8, 32, 128)
SHOWN = 6


def named(waiter):
    return f"{waiter[0]}.{waiter[1]}"


def few(parts):
    """A list that does not fill the screen."""
    return ", ".join([*parts[:SHOWN], *([f"and {len(parts) - SHOWN} more"] if len(parts) > SHOWN else [])])


class Frame:
    """A context of a processor: the locks that it holds, each since an act, and the lock for which it waits."""

    def __init__(self, who):
        self.who, self.held, self.lock, self.waits, self.row = who, {}, None, None, None

    def make(self, row, spot):
        self.row = row
        words = spot.split()
        if words[:1] == ["lock"]:
            self.lock = words[1]
        base = (self.lock or "").rstrip("w")
        # Rows of a release, and those behind the take of a head, wait for nobody.
        self.waits = None if row[0] in "UKZ" or base in self.held or not base else base

    def hear(self, verb, words, act):
        if verb in TAKES:
            self.held[words[0]] = act
        elif verb in ("release", "rrelease", "wrelease"):
            self.held.pop(words[0], None)
        if verb in ENDS and not words[0].endswith("w"):
            self.waits = None


class World:
    """What the lines of a trace's acts say, up to one of them."""

    def __init__(self, header):
        rules = judge.rules_of(header)
        self.judge, self.cpus, self.mode = judge.Judge(rules), len(rules.sockets), rules.mode
        self.frames, self.stacks = {}, {cpu: 0 for cpu in range(self.cpus)}
        self.halted, self.preempted = set(), set()

    def frame(self, cpu, context):
        self.stacks[cpu] = context
        return self.frames.setdefault((cpu, context), Frame((cpu, context)))

    def take(self, line):
        """One line, and whether it changes anything."""
        first, _, cpu, context, word, rest, event = LINE.match(line).groups()
        cpu, context = int(cpu), int(context)
        if word == "int" and event:
            self.frames[cpu, context] = Frame((cpu, context))
        frame = self.frame(cpu, context)
        if "idle, " in rest or rest.startswith("idle"):
            return False
        if word in ("pre", "res"):
            (self.preempted.add if word == "pre" else self.preempted.discard)(cpu)
        elif word not in ACTS:
            frame.make(word, rest)
        if event:
            self.hear(frame, int(first), event)
        return bool(event) or " -> " in rest or word in ACTS

    def hear(self, frame, act, event):
        verb, *words = event.split(" ")
        self.judge.take(judge.Event(frame.who, verb, words))
        frame.hear(verb, words, act)
        if verb == "halt":
            self.halted.add(frame.who[0])
        elif verb in ("int", "nudge", "wake"):
            self.halted.discard(frame.who[0])

    def living(self):
        """The contexts that are there, the outermost first."""
        for cpu, top in self.stacks.items():
            yield from (self.frames[cpu, context] for context in range(top + 1) if (cpu, context) in self.frames)

    def holders(self, name):
        return [waiter for waiter, _ in self.judge.lock(name).holders]

    def names(self):
        """The locks that somebody holds or waits for, wait locks behind theirs."""
        names = {name for frame in self.living() for name in frame.held} | {frame.waits for frame in self.living() if frame.waits}
        return sorted(names, key=lambda name: (int(name.rstrip("w")), name))


class Ending:
    """How a trace ends. `steps` gives the lines of a text, or None where it is refused."""

    def __init__(self, text, steps):
        lines = text.split("\n")
        words = [line.split() for line in lines]
        go, end = words.index(["go"]), next(at for at in reversed(range(len(words))) if words[at] == ["end"])
        self.header, self.body, self.steps = lines[:go], lines[:end], steps
        # What each processor does next, and in which context.
        self.next, self.tops = {}, {}
        self.acts = sum(int(each[2]) if each[0] == "step" else 1 for each in words[go + 1 : end] if each and each[0] in ACTS)
        self.meanings = labels.meanings()

    def turn(self):
        """How many steps of one processor are enough to see that it goes round: those of its longest circle, and those up to a halt."""
        world, said = World(self.header), {line.split()[0]: line.split()[1] for line in self.header if line.split()[:1] in (["spins"], ["mode"])}
        return 4 * int(said.get("spins", 32768)) + 64 if said["mode"] == "pv" else 64 + 16 * world.cpus * (said["mode"] == "cna")

    def look(self):
        """The world at the end, what each processor does next, and the world in which all are done or nothing changes any more. Whether
        the program accepts the trace."""
        if not self.tried([f"step {cpu} 1" for cpu in range(World(self.header).cpus)], 0):
            return False
        busy = [cpu for cpu, act in self.next.items() if not is_done(act)]
        for rounds in ROUNDS if busy else ():
            if rounds * self.turn() * len(busy) > MOST_TRIED:
                break
            self.tried([f"step {cpu} {self.turn()}" for cpu in busy] * rounds, self.turn() * len(busy))
            if self.is_quiet:
                break
        return True

    def tried(self, more, round_length):
        """Goes through the acts of the trace with these lines behind it."""
        lines = self.steps("\n".join([*self.body, *more, "end", ""]))
        if lines is not None:
            self.follow(lines, round_length)
        return lines is not None

    def follow(self, lines, round_length):
        """Goes through the lines. Behind the trace stand rounds of steps, and the last is quiet if it changes nothing; of no round, nothing
        is said."""
        world, self.then = World(self.header), None
        self.moves, last = 0, 0
        for line in lines:
            found = LINE.match(line)
            first, last = int(found[1]), int(found[2] or found[1])
            if first > self.acts and self.then is None:
                self.then, world = world, copy.deepcopy(world)
            if last > self.acts:
                self.next.setdefault(int(found[3]), (found[5], found[6]))
                self.tops.setdefault(int(found[3]), int(found[4]))
            if world.take(line) and first > self.acts:
                self.moves = first
        self.then = self.then or copy.deepcopy(world)
        # A handler that ended in the last act of its processor is gone, which the next act shows.
        self.then.stacks.update(self.tops)
        self.last_world, self.is_quiet = world, 0 < round_length and self.moves <= last - round_length


def is_done(next_act):
    return next_act[1].startswith("idle, finished")


class Telling:
    """The sentences of an ending."""

    def __init__(self, ending):
        self.ending, self.world = ending, ending.then

    def lines(self):
        busy = [frame for frame in self.world.living() if frame.waits or frame.held]
        undone = sorted(cpu for cpu, act in self.ending.next.items() if not is_done(act))
        if not undone and not busy:
            return []
        stuck = self.of_stuck()
        return [
            f"the trace ends at act {self.ending.acts}, and not all are done: {few([named((cpu, self.world.stacks[cpu])) for cpu in undone])}",
            *(f"  {line}" for line in [*self.of_locks(), *([] if stuck else self.of_interrupted()), *self.of_processors()]),
            *stuck,
        ]

    def is_running(self, frame):
        """Whether the context is the one that goes on, so that the row that it makes next is known."""
        cpu, context = frame.who
        word, rest = self.ending.next.get(cpu, ("", "idle"))
        return self.world.stacks[cpu] == context and word not in ACTS and "idle" not in rest

    def place(self, frame):
        """The row that a context makes next; of one that cannot go on now, the last that it made."""
        if self.is_running(frame):
            row = self.ending.next[frame.who[0]][0]
            meaning = self.ending.meanings.get(row, "").rstrip(".")
            return f"at {row}, which {meaning[:1].lower()}{meaning[1:]}" if meaning else f"at {row}"
        return f"{self.why_not(frame)}, behind {frame.row}" if frame.row else self.why_not(frame)

    def why_not(self, frame):
        """Why a context cannot go on now."""
        cpu, context = frame.who
        return "interrupted" if context < self.world.stacks[cpu] else "preempted" if cpu in self.world.preempted else "halted"

    def of_locks(self):
        for name in self.world.names():
            frames, what = list(self.world.living()), f"wait lock {name}" if name.endswith("w") else f"lock {name}"
            held = [f"{named(frame.who)} since act {frame.held[name]}" for frame in frames if name in frame.held]
            yield f"{what} is held by {few(held)}" if held else f"{what} is free"
            waiting = [frame for frame in frames if frame.waits == name]
            for frame in [frame for frame in waiting if self.is_running(frame)][:SHOWN]:
                yield f"{named(frame.who)} waits for {what} {self.place(frame)}"
            others = [f"{named(frame.who)} ({self.place(frame)})" for frame in waiting if not self.is_running(frame)]
            if others:
                yield f"{few(others)} wait{'s' * (len(others) == 1)} for {what}"

    def of_interrupted(self):
        for frame in self.world.living():
            cpu, context = frame.who
            if context < self.world.stacks[cpu] and (frame.waits or frame.held):
                yield f"{named(frame.who)} is interrupted by {named((cpu, context + 1))}"

    def of_processors(self):
        for frame in self.world.living():
            if frame.held and self.is_running(frame) and self.ending.next[frame.who[0]][0] in LINKS:
                yield f"{named(frame.who)} is {self.place(frame)}"
        for what, cpus in (("has halted", self.world.halted), ("is preempted", self.world.preempted)):
            yield from (f"processor {cpu} {what}" for cpu in sorted(cpus)[:SHOWN])

    def of_stuck(self):
        ending, world = self.ending, self.ending.last_world
        stuck = [frame for frame in world.living() if frame.waits or frame.held and frame.row in LINKS]
        if not ending.is_quiet or not stuck:
            return []
        said = "stuck: no step of any processor changes anything any more"
        if ending.moves:
            said = "if all go on in turn, they are stuck in the end"
        return [said, *(f"  {line}" for line in reasons(world, stuck))]


def reasons(world, stuck):
    """Why those that are stuck cannot go on: each circle of waiters once, and each that waits for what does not come."""
    told = []
    for frame in stuck:
        for sentence in chain(world, frame.who):
            if sentence not in told:
                told.append(sentence)
    return told[: 2 * SHOWN]


def chain(world, who):
    """Who waits for whom, from one waiter on, to a circle or to one that nobody holds up."""
    seen, said = [], []
    while who not in seen:
        seen.append(who)
        following, why = blocker(world, who)
        said.append(why)
        if following is None:
            return [why for why in said if why]
        who = following
    at = seen.index(who)
    circle = seen[at:]
    # A circle is told from its least member, so that it is told once.
    least = circle.index(min(circle))
    whys = said[at:][least:] + said[at:][:least]
    return [*said[:at], f"{'; '.join(whys)}: {kind_of(circle)}"]


def kind_of(circle):
    if len({cpu for cpu, _ in circle}) == 1:
        return "a deadlock, since the handler waits for what it interrupted"
    return "a deadlock"


def blocker(world, who):
    """For whom a waiter waits, and how; or why it waits, where that is nobody."""
    cpu, context = who
    frame, name = world.frames[who], named(who)
    if context < world.stacks[cpu]:
        return (cpu, context + 1), f"{name} is interrupted by {named((cpu, context + 1))}"
    if cpu in world.preempted:
        return None, f"{name} is preempted until res {cpu}"
    if frame.waits:
        lock = frame.lock if frame.lock.endswith("w") and world.holders(frame.lock) else frame.waits
        holders = [holder for holder in world.holders(lock) if holder != who]
        if holders:
            return holders[0], f"{name} waits for {'wait ' * lock.endswith('w')}lock {lock}, which {named(holders[0])} holds"
        return before(world, frame, lock)
    if frame.row in LINKS and frame.held:
        return behind(world, frame)
    return None, ""


def before(world, frame, lock):
    """Of a waiter for a lock that nobody holds: who stands before it."""
    name, queue = named(frame.who), world.judge.lock(lock).main
    if frame.who in queue[1:]:
        other = queue[queue.index(frame.who) - 1]
        return other, f"{name} waits in the queue of lock {lock} behind {named(other)}"
    if frame.who[0] in world.halted:
        return None, f"{name} has halted, lock {lock} is free, and no kick of processor {frame.who[0]} comes"
    others = [other for other in queue[:1] if other != frame.who]
    if others:
        return others[0], f"{name} waits for lock {lock}, which is free, and {named(others[0])} heads its queue"
    return None, f"{name} waits for lock {lock}, which nobody holds"


def behind(world, frame):
    """Of a head that polls for a link: who has queued behind it, and did not link its node yet."""
    name = named(frame.who)
    for lock in frame.held:
        queue = world.judge.lock(lock).main
        if frame.who in queue[:1] and len(queue) > 1:
            return queue[1], f"{name} waits for the link of {named(queue[1])}, which has queued behind it"
        if frame.who in queue[:1]:
            return None, f"{name} holds lock {lock} and waits for a successor's link, and nobody is queued behind it: the lost successor (docs/LOST_SUCCESSOR.md)"
    return None, f"{name} waits for a successor's link"


def told(text, steps):
    """The lines that say how a trace ends; none where all are done, or where it is too long to be looked at."""
    ending = Ending(text, steps)
    if ending.acts > MOST:
        return [f"how a trace of more than {MOST} acts ends is not told"]
    if not ending.look():
        return []
    return Telling(ending).lines()


def steps_by(program):
    def steps(text):
        run = subprocess.run([program], input=text, capture_output=True, text=True)
        return run.stdout.splitlines() if run.returncode == 0 else None

    return steps


def main(words):
    if len(words) != 1 or words[0] in ("-h", "--help"):
        is_help = words[:1] in (["-h"], ["--help"])
        print(__doc__.strip(), file=sys.stdout if is_help else sys.stderr)
        return 0 if is_help else 2
    if not os.access(words[0], os.X_OK):
        sys.exit(f"ending: there is no program {words[0]}")
    text, steps = sys.stdin.buffer.read().decode(errors="replace"), steps_by(words[0])
    if steps(text) is None:
        sys.exit("ending: the program refuses this trace")
    for line in told(text, steps):
        print(line)
    return 0


if __name__ == "__main__":
    sys.exit(main(sys.argv[1:]))
