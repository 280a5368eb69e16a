"""What is searched for, and the programs that say whether a trace has it."""
import functools
import re
import subprocess

from script.programs import named

LINE = re.compile(r"(\d+)(?:-(\d+))? (\d+\.\d+) (.*?)(?:: (.*))?$")
LINK_ROWS = ("G10", "C1", "E14")
ROUNDS, TURNS = 3, 100
# How many traces' lines are kept.
KEPT = 64


class Programs:
    def __init__(self):
        self.main, self.steps_program, self.runs = None, None, 0
        # What is told at each run.
        self.on_run = lambda: None
        # What a trace is asked for its acts more than once in turn.
        self.steps = functools.lru_cache(KEPT)(self.steps)

    def ran(self, command, text):
        self.runs += 1
        self.on_run()
        return subprocess.run(command, input=text, capture_output=True, text=True)

    def steps(self, text):
        """The lines of a trace's acts, or None where it is refused."""
        self.steps_program = self.steps_program or named("QLOCK_STEPS", "lk_steps")
        run = self.ran([self.steps_program], text)
        return run.stdout.splitlines() if run.returncode == 0 else None

    def told(self, word, text):
        self.main = self.main or named("QLOCK", "lk_cli")
        return self.ran([self.main, word], text)


def parts(line):
    """Of a line: its first and last act, the waiter, what it did, and the event or an empty text."""
    first, last, who, deed, event = LINE.match(line).groups()
    return int(first), int(last or first), who, deed.split(", ")[0], event or ""


def text_of(line):
    """A line without the numbers of its acts."""
    return line.split(" ", 1)[1]


class Line:
    """A line of the acts."""

    def __init__(self, programs, is_wanted):
        self.programs, self.is_wanted = programs, is_wanted

    def act(self, trace, behind=0):
        """The first act behind this one that has what is wanted, or None."""
        for line in self.programs.steps(trace.text()) or []:
            if parts(line)[0] > behind and self.is_wanted(line):
                return parts(line)[0]
        return None


def an_event(programs, pattern):
    """An event whose text has the pattern."""
    wanted = re.compile(pattern)
    return Line(programs, lambda line: parts(line)[4] and wanted.search(parts(line)[4]))


def a_row(programs, row):
    return Line(programs, lambda line: parts(line)[3].split()[0] == row)


def an_act(programs, pattern):
    """An act whose line has the pattern."""
    wanted = re.compile(pattern)
    return Line(programs, lambda line: wanted.search(text_of(line)))


class Behind:
    """What is wanted, behind lines that have these patterns, in their order. The levels are how many of them a trace has."""

    def __init__(self, programs, want, patterns):
        self.programs, self.want, self.patterns = programs, want, list(map(re.compile, patterns))
        self.HIGHEST = len(patterns)

    def level(self, trace):
        """How many of the lines the trace has, and the last act of the last of them."""
        level, act = 0, 0
        for line in self.programs.steps(trace.text()) or []:
            if level < self.HIGHEST and self.patterns[level].search(text_of(line)):
                level, act = level + 1, parts(line)[1]
        return level, act

    def act(self, trace):
        level, act = self.level(trace)
        return self.want.act(trace, act) if level == self.HIGHEST else None


class Count:
    """A count above 0. At which act it rises the transcript does not say."""

    def __init__(self, programs, name):
        self.programs, self.name = programs, name

    def act(self, trace, _behind=0):
        run = self.programs.told("replay", trace.text())
        found = re.search(rf"^{self.name} (\d+)$", run.stdout, re.M)
        return len(trace.acts) if run.returncode == 0 and found and int(found[1]) else None


class Stuck:
    """A queue head that polls for a link which nobody will store: its own node is the tail, and nothing changes any more however
    often everybody goes on. That more turns would change nothing is not proved: each processor gets some rounds of many turns.

    The one way to it that is known needs a waiter without a node, which sets the pending bit while a head is about to claim the lock
    as one alone (docs/rows/queue.md, G10). The levels are the steps of that way; a trace that has not all of them is not looked at.
    Where no waiter sets the pending bit before it queues, in virt and pv, there is no such way."""

    HIGHEST = 11

    def __init__(self, programs):
        self.programs = programs

    def level(self, trace):
        """How far along that way the trace gets, and by which act."""
        way, best = Way(), (0, 0)
        for line in self.programs.steps(trace.text()) or []:
            best = max(best, (way.after(*parts(line)), -parts(line)[1]))
        return best[0], -best[1]

    def act(self, trace):
        if self.level(trace)[0] < self.HIGHEST:
            return None
        rounds = [f"step {cpu} {TURNS}" for cpu in range(trace.cpus)] * ROUNDS
        wakes = [f"res {cpu}" for cpu in range(trace.cpus)]
        lines = self.programs.steps(trace.text([*wakes, *rounds]))
        last = len(trace.acts) + trace.cpus + (ROUNDS - 1) * TURNS * trace.cpus
        return len(trace.acts) if lines and self.is_stuck([parts(line) for line in lines], last) else None

    def is_stuck(self, lines, last):
        ends = [line for line in lines if line[1] > last]
        if any(event or " -> " in deed for _, _, _, deed, event in ends):
            return False
        tails = {}
        for words in (deed.split() for _, _, _, deed, _ in lines):
            if words[1:2] == ["lock"]:
                tails[words[2]] = words[-1].strip("()").split(",")[0]
        polled = [deed.split() for _, _, _, deed, _ in ends if deed.split()[0] in LINK_ROWS]
        return any(words[-1].endswith(",0)") and words[2] in tails.values() for words in polled)


class Way:
    """How far the acts so far have led to a head that waits for nobody. Levels 1 to 4 are the nodes of one processor that are in use,
    each by the context of its number, so that there are contexts left.
    Behind them a waiter of that processor, which will find no node, meets the lock held alone and will set the pending bit (5); then
    somebody else sets it (6), a head queues (7) and sees the free word (8); the waiter sets the bit (9), and the claim of the head
    fails (10); the waiter takes the bit back and finds no node (11)."""

    def __init__(self):
        self.nodes, self.bare = {}, {}

    def after(self, _first, _last, who, deed, _event):
        row, kind, name, met, *stored = deed.split()[:6] if len(deed.split()) > 3 else [deed.split()[0], "", "", ""]
        cpu = who.split(".")[0]
        if kind == "nodes":
            self.nodes[name] = int(stored[1] if stored else met)
            if row == "G1" and int(met) >= 4 and who in self.bare and self.bare[who][1] == 10:
                return 11
            self.bare.pop(who, None)
            return self.nodes[name] if who == f"{name}.{met}" else 0
        if kind == "lock":
            return self.on_lock(row, name, met.strip("()").split(","), bool(stored), who, cpu)
        return 0

    def on_lock(self, row, name, met, is_stored, who, cpu):
        if row in ("F1", "P0") and self.nodes.get(cpu, 0) == 4 and met == ["0", "0", "1"]:
            self.bare[who] = [name, 5]
            return 5
        if row == "P1" and who in self.bare:
            self.bare[who][1] = 9 if self.bare[who][1] == 8 and met[0] != "0" else 0
            return self.bare[who][1]
        if row == "P2" and who in self.bare:
            return self.bare[who][1]
        steps = {"P1": (5, met[1] == "0"), "G4": (6, met[0] == "0"), "G7": (7, met[1:] == ["0", "0"]), "G8": (9, not is_stored)}
        level, is_one = steps.get(row, (0, False))
        found = 0
        for waits in self.bare.values():
            if waits[0] == name and waits[1] == level and is_one:
                waits[1] = found = level + 1
        return found
