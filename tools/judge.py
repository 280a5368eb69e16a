"""A judge of histories, written from the laws as docs/PROOFS.md states them, to compare with `qlock audit`.

`verdict(text)` reads the header of a trace and behind it a transcript, and gives the one line that an audit writes for it:
`lawful e`, or `breach n Name`. It takes for granted that the text is well formed.
"""
from typing import NamedTuple

SPIN, READER, WRITER = "spin", "reader", "writer"
CONTEXTS_END = ("int", "nudge", "wake")


class Rules(NamedTuple):
    format: str
    mode: str
    sockets: list
    threshold: int

    def is_local(self, waiter, front):
        """Whether the front may not move the waiter aside."""
        is_interrupt = self.format == "2" and waiter[1] > 0
        return is_interrupt or self.sockets[waiter[0]] == self.sockets[front[0]]


class Event(NamedTuple):
    by: tuple
    verb: str
    words: list

    @property
    def cpu(self):
        return self.by[0]


def waiter_of(word):
    cpu, context = word.split(".")
    return int(cpu), int(context)


def event_of(line):
    _act, by, verb, *words = line.split(" ")
    return Event(waiter_of(by), verb, words)


def rules_of(lines):
    """The rules that the lines of a header say; what is left out has the default of docs/FORMATS.md."""
    said = {"qtrace": ["1"], "mode": ["virt"], "cpus": ["1"], "threshold": ["65535"]}
    words = [line.split() for line in lines if line.split() and not line.split()[0].startswith("#")]
    said.update({first: rest for first, *rest in words})
    sockets = said.get("sockets", ["0"] * int(said["cpus"][0]))
    return Rules(said["qtrace"][0], said["mode"][0], [int(socket) for socket in sockets], int(said["threshold"][0]))


class Lock:
    """What the events so far tell of one lock."""

    def __init__(self):
        self.holders, self.main, self.second, self.passes = [], [], [], []

    def holds(self, waiter):
        return any(holder == waiter for holder, _manner in self.holders)

    def is_queued(self, waiter):
        return waiter in self.main or waiter in self.second

    def lawful_moves(self, rules):
        if rules.mode != "cna" or not self.main:
            return 0
        moves = 0
        for waiter, _behind in zip(self.main[1:], self.main[2:]):
            if rules.is_local(waiter, self.main[0]):
                break
            moves += 1
        return moves

    def passed(self, moved):
        second = self.second + self.main[1 : 1 + moved]
        passes = [n + 1 for n in self.passes + [0] * len(self.main[1 : 1 + moved])]
        return self.main[1 + moved :], second, passes

    def rejoin(self):
        self.main = self.main[:1] + self.second + self.main[1:]
        self.second, self.passes = [], []

    def release(self, waiter, manner):
        if (waiter, manner) in self.holders:
            self.holders.remove((waiter, manner))

    def tell(self, event):
        verb, by = event.verb, event.by
        if verb == "take":
            self.holders.append((by, SPIN))
            if event.words[1] == "sole":
                self.main = self.main[1:]
        elif verb == "rtake":
            self.holders.append((by, READER))
        elif verb == "wtake":
            self.holders.append((by, WRITER))
        elif verb in RELEASES:
            self.release(by, RELEASES[verb])
        elif verb == "arrive":
            self.main.append(by)
        elif verb == "pass":
            self.main, self.second, self.passes = self.passed(moved_of(event))
        elif verb in ("flush", "promote"):
            self.rejoin()
        elif verb == "leave":
            self.main = self.main[1:]


RELEASES = {"release": SPIN, "rrelease": READER, "wrelease": WRITER}
LEADS = ("pass", "flush", "promote", "leave")


def moved_of(event):
    return int(event.words[3]) if len(event.words) > 2 else 0


def is_by_front(event):
    return event.verb == "take" and event.words[1] in ("head", "sole")


def breach_on(rules, lock, event):
    """The first clause that an event on a lock breaks, but for kicks."""
    verb, by = event.verb, event.by
    writers = any(manner != READER for _waiter, manner in lock.holders)
    if verb in ("take", "wtake") and lock.holders or verb == "rtake" and (writers or lock.holds(by)):
        return "Beside"
    if verb in RELEASES and (by, RELEASES[verb]) not in lock.holders or verb in LEADS and not lock.holds(by):
        return "NotHolder"
    past_queue = verb == "release" or verb == "take" and not is_by_front(event)
    if verb == "arrive" and (lock.holds(by) or lock.is_queued(by)) or past_queue and lock.is_queued(by):
        return "Twice"
    if (is_by_front(event) or verb in LEADS) and lock.main[:1] != [by]:
        return "WrongHead"
    if verb != "pass":
        return None
    moved = moved_of(event)
    if moved > lock.lawful_moves(rules):
        return "WrongMove"
    if lock.main[1 + moved : 2 + moved] != [waiter_of(event.words[1])]:
        return "WrongNext"
    _main, _second, passes = lock.passed(moved)
    return "OverThreshold" if any(n > rules.threshold for n in passes) else None


class Judge:
    def __init__(self, rules):
        self.rules = rules
        self.locks = {}
        self.asleep = set()
        self.owing = {}
        self.kicked = set()

    def lock(self, name):
        return self.locks.setdefault(name, Lock())

    def is_owed(self, cpu):
        return self.owing.get(cpu, 0) > 0 or cpu in self.kicked

    def tell_kicks(self, event):
        if event.verb == "halt":
            self.asleep.add(event.by)
        elif event.verb in CONTEXTS_END:
            self.asleep = {waiter for waiter in self.asleep if waiter[0] != event.cpu}
        if event.verb == "wake":
            self.kicked.discard(event.cpu)
        if event.verb == "release" and len(event.words) > 1:
            owed = int(event.words[2])
            self.owing[owed] = self.owing.get(owed, 0) + 1
        if event.verb == "kick":
            cpu = int(event.words[0])
            self.owing[cpu] = self.owing.get(cpu, 0) - 1
            self.kicked.add(cpu)

    def leaves_asleep(self):
        free = [lock.main[0] for lock in self.locks.values() if lock.main and not lock.holders]
        return any(waiter in self.asleep and not self.is_owed(waiter[0]) for waiter in free)

    def take(self, event):
        """The breach that the event is, if it is one; else it is told."""
        if event.verb not in ("kick", "int", "nudge"):
            lock = self.lock(event.words[0])
            breach = breach_on(self.rules, lock, event)
            if breach:
                return breach
            lock.tell(event)
        self.tell_kicks(event)
        return "NoKick" if self.rules.mode == "pv" and self.leaves_asleep() else None


def verdict(text):
    lines = text.splitlines()
    start = lines.index("go") + 1
    judge = Judge(rules_of(lines[: start - 1]))
    events = 0
    for number, line in enumerate(lines[start:], start + 1):
        if line.startswith("end "):
            break
        breach = judge.take(event_of(line))
        if breach:
            return f"breach {number} {breach}"
        events += 1
    return f"lawful {events}"
