"""Who holds each lock of a history, and who stands in its queue: as the events up to a line leave it.

`ending(text)` says how a history ends, where somebody holds a lock or waits for one. `not_alone(text, last)` names the first head that takes
as `sole`, or leaves, with somebody behind it. Neither looks whether an event is lawful: an audit has done so.
"""
import re

# The most locks that an ending names.
SHOWN = 8
GO = re.compile(rb"^[ \t\r]*go[ \t\r]*$", re.M)
TAKES, RELEASES = ("take", "rtake", "wtake"), ("release", "rrelease", "wrelease")
MANNERS = {"take": "", "rtake": " as a reader", "wtake": " as the writer"}


class Lock:
    """What the events so far tell of one lock: its holders, its main queue, the head first, and who is aside; each with a line."""

    def __init__(self):
        self.holders, self.main, self.aside = {}, {}, {}

    @property
    def waiting(self):
        """The queue, the head first. Whoever holds the lock as its head does not wait."""
        return [waiter for waiter in (*self.main, *self.aside) if waiter not in self.holders]

    def leave_queue(self, count=1):
        for waiter in list(self.main)[:count]:
            del self.main[waiter]

    def set_aside(self, count):
        """Those right behind the head, which itself leaves."""
        head, *moved = list(self.main)[: count + 1]
        self.aside.update((waiter, self.main[waiter]) for waiter in moved)
        self.leave_queue(len(moved) + 1)

    def rejoin(self):
        head, *rest = self.main.items()
        self.main, self.aside = dict([head, *self.aside.items(), *rest]), {}

    def tell(self, number, who, verb, words):
        if verb in TAKES:
            self.holders[who] = number, verb
            if words[-1] == "sole":
                self.leave_queue()
        elif verb in RELEASES:
            self.holders.pop(who, None)
        elif verb == "arrive":
            self.main[who] = number
        elif verb == "pass":
            self.set_aside(int(words[-1]) if "moved" in words else 0)
        elif verb in ("flush", "promote"):
            self.rejoin()
        elif verb == "leave":
            self.leave_queue()


def events(text):
    """The lines behind `go`, each with its number and its words, up to the closing lines."""
    go = GO.search(text)
    if not go:
        return
    first = text.count(b"\n", 0, go.start()) + 2
    for number, line in enumerate(text[go.end() + 1 :].decode("latin-1").split("\n"), first):
        words = line.split(" ")
        if len(words) < 3:
            return
        yield number, words


def told(locks, number, words):
    _act, who, verb, *rest = words
    if not rest or verb in ("kick", "miss", "halt", "wake"):
        return
    lock = locks.get(rest[0])
    if lock is None:
        lock = locks[rest[0]] = Lock()
    lock.tell(number, who, verb, rest)


def few(parts):
    return ", ".join([*parts[:SHOWN], *([f"and {len(parts) - SHOWN} more"] if len(parts) > SHOWN else [])])


def state_of(name, lock):
    holders = few([f"{who}{MANNERS[verb]} since line {line}" for who, (line, verb) in lock.holders.items()])
    first = f"lock {name} is held by {holders}" if holders else f"lock {name} is free"
    waiting = lock.waiting
    if not waiting:
        return f"  {first}"
    stand = "stands" if len(waiting) == 1 else "stand"
    return f"  {first}, and in its queue {stand} {few([f'{who} since line {(lock.main.get(who) or lock.aside.get(who))}' for who in waiting])}"


def ending(text):
    """The lines that say how a history ends; none where every lock is free and every queue empty."""
    locks = {}
    for number, words in events(text):
        told(locks, number, words)
    left = {name: lock for name, lock in locks.items() if lock.holders or lock.main or lock.aside}
    if not left:
        return []
    stalled = [name for name, lock in left.items() if not lock.holders]
    lines = [state_of(name, left[name]) for name in [*stalled, *(name for name in left if name not in stalled)]]
    more = [f"  and {len(lines) - SHOWN} more locks"] if len(lines) > SHOWN else []
    why = ": a free lock with somebody in its queue is a lost handoff, or the history was cut there" if stalled else ""
    return [f"the history ends, and not all locks are at rest{why}", *lines[:SHOWN], *more]


def not_alone(text, last=None):
    """The first line before `last` in which a head takes as `sole` or leaves with somebody behind it, and why; or None."""
    locks = {}
    for number, words in events(text):
        if number == last:
            return None
        lock = locks.get(words[3]) if len(words) > 3 else None
        if lock and (words[2] == "leave" or words[2] == "take" and words[-1] == "sole"):
            behind = [waiter for waiter in (*lock.main, *lock.aside) if waiter != words[1]]
            if behind:
                line = lock.main.get(behind[0]) or lock.aside[behind[0]]
                return number, f'"{" ".join(words)}": {behind[0]}, which arrived at line {line}, stands behind it in the queue of lock {words[3]}'
        told(locks, number, words)
    return None
