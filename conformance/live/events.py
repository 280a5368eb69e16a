"""Makes histories of the ring's events. A number is drawn beside an operation, and not with it, so some events have to be moved.

Each lock's events pass through the rules below; docs/AUDIT.md says why they are sound. A history that has a breach behind them shows
what the kernel did, or a rule that is missing.
"""
import struct
from collections import Counter, defaultdict
from typing import NamedTuple

EVENTS = ("", "take {} fast", "take {} try", "take {} pending", "take {} virt", "take {} retry", "take {} nonode", "take {} steal", "take {} head", "take {} sole",
          "release {}", "release {}", "release {} owing {}", "arrive {}", "pass {} {}", "leave {}", "halt {}", "wake {}", "kick {}",
          "rtake {} fast", "rtake {} irq", "rtake {} queued", "rtake {} try", "rrelease {}", "wtake {} fast", "wtake {} queued", "wtake {} try", "wrelease {}")
(FAST, TRY, PENDING, VIRT, RETRY, NONODE, STEAL, HEAD, SOLE, RELEASE, RELEASE_TRY, OWING, ARRIVE, PASS, LEAVE, HALT, WAKE, KICK,
 RFAST, RIRQ, RQUEUED, RTRY, RRELEASE, WFAST, WQUEUED, WTRY, WRELEASE) = range(1, len(EVENTS))
TAKES, RELEASES, LEAVES = range(FAST, RELEASE), range(RELEASE, ARRIVE), (SOLE, LEAVE, PASS)
READERS, OF_READERS = range(RFAST, RRELEASE), range(RFAST, len(EVENTS))
# Takes that show the whole word of a spinlock: free behind them but for the taker. Of a reader-writer lock, those of a writer.
WHOLE, WRITERS = (FAST, TRY, VIRT, RETRY, NONODE, SOLE), (WFAST, WQUEUED, WTRY)
SLOT, LOCKS, NOBODY = struct.Struct("<QIBBBB"), 32, 5
COUNTS = ("lock_pending", "lock_slowpath", "lock_use_node2", "lock_use_node3", "lock_use_node4", "lock_no_node", "pv_lock_stealing", "pv_wait_node", "pv_wait_head",
          "pv_kick_unlock")


class Event(NamedTuple):
    """An event: its number, who acted as (processor, context), and what else its slot has."""
    number: int
    what: int
    who: tuple
    argument: object
    index: int


def by_lock(slots, left):
    """The events of each lock. A slot that was not written ends them, since behind it the events are not known to be whole."""
    found = defaultdict(list)
    people = {(cpu, context): (cpu, context) for cpu in range(256) for context in range(4)}
    for number, (lock, argument, index, what, cpu, context) in enumerate(SLOT.iter_unpack(slots)):
        if not what:
            left["slots from the first on that was not written"] += len(slots) // SLOT.size - number
            break
        found[lock].append(Event(number, what, people[cpu, context], argument, index))
    return found


def last_numbers(found):
    """The number of the last event of each waiter, at any lock."""
    last = {}
    for events in found.values():
        for event in events:
            last[event.who] = max(last.get(event.who, -1), event.number)
    return last


def without_failed(events, last, left):
    """A release that may fail is told before it is made. It failed where its waiter goes on with the slow release, and then that one alone is
    told. A release behind which its waiter told nothing, and nobody took the lock, may have failed."""
    kept, following = [], {}
    taken = max((event.number for event in events if event.what in TAKES), default=-1)
    for event in reversed(events):
        goes_on, following[event.who] = following.get(event.who), event.what
        if event.what == RELEASE_TRY and goes_on == OWING:
            left["releases that failed, and were made again"] += 1
        elif event.what == RELEASE_TRY and event.number == last[event.who] and event.number > taken:
            left["releases of which nothing shows whether they failed"] += 1
        else:
            kept.append(event)
    return kept[::-1]


def begun(events, starts, left):
    """The events from the first on that shows the whole word. Arrivals with a number before it that were not served yet stand behind it."""
    early = {}
    for at, event in enumerate(events):
        if event.what in (HEAD, SOLE):
            early.pop(event.who, None)
        if event.what in starts:
            left["events before the first that shows the whole word"] += at - len(early)
            first = event._replace(what=FAST) if event.what == SOLE else event
            return [first, *early.values(), *events[at + 1 :]]
        if event.what == ARRIVE:
            early[event.who] = event
    left["events of locks without one that shows the whole word"] += len(events)
    return []


def node_of(event):
    """The node of an arrival as a tail of a lock's word names it."""
    return (event.who[0] + 1) << 18 | event.index << 16


def settled(events, left):
    """Arrivals stand behind that of the waiter which their exchange found, or behind the event that emptied the queue. A handoff names the
    waiter of the node that it is for."""
    told, queue, late, owners = [], [], [], {}
    for event in events:
        if event.what == ARRIVE:
            late.append(event)
        elif event.what == PASS:
            told.append(event._replace(argument=owners.get(event.argument, (event.argument >> 2, NOBODY))))
        else:
            told.append(event)
        if event.what in LEAVES:
            queue = [arrival for arrival in queue if arrival.who != event.who]
        while late and (arrival := next((it for it in late if it.argument == (node_of(queue[-1]) if queue else 0)), None)):
            left["arrivals put behind whom they met"] += arrival is not event
            late.remove(arrival)
            queue.append(arrival)
            told.append(arrival)
            owners[arrival.who[0] << 2 | arrival.index] = arrival.who
    left["arrivals that met nobody who is told"] += len(late)
    return told


def folded(events, left):
    """Of a reader that reads already, only the outermost take and release."""
    depth = Counter()
    for event in events:
        if event.what in READERS:
            depth[event.who] += 1
        inner = depth[event.who] > 1 and (event.what in READERS or event.what == RRELEASE)
        if event.what == RRELEASE:
            depth[event.who] -= 1
        left["takes and releases of a reader that reads already"] += inner
        if not inner:
            yield event


class Kicks:
    """What a lock's events say of halts: its holder, its queue, and which processors a release owes a kick, or has kicked."""

    def __init__(self):
        self.is_held, self.queue, self.owed = False, [], Counter()

    def tell(self, event):
        if event.what in TAKES:
            self.is_held = True
        elif event.what in RELEASES:
            self.is_held = False
        elif event.what == ARRIVE:
            self.queue.append(event.who)
        if event.what in LEAVES:
            self.queue = [who for who in self.queue if who != event.who]
        if event.what == OWING:
            self.owed[event.argument] += 1
        elif event.what == WAKE:
            self.owed[event.who[0]] = 0

    def is_early(self, event):
        """A head halts only at a held lock, or where a kick is on its way. So it saw a take that has no number yet."""
        return event.what == HALT and not self.is_held and self.queue[:1] == [event.who] and not self.owed[event.who[0]]


def behind_takes(events, left):
    """The halt of a head at a lock that nobody holds stands behind the next take."""
    kicks, waiting, told = Kicks(), [], []
    for event in events:
        if kicks.is_early(event):
            waiting.append(event)
            continue
        if event.what == WAKE:
            waiting = [halt for halt in waiting if halt.who != event.who]
        kicks.tell(event)
        told.append(event)
        if event.what in TAKES:
            left["halts put behind the take that they saw"] += len(waiting)
            told += waiting
            waiting = []
    left["halts that saw a take which is not told"] += len(waiting)
    return told


def owed(events, left):
    """A kick is told if the release that owes it is."""
    owing = set()
    for event in events:
        if event.what == OWING:
            owing.add(event.who)
        if event.what == KICK and event.who not in owing:
            left["kicks of a release before the first event"] += 1
            continue
        if event.what == KICK:
            owing.remove(event.who)
        yield event


def only_kind(found, is_rw, left):
    """The locks but for addresses that were a spinlock and a reader-writer lock in turn."""
    both = [lock for lock in is_rw if any(event.what not in OF_READERS for event in found[lock])]
    left["events of addresses that were locks of both kinds"] += sum(len(found[lock]) for lock in both)
    is_rw.difference_update(both)
    return {lock: events for lock, events in found.items() if lock not in both}


def told_of(events, is_rw, halts, left):
    """The events of one lock, behind all rules."""
    if is_rw:
        return list(folded(begun(events, WRITERS, left), left))
    told = settled(begun(events, WHOLE, left), left)
    return list(owed(behind_takes(told, left), left)) if halts else told


def spelled(event, lock):
    """An event in the words of a transcript."""
    if event.what == OWING:
        return EVENTS[OWING].format(lock, event.argument)
    if event.what == PASS:
        return EVENTS[PASS].format(lock, "%d.%d" % event.argument)
    return EVENTS[event.what].format(event.argument if event.what == KICK else lock)


def keyed(events, lock):
    """The lines of a lock, each with a number that does not fall: that of the last event before it that was not moved."""
    words, people, top = {}, {}, -1
    for event in events:
        top = max(top, event.number)
        what, who = event.what, event.who
        if what in (OWING, PASS, KICK):
            text = spelled(event, lock)
        else:
            text = words.get(what) or words.setdefault(what, spelled(event, lock))
        yield top, people.get(who) or people.setdefault(who, "%d.%d" % who), text


class History(NamedTuple):
    """Lines for `qlock audit`, and the addresses of their locks."""
    text: str
    locks: list
    events: int


def written(part, told, is_rw, mode):
    """The history of up to 32 locks, a reader-writer lock with its wait lock."""
    lines = []
    for number, lock in enumerate(part):
        lines += keyed(told[lock], str(number))
        if lock in is_rw:
            lines += keyed(told.get(lock + 4, ()), f"{number}w")
    lines.sort(key=lambda line: line[0])
    head = ["qtrace 1", f"mode {mode}", "cpus 4", *(f"lock {number} {'rw' if lock in is_rw else 'spin'}" for number, lock in enumerate(part)), "go"]
    body = [f"{number} {who} {text}" for number, (_, who, text) in enumerate(lines, 1)]
    return History("\n".join([*head, *body, f"end {len(body)}", *(f"{count} 0" for count in COUNTS)]) + "\n", part, len(body))


class Telling:
    """The histories of a ring, 32 locks each, the busiest first; what was told, by its kind; and what was moved or left out, by cause."""

    def __init__(self, slots, mode):
        self.mode, self.left, self.kinds = mode, Counter(), Counter()
        found = by_lock(slots, self.left)
        self.is_rw = {lock for lock, events in found.items() if any(event.what in OF_READERS for event in events)}
        found = only_kind(found, self.is_rw, self.left)
        self.told = self.by_rules(found)

    def by_rules(self, found):
        halts, told = self.mode == "pv", {}
        last = last_numbers(found) if halts else {}
        for lock, events in found.items():
            events = without_failed(events, last, self.left) if halts else events
            told[lock] = told_of(events, lock in self.is_rw, halts, self.left)
            self.kinds.update(event.what for event in told[lock])
        self.left = +self.left
        return {lock: events for lock, events in told.items() if events}

    def histories(self):
        locks = [lock for lock in self.told if lock in self.is_rw or lock - 4 not in self.is_rw or lock - 4 not in self.told]
        locks.sort(key=lambda lock: -len(self.told[lock]))
        for first in range(0, len(locks), LOCKS):
            yield written(locks[first : first + LOCKS], self.told, self.is_rw, self.mode)
