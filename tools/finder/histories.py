"""Histories with a breach: transcripts of random traces that are changed at random until an audit names the breach, and shrunk."""
import re

from history import COUNTS

CHANGES = 60


class History:
    """The header of a trace, without programs, and events without the numbers of their acts."""

    def __init__(self, trace, events):
        self.trace, self.events = trace, events

    def text(self):
        events = [f"{act} {event}" for act, event in enumerate(self.events, 1)]
        counts = [f"end {len(events)}", *(f"{name} 0" for name in COUNTS)]
        return "\n".join([*self.trace.header(), *events, *counts, ""])

    def with_events(self, events):
        return History(self.trace, events)

    def with_threshold(self, threshold):
        trace = self.trace.copy()
        trace.threshold = threshold
        return History(trace, self.events)


def first_history(programs, trace):
    """The transcript of a trace."""
    run = programs.told("replay", trace.text())
    plain = trace.copy()
    plain.programs, plain.handlers = {}, {}
    return History(plain, [line.split(" ", 1)[1] for line in run.stdout.splitlines() if re.match(r"\d", line)])


def changed(history, random):
    """One change: an event is left out, doubled, or put elsewhere, is another waiter's, or has another number in it; or, in cna, the
    threshold is another."""
    if history.trace.threshold and random.randrange(6) == 0:
        return history.with_threshold(random.randrange(history.trace.threshold))
    events, at = list(history.events), random.randrange(len(history.events))
    event = events.pop(at)
    kind = random.randrange(5)
    if kind == 1:
        events[at:at] = [event, event]
    elif kind == 2:
        events.insert(random.randrange(len(events) + 1), event)
    elif kind == 3:
        events.insert(at, random.choice(history.events).split(" ")[0] + " " + event.split(" ", 1)[1])
    elif kind == 4:
        numbers = list(re.finditer(r"\d+", event))
        found = random.choice(numbers)
        events.insert(at, event[: found.start()] + str(random.randrange(5)) + event[found.end() :])
    return history.with_events(events)


class Breach:
    """A breach that an audit names."""

    def __init__(self, programs, name):
        self.programs, self.name = programs, name

    def cut(self, history):
        """The history up to the event that is the breach, or None where it has another one or none."""
        run = self.programs.told("audit", history.text())
        found = re.match(rf"breach (\d+) {self.name}$", run.stdout.strip())
        if not found:
            return None
        return history.with_events(history.events[: int(found[1]) - len(history.trace.header())])

    def search(self, trace, random):
        """A history with the breach out of a trace's transcript, or None."""
        history = first_history(self.programs, trace)
        for _ in range(CHANGES if len(history.events) > 1 else 0):
            found = self.cut(changed(history, random))
            if found:
                return found
        return None

    def shrink(self, history):
        """Nothing stays that can be left out: events, and processors and locks that no event names."""
        at = len(history.events) - 1
        while at >= 0:
            found = self.cut(history.with_events(history.events[:at] + history.events[at + 1 :]))
            history = found or history
            at = len(history.events) - 1 if found else at - 1
        return self.smaller_header(history)

    def smaller_header(self, history):
        for change in (fewer_cpus, fewer_locks):
            while True:
                trace = change(history.trace)
                found = trace and self.cut(History(trace, history.events))
                if not found:
                    break
                history = found
        return history


def fewer_cpus(trace):
    trace = trace.copy()
    trace.cpus -= 1
    trace.sockets = trace.sockets and trace.sockets[:-1]
    return trace if trace.cpus else None


def fewer_locks(trace):
    trace = trace.copy()
    return trace if trace.kinds and trace.kinds.pop() else None
