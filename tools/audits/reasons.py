"""Why an audited history is not lawful, in a sentence: who holds the lock, or who its head is, and since which line.

`why(header, events)` goes by tools/judge.py up to the first breach. The events are well spelled, and each has the number of its line."""
import judge

MANNERS = {judge.SPIN: "", judge.READER: " as a reader", judge.WRITER: " as the writer"}
ARTICLES = {judge.SPIN: "as a spinlock", judge.READER: "as a reader", judge.WRITER: "as the writer"}


def named(waiter):
    return f"{waiter[0]}.{waiter[1]}"


def joined(parts):
    return f"{', '.join(parts[:-1])} and {parts[-1]}" if len(parts) > 1 else parts[0]


class Past:
    """The lines at which each waiter took, released and queued for each lock, was moved aside, and halted."""

    def __init__(self):
        self.lines = {}

    def tell(self, number, event):
        verb, words = event.verb, event.words
        lock = words[0] if words else None
        kind = "take" if verb in ("take", "rtake", "wtake") else "release" if verb in judge.RELEASES else verb
        self.lines[kind, lock, event.by] = number

    def since(self, kind, lock, waiter):
        return self.lines.get((kind, lock, waiter))

    def holders(self, lock, name):
        return joined([f"{named(waiter)}{MANNERS[manner]} since line {self.since('take', name, waiter)}" for waiter, manner in lock.holders])

    def in_queue(self, name, waiter):
        return f"{named(waiter)}, which arrived at line {self.since('arrive', name, waiter)}"


def why(header, events):
    """The line of the breach, its name and the reason; None where the history is lawful."""
    judged, past = judge.Judge(judge.rules_of(header)), Past()
    for number, line in events:
        event = judge.event_of(line)
        breach = judged.take(event)
        if breach:
            return number, breach, reason(judged, past, event, breach)
        past.tell(number, event)
    return None


def reason(judged, past, event, breach):
    if breach == "NoKick":
        return no_kick(judged, past)
    name = event.words[0]
    lock = judged.lock(name)
    return REASONS[breach](judged, past, name, lock, event)


def beside(_judged, past, name, lock, event):
    if event.verb == "rtake" and lock.holds(event.by):
        return f"{named(event.by)} holds lock {name} already, since line {past.since('take', name, event.by)}"
    return f"lock {name} is held by {past.holders(lock, name)}"


def not_holder(_judged, past, name, lock, event):
    by, wanted = event.by, judge.RELEASES.get(event.verb)
    own = [manner for waiter, manner in lock.holders if waiter == by]
    if own and wanted:
        return f"{named(by)} holds lock {name} {ARTICLES[own[0]]}, since line {past.since('take', name, by)}, and not {ARTICLES[wanted]}"
    if lock.holders:
        return f"lock {name} is held by {past.holders(lock, name)}, and not by {named(by)}"
    last = past.since("release", name, by)
    return f"nobody holds lock {name}" + (f": {named(by)} released it at line {last}" if last else f"; {named(by)} never took it")


def twice(_judged, past, name, lock, event):
    by = event.by
    if lock.is_queued(by):
        what = {"arrive": "again", "take": "past the queue", "release": "the lock"}.get(event.verb, "")
        return f"{named(by)} stands in the queue of lock {name} since line {past.since('arrive', name, by)}, and cannot {event.verb} {what}".rstrip()
    return f"{named(by)} holds lock {name} since line {past.since('take', name, by)}, and cannot queue for it"


def wrong_head(_judged, past, name, lock, event):
    if not lock.main:
        return f"nobody stands in the queue of lock {name}, so {named(event.by)} is not its head (who queues writes arrive {name} first)"
    return f"the head of lock {name} is {past.in_queue(name, lock.main[0])}"


def wrong_move(judged, past, name, lock, event):
    if judged.rules.mode != "cna":
        return f"mode {judged.rules.mode} moves nobody aside"
    moves = lock.lawful_moves(judged.rules)
    head, behind = lock.main[0], lock.main[1 + moves : 2 + moves]
    may = f"{moves} may be moved aside" if moves else "nobody may be moved aside"
    if not behind:
        return f"{may}: nobody else stands behind the head {named(head)}"
    if behind[0] == lock.main[-1]:
        return f"{may}: {past.in_queue(name, behind[0])}, is the last of the queue, and the last stays"
    is_interrupt = judged.rules.format == "2" and behind[0][1] > 0
    where = "is an interrupt, which stays in format 2" if is_interrupt else f"stands on socket {judged.rules.sockets[behind[0][0]]}, as the head {named(head)} does"
    return f"{may}: {past.in_queue(name, behind[0])}, {where}"


def wrong_next(_judged, past, name, lock, event):
    moved = judge.moved_of(event)
    following = lock.main[1 + moved : 2 + moved]
    behind = f"behind the {moved} that are moved aside" if moved else f"behind the head {named(event.by)}"
    return f"{behind} stands {past.in_queue(name, following[0]) if following else 'nobody'}, and not {event.words[1]}"


def over_threshold(judged, _past, name, lock, event):
    _main, second, passes = lock.passed(judge.moved_of(event))
    waiter, most = max(zip(second, passes), key=lambda pair: pair[1])
    return f"with this handoff {named(waiter)}, which is aside, would have been passed by {most}, and the threshold is {judged.rules.threshold}"


def no_kick(judged, past):
    for name, lock in judged.locks.items():
        if lock.main and not lock.holders and lock.main[0] in judged.asleep and not judged.is_owed(lock.main[0][0]):
            head = lock.main[0]
            return f"lock {name} is free, its head {named(head)} has halted at line {past.since('halt', name, head)}, and no kick of processor {head[0]} is owed or remembered"
    return "the head of a free lock has halted, and no kick of its processor is owed or remembered"


REASONS = {"Beside": beside, "NotHolder": not_holder, "Twice": twice, "WrongHead": wrong_head, "WrongMove": wrong_move, "WrongNext": wrong_next, "OverThreshold": over_threshold}
