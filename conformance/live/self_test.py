"""Tries each rule of events.py on a record that needs it: with the rule its history is lawful, and without it has the breach that the rule
is there for. The judge of tools/judge.py audits, and tools/audits/standing.py strictly too. Then tries what is asked of a walk of the page."""
import contextlib
import sys
from pathlib import Path

HERE = Path(__file__).resolve().parent
sys.path[:0] = [str(HERE), str(HERE.parent.parent / "tools")]

import events
import judge
import walking
from audits import standing

LOCK = 0xFFFF888000001000


def node(word):
    cpu, index = word.split("/")
    return int(cpu), int(index)


def slot_of(line):
    """A line of a record as the kernel writes it into the ring."""
    who, what, *rest = line.split()
    who, _, index = who.partition("/")
    cpu, context = map(int, who.split("."))
    argument = 0
    if rest and what == "ARRIVE":
        met = node(rest[0])
        argument = met[0] + 1 << 18 | met[1] << 16
    elif rest and what == "PASS":
        argument = node(rest[0])[0] * 4 + node(rest[0])[1]
    elif rest:
        argument = int(rest[0])
    return events.SLOT.pack(LOCK, argument, int(index or 0), getattr(events, what) if what != "HOLE" else 0, cpu, context)


def samples():
    """The records: of each its mode and its slots."""
    found, name = {}, None
    for line in (HERE / "samples" / "rules.txt").read_text().splitlines():
        if line.startswith("sample "):
            _, name, mode = line.split()
            found[name] = (mode, [])
        elif line and not line.startswith("#"):
            found[name][1].append(slot_of(line))
    return {name: (mode, b"".join(slots)) for name, (mode, slots) in found.items()}


def answer(mode, slots):
    """What is answered for a record: of its one history, strictly too; or that it has none."""
    histories = list(events.Telling(slots, mode).histories())
    if not histories:
        return "none"
    if "lock 0 rw" in histories[0].text and " take 0 " in histories[0].text:
        return "refused"
    found = judge.verdict(histories[0].text).split()
    if found[0] == "lawful" and standing.not_alone(histories[0].text.encode()):
        return "NotAlone"
    return found[-1] if found[0] == "breach" else "lawful"


def same(told, *_):
    """No rule."""
    return told


def from_first(told, starts, left):
    """The beginning without the arrivals that stand behind it."""
    first = next(at for at, event in enumerate(told) if event.what in starts)
    return told[first:]


def only_before_owing(told, last, left):
    """Failed releases by what follows alone, without a look at the end of the record."""
    return events_without_failed(told, {event.who: -1 for event in told}, left)


def over_holes(slots, left):
    """The slots that were written, as if nothing were missing between them."""
    size = events.SLOT.size
    return events_by_lock(b"".join(slots[at : at + size] for at in range(0, len(slots), size) if slots[at + 13]), left)


def by_index(told, left):
    """Arrivals where their numbers are, and the index of a node as if it were its owner's context."""
    return [event._replace(argument=(event.argument >> 2, event.argument & 3)) if event.what == events.PASS else event for event in told]


def at_once(told, left):
    """Halts put behind the next take, and told at the end where there is none."""
    kept = events_behind_takes(told, left)
    return kept + [event for event in told if event.what == events.HALT and event not in kept]


events_without_failed, events_by_lock, events_behind_takes = events.without_failed, events.by_lock, events.behind_takes
# A record, what is answered for it, a rule with another one in its place, and what is answered then.
CASES = (
    ("arrivals", "lawful", "settled", by_index, "WrongHead"),
    ("emptied", "lawful", "settled", by_index, "NotAlone"),
    ("owners", "lawful", "settled", by_index, "WrongNext"),
    ("begins", "lawful", "begun", same, "NotHolder"),
    ("begins", "lawful", "begun", from_first, "WrongHead"),
    ("begins_sole", "lawful", "begun", from_first, "WrongHead"),
    ("hole", "lawful", "by_lock", over_holes, "Beside"),
    ("readers", "lawful", "folded", same, "Beside"),
    ("failed", "lawful", "without_failed", same, "NoKick"),
    ("failed_at_end", "lawful", "without_failed", only_before_owing, "NoKick"),
    ("early_halt", "lawful", "behind_takes", same, "NoKick"),
    ("halt_at_end", "lawful", "behind_takes", at_once, "NoKick"),
    ("old_kick", "lawful", "owed", same, "NoKick"),
    ("both_kinds", "none", "only_kind", same, "refused"),
)


# What ./qlock says of a walk, of all locks and of the tortured one alone, with their statuses; and what is wrong with the walk.
WALKED = "lawful: 98765 events told of 123456, of 1234 locks (12 reader-writer), in 39 histories"
ALONE = "lawful: 4321 events told of 123456, of 1 lock (0 reader-writer), in 1 history"
REFUSED = "refused: no take and no release is told of a class with torture_"
WALKS = (
    (WALKED, 0, ALONE, 0, None),
    (WALKED.replace("lawful", "breach"), 8, ALONE, 0, "no lawful answer"),
    (WALKED, 8, ALONE, 0, "no lawful answer"),
    ("refused: there are no statistics", 3, ALONE, 0, "no lawful answer"),
    (WALKED.replace(" 98765", " 9876"), 0, ALONE, 0, "less than 10000 events of 100 locks"),
    (WALKED.replace(" 1234 ", " 12 "), 0, ALONE, 0, "less than 10000 events of 100 locks"),
    (WALKED, 0, REFUSED, 3, "nothing is told of the lock that was tortured"),
)
# What a guest says of the commands of a walk, the seconds of those that ended, and the one that did not.
STEPS = (
    (["live: runs", "live: 1.50 begins 0", "live: 3.75 ends 0", "live: 4.00 begins 1", "live: 4.25 ends 1"], ({0: 2.25, 1: 0.25}, None)),
    (["live: 1.50 begins 0", "live: 3.75 ends 0", "live: 4.00 begins 1", "sh: no such command"], ({0: 2.25}, 1)),
)


def walks_wrong():
    """What is wrong with the page, as it is walked, and with what is asked of a walk."""
    for way in walking.ways():
        if sum("sleep 2" in line for line in way.commands) != 1 or not way.call.startswith("./qlock import lockdep --stat "):
            yield f"the page's way by {way.name}: {way.commands}, {way.call}"
    for wrong in walking.WRONG:
        walking.changed(next(way for way in walking.ways() if way.name == wrong.way), wrong)
    for line, status, alone, alone_status, wanted in WALKS:
        found = walking.fault(walking.Told([line], status, 1, 1), walking.Told([alone], alone_status, 1, 1))
        if found != wanted:
            yield f"a walk that says {line!r} with {status}, and {alone!r} with {alone_status}: {found}; wanted: {wanted}"
    for told, wanted in STEPS:
        if walking.steps(told) != wanted:
            yield f"the steps {told}: {walking.steps(told)}; wanted: {wanted}"


@contextlib.contextmanager
def instead(name, other):
    rule = getattr(events, name)
    setattr(events, name, other)
    try:
        yield
    finally:
        setattr(events, name, rule)


def main():
    """Prints what is not as it should be; the status of the script."""
    records, failures = samples(), 0
    for name, wanted, rule, other, wrong in CASES:
        found = answer(*records[name])
        with instead(rule, other):
            without = answer(*records[name])
        if (found, without) != (wanted, wrong):
            failures += 1
            print(f"{name}: {found}, and {without} with another {rule}; wanted: {wanted}, and {wrong}")
    for wrong in walks_wrong():
        failures += 1
        print(wrong)
    print(f"{len(CASES)} rules tried, each also without it, and {len(WALKS) + len(STEPS)} walks; {failures} failures")
    return 1 if failures else 0
