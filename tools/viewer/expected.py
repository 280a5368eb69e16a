"""What a page has to show behind each line of its acts, computed without the page's scripts: holders and queues by the transcript's
events (tools/judge.py), words, nodes, entries and processors by what the lines met and left, who is in the slow path by the rows that
are to come, who has set the pending bit by the rows that set and clear it, and what fails by the tables of docs/rows."""
import re

import judge
import labels

LINE = re.compile(r"(\d+)(?:-(\d+))? (\d+\.\d+) (.*?)(?:, fails)?(?:, \d+ times)?(?:: (.*))?$")
VALUE = re.compile(r"(\w+) (\w+) (\S+) (\S+)(?: -> (\S+))?$")
REST = {"lock": "(0,0,0)", "node": "(0,0)", "second": "0", "runs": "0", "state": "running", "hash": "0"}
FLAGS = {"0": "unset", "1": "go"}
# How the rows of the slow path begin.
SLOW = tuple("GNCHWEK")
# The rows that clear the pending bit; E4 does where it stores.
CLEARING = ("P2", "P4", "E5")


def spelled(waiter):
    return f"{waiter[0]}.{waiter[1]}"


def fields(value):
    return value.strip("()").split(",")


class Expected:
    def __init__(self, trace, lines, transcript):
        self.rules = judge.rules_of(trace.splitlines())
        self.judge = judge.Judge(self.rules)
        self.lines = [LINE.match(line).groups() for line in lines]
        self.events = [(int(line.split(" ", 1)[0]), judge.event_of(line)) for line in transcript.splitlines() if line[0].isdigit()]
        self.values, self.node, self.preempted, self.slow, self.pends = {}, {}, set(), {}, {}
        self.told = labels.told()
        self.spinlocks = {words[1] for words in map(str.split, trace.splitlines()) if words[:1] == ["lock"] and words[2] == "spin"}

    def value(self, key):
        return self.values.get(key, REST[key.split(" ")[0]])

    def states(self):
        """The state behind each line, in their order."""
        for at, (first, last, who, deed, _) in enumerate(self.lines):
            while self.events and self.events[0][0] <= int(last or first):
                self.judge.take(self.events.pop(0)[1])
            self.tell(who, deed)
            self.go_slow(at, who, deed)
            yield self.state(at)

    def tell(self, who, deed):
        cpu = int(who.split(".")[0])
        if deed in ("pre", "res"):
            (self.preempted.add if deed == "pre" else self.preempted.discard)(cpu)
        found = VALUE.match(deed)
        if not found:
            return
        row, kind, name, met, left = found.groups()
        if row == "G1" and int(met) < 4:
            self.node[who] = f"{cpu}.{met}"
            for part in ("node", "second", "runs", "state"):
                self.values.pop(f"{part} {self.node[who]}", None)
        self.values[f"{kind} {name}"] = left or met
        if row == "E3" or row == "P1" and fields(met)[1] == "0":
            self.pends[name] = who
        elif row in CLEARING or row == "E4" and left:
            del self.pends[name]

    def spoken(self, at):
        """What a screen reader is told of a line of the list."""
        first, last, who, deed, event = self.lines[at]
        row = deed.split(" ")[0]
        said = "idle: " + deed.split(", ")[1] if "idle, " in deed else row
        if row in self.told:
            fails = "cmpxchg" in self.told[row]["Before and after"] and "->" not in deed
            said = f"{row} {self.told[row]['Verb']}{' fails' if fails else ''}"
        return f"act {first}{'-' + last if last else ''}, waiter {who}, {said}{', ' + event if event else ''}"

    def go_slow(self, at, who, deed):
        """Keeps of each context that makes a row whether it is in the slow path behind it: it is from G1 on, as long as its next row is
        one of the slow path. None where it makes no row any more."""
        waiters = self.slow.setdefault(who.split(".")[0], {})
        if not VALUE.match(deed) or not (waiters.get(who) or deed.startswith("G1 ")):
            return
        waiters[who] = next((later.startswith(SLOW) for _, _, other, later, _ in self.lines[at + 1 :] if other == who and VALUE.match(later)), None)

    def state(self, at):
        names = [key.split(" ")[1] for key in self.values if key.startswith("lock ")]
        return {
            "spoken": self.spoken(at),
            "pends": {name: self.pends.get(name, "") for name in names if self.rules.mode != "virt" and self.is_spin(name)},
            "locks": {name: self.queues(name) for name in names},
            "words": {name: self.word(name) for name in names},
            "nodes": {spelled(who): self.facts(spelled(who)) for lock in self.judge.locks.values() for who in lock.main + lock.second},
            "links": {spelled(who): self.is_linked(who, behind) for lock in self.judge.locks.values() for queue in (lock.main, lock.second)
                      for who, behind in zip(queue, queue[1:])},
            "passes": {name: max(lock.passes) for name, lock in self.judge.locks.items() if lock.passes},
            "entries": {name: self.entry(name) for name in names if self.rules.mode == "pv" and self.is_spin(name)},
            "halted": sorted({cpu for cpu, _ in self.judge.asleep}),
            "kicked": sorted(self.judge.kicked),
            "preempted": sorted(self.preempted),
            "next": self.next_contexts(at),
            "slow": {cpu: sum(waiters.values()) for cpu, waiters in self.slow.items() if None not in waiters.values()},
        }

    def is_spin(self, name):
        return name.endswith("w") or name in self.spinlocks

    def queues(self, name):
        lock = self.judge.lock(name)
        return [sorted([spelled(who), manner] for who, manner in lock.holders), [spelled(who) for who in lock.main], [spelled(who) for who in lock.second]]

    def word(self, name):
        """The fields of the word, and the number that they make in a spinlock."""
        first, second, third = fields(self.value(f"lock {name}"))
        low = 9 if self.rules.format == "2" else 16
        cpu, index = map(int, first.split(".")) if "." in first else (-1, 0)
        return [first, second, third, f"0x{(cpu + 1 << low + 2) + (index << low) + (int(second) << 8) + int(third):08x}"]

    def facts(self, who):
        """What the box of a waiter says of its node."""
        node = self.node[who]
        flag, behind = fields(self.value(f"node {node}"))
        said = [f"flag {FLAGS.get(flag, 'go, with the secondary queue from ' + flag)}", f"next {behind.replace('0', 'none') if behind == '0' else behind}"]
        if self.rules.mode == "cna":
            tail = self.value(f"second {node}")
            said += [f"socket {self.rules.sockets[int(who.split('.')[0])]}", f"runs {self.value(f'runs {node}')}", f"second tail {'none' if tail == '0' else tail}"]
        return said + ([f"state {self.value(f'state {node}')}"] if self.rules.mode == "pv" else [])

    def is_linked(self, who, behind):
        return fields(self.value(f"node {self.node[spelled(who)]}"))[1] == self.node[spelled(behind)]

    def entry(self, name):
        node = self.value(f"hash {name}")
        return "none" if node == "0" else f"node {node}"

    def next_contexts(self, at):
        """For each processor that acts again the context that acts next, but where a handler begins."""
        found = {}
        for _, _, who, deed, _ in self.lines[at + 1 :]:
            cpu, context = who.split(".")
            found.setdefault(cpu, None if deed.startswith("int") else int(context))
        return {cpu: context for cpu, context in found.items() if context is not None}
