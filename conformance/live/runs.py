"""Boots the kernel with the ring for each run, and has each lock's history audited."""
import os
import subprocess
import sys
import time
from collections import Counter
from pathlib import Path
from typing import NamedTuple

HERE = Path(__file__).resolve().parent
sys.path[:0] = [str(HERE.parent), str(HERE.parent.parent / "tools")]

import events
import machine
import setting
from audits import auditor

# By the mode: the processor of the emulator, and a word for the kernel. A processor that names a hypervisor gets test-and-set locks.
PROCESSORS = {"native": ("max,-hypervisor", ""), "virt": ("max", ""), "pv": ("max", "ring_halts")}
SIZE, PATIENCE, SHELLS, LAST = 1024, 90, 4, 12


class Run(NamedTuple):
    """A run: the mode, what locktorture tortures, its threads, whether shells work beside it, more words for the kernel; and a fault's number."""
    mode: str
    kind: str
    threads: int = 4
    load: bool = False
    words: str = ""
    fault: int = 0

    @property
    def name(self):
        parts = [self.mode, self.kind, f"{self.threads} threads", "load" if self.load else "", self.words]
        return ", ".join(part for part in parts if part)


class Fault(NamedTuple):
    """A planted fault: what goes wrong, the run that finds it, and the breach."""
    what: str
    run: Run
    breach: str


SHORT = "ring_spins=32"
RUNS = (
    Run("native", "spin_lock"),
    Run("native", "spin_lock_irq", load=True),
    Run("native", "rw_lock", load=True),
    Run("virt", "spin_lock", load=True),
    Run("virt", "rw_lock", load=True),
    Run("pv", "spin_lock", threads=6, load=True),
    Run("pv", "spin_lock", words=SHORT),
    Run("pv", "rw_lock", load=True, words=SHORT),
)
FAULTS = (
    Fault("the pending waiter does not wait for the holder", Run("native", "spin_lock", fault=1), "Beside"),
    Fault("the head does not wait for the holder", Run("native", "spin_lock", threads=6, fault=2), "Beside"),
    Fault("once, a head goes without handing off", Run("native", "spin_lock", threads=6, fault=3), "Twice"),
    Fault("the writer does not wait for readers", Run("native", "rw_lock", fault=4), "Beside"),
    Fault("a waiter does not wait for its handoff", Run("native", "spin_lock", threads=6, fault=5), "WrongHead"),
    Fault("pv: a release that owes a kick makes none", Run("pv", "spin_lock", words=SHORT, fault=6), "NoKick"),
)


class Breach(NamedTuple):
    name: str
    line: str
    path: Path
    before: list


class Done(NamedTuple):
    """What a run gave: its telling, how many histories and events were lawful, the breaches, what the guest said, and seconds of each part."""
    slots: int
    telling: events.Telling
    histories: int
    lawful: int
    breaches: list
    ended: machine.Ended
    convert: float
    audit: float


def recorded(run, made, seconds):
    """The ring of a run, and how the run ended."""
    processor, word = PROCESSORS[run.mode]
    readers = run.threads if run.kind.startswith("rw") else 0
    words = f"{word} {run.words} live_kind={run.kind} live_writers={run.threads} live_readers={readers}"
    words += f" live_load={SHELLS if run.load else 0} live_fault={run.fault} live_seconds={seconds}"
    memory = os.memfd_create("ring")
    try:
        ended = machine.boot(made, words, processor, SIZE, PATIENCE, memory=memory)
        if "live: runs" not in ended.told:
            raise SystemExit(f"conformance: {run.name}: the guest did not come to its run\n" + "\n".join(ended.told[-20:]))
        return machine.ring_of(memory), ended
    finally:
        os.close(memory)


def breach_of(history, answer, path):
    """A breach: its line, and the last lines before it of the same lock."""
    path.write_text(history.text)
    lines = history.text.split("\n")
    words = lines[answer.at - 1].split(" ")
    lock = words[3] if len(words) > 3 else ""
    before = [line for line in lines[: answer.at] if line.split(" ")[3:4] == [lock]][-LAST:]
    return Breach(answer.line.split()[-1], lines[answer.at - 1], path, before)


def audited(telling, folder):
    """Audits each history: how many there are, how many events of lawful ones, and the breaches, whose histories are kept in a folder."""
    folder.mkdir(parents=True, exist_ok=True)
    histories, lawful, breaches, seconds = 0, 0, [], 0.0
    for history in telling.histories():
        begun = time.monotonic()
        answer = auditor.audit(history.text.encode())
        seconds += time.monotonic() - begun
        histories += 1
        if answer.status == 0:
            lawful += history.events
        elif answer.status == 8:
            breaches.append(breach_of(history, answer, folder / f"{histories:04}.history"))
        else:
            raise SystemExit(f"conformance: a history is refused: {answer.note}")
    return histories, lawful, breaches, seconds


def done(run, made, seconds, folder):
    setting.say(f"{run.name}{f', fault {run.fault}' if run.fault else ''}: booting")
    ring, ended = recorded(run, made, seconds)
    begun = time.monotonic()
    setting.say(f"{run.name}: {len(ring.slots) // machine.SLOT} events; making histories")
    telling = events.Telling(ring.slots, run.mode)
    setting.say(f"{run.name}: auditing {len(telling.told)} locks")
    histories, lawful, breaches, audit = audited(telling, folder)
    convert = time.monotonic() - begun - audit
    return Done(len(ring.slots) // machine.SLOT, telling, histories, lawful, breaches, ended, convert, audit)


def kinds(telling):
    """How often each kind of event is told, in the words of a transcript."""
    names = Counter()
    for what, number in telling.kinds.items():
        names[events.EVENTS[what].replace(" {}", "")] += number
    return ", ".join(f"{number} {name}" for name, number in names.most_common())
