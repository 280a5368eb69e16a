"""What holds of each transcript, read from docs/FORMATS.md, docs/ROWS.md and docs/OSQ.md alone."""
import re

import history

RUN_EVENT = re.compile(rf"({history.NUMBER}) ({history.NUMBER}) (take free|arrive|take handed|quit|release(?: to ({history.NUMBER}))?)")


class Broken(Exception):
    """A law that a transcript breaks."""


def hold(condition, what):
    if not condition:
        raise Broken(what)


def parts_of(transcript):
    """The lines of events, and the closing lines."""
    hold(transcript.endswith("\n"), "the last line is whole")
    lines = transcript.splitlines()
    at = next((at for at, line in enumerate(lines) if line.startswith("end ")), None)
    hold(at is not None, "there is a line `end`")
    return lines[:at], lines[at:]


def check_acts(said, told):
    """Each event's act comes behind that of the one before, and is one of the processor that it names."""
    actor, last = said.actors(), 0
    for act, cpu in told:
        hold(last < act <= said.acts, f"act {act} is one behind act {last}")
        hold(actor(act) == cpu, f"act {act} is by processor {actor(act)}")
        last = act


def check_counts(mode, told, counts):
    """What the events say of the ten counts."""
    def takes(how):
        return sum(words[0] == "take" and words[2] == how for words in told)

    def events_of(verb):
        return sum(words[0] == verb for words in told)

    exact = {"lock_pending": takes("pending"), "pv_lock_stealing": takes("steal"), "pv_kick_unlock": events_of("kick")}
    least = {"lock_no_node": takes("nonode"), "lock_slowpath": takes("head") if mode == "pv" else takes("retry") + events_of("arrive")}
    for name, number in counts.items():
        hold(mode != "virt" or number == 0, f"{name} is 0 in virt")
        hold(mode == "pv" or not name.startswith("pv_") or number == 0, f"{name} is 0 outside pv")
        hold(number == exact.get(name, number), f"{name} is {exact.get(name)}")
        hold(number >= least.get(name, 0), f"{name} is at least {least.get(name)}")


def check_trace(said, transcript):
    lines, closing = parts_of(transcript)
    shapes = [history.EVENT.fullmatch(line) for line in lines]
    for line, shape in zip(lines, shapes):
        hold(shape, f"an event is spelled so: {line}")
    check_acts(said, [(int(shape[1]), int(shape[2].split(".")[0])) for shape in shapes])
    hold(closing[0] == f"end {said.acts}", f"there are {said.acts} acts")
    counts = [re.fullmatch(rf"(\w+) ({history.NUMBER})", line) for line in closing[1:]]
    hold([count and count[1] for count in counts] == list(history.COUNTS), "the ten counts close it")
    check_counts(said.mode, [shape[3].split(" ") for shape in shapes], {count[1]: int(count[2]) for count in counts})


class Queue:
    """The optimistic spin queue as its events tell it: who holds it, to whom it was handed, and who waits."""

    def __init__(self):
        self.holder = self.handed = None
        self.waiting = []

    def take(self, cpu, what, to):
        if what == "take free":
            hold(self.holder is None and self.handed is None and not self.waiting, "who takes the free lock meets nobody")
            self.holder = cpu
        elif what == "arrive":
            hold(cpu not in self.waiting and cpu != self.holder, "who arrives is not in the queue")
            self.waiting.append(cpu)
        elif what == "take handed":
            hold(self.holder is None and self.handed == cpu, "who takes a lock that was handed on is the one to whom it was")
            self.holder, self.handed = cpu, None
        elif what == "quit":
            hold(cpu in self.waiting and cpu != self.handed, "who gives up waits, and was not handed the lock")
            self.waiting.remove(cpu)
        else:
            self.release(cpu, to)

    def release(self, cpu, to):
        hold(self.holder == cpu, "who releases holds the lock")
        hold(to is None and not self.waiting or to is not None and self.waiting[:1] == [to], "the lock is handed to the first that waits")
        self.holder, self.handed = None, to
        self.waiting = self.waiting[1:]


def check_run(said, transcript):
    lines, closing = parts_of(transcript)
    shapes = [RUN_EVENT.fullmatch(line) for line in lines]
    queue = Queue()
    for line, shape in zip(lines, shapes):
        hold(shape, f"an event is spelled so: {line}")
        queue.take(int(shape[2]), shape[3].split(" to ")[0], int(shape[4]) if shape[4] else None)
    check_acts(said, [(int(shape[1]), int(shape[2])) for shape in shapes])
    hold(closing == [f"end {said.acts}"], f"there are {said.acts} acts")
