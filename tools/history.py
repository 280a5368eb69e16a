"""The lines of transcripts and of audited histories behind `go`, read as docs/FORMATS.md spells them. A line that may not stand there is
refused with the program's name of the fault, and with a sentence that says what it should look like."""
import difflib
import re

COUNTS = ("lock_pending", "lock_slowpath", "lock_use_node2", "lock_use_node3", "lock_use_node4", "lock_no_node", "pv_lock_stealing", "pv_wait_node",
          "pv_wait_head", "pv_kick_unlock")
NUMBER = "(?:0|[1-9][0-9]*)"
WHO = rf"{NUMBER}\.{NUMBER}"
HOWS = {
    "take": ("fast", "try", "pending", "virt", "retry", "nonode", "steal", "head", "sole"),
    "rtake": ("fast", "irq", "queued", "try"),
    "wtake": ("fast", "queued", "try"),
}
SPINLOCKS = ("take", "release", "arrive", "pass", "flush", "promote", "leave", "halt", "wake")
WITHOUT_LOCK = ("kick", "int", "nudge")
# What stands behind each verb: the pattern, and how it is written.
SHAPES = {
    **{verb: (rf" {NUMBER}w? (?:{'|'.join(words)})", "L HOW") for verb, words in HOWS.items()},
    "miss": (rf" {NUMBER}w?", "L"),
    "release": (rf" {NUMBER}w?(?: owing {NUMBER})?", "L, or L owing PROCESSOR"),
    **{verb: (rf" {NUMBER}w?", "L") for verb in ("arrive", "flush", "promote", "leave", "halt", "wake", "rrelease", "wrelease")},
    "pass": (rf" {NUMBER}w? {WHO}(?: moved [1-9][0-9]*)?", "L PROCESSOR.CONTEXT, or that and moved K"),
    "kick": (rf" {NUMBER}", "PROCESSOR"),
    "int": ("", ""),
    "nudge": ("", ""),
}
EVENT = re.compile(rf"({NUMBER}) ({WHO}) ({'|'.join(verb + shape for verb, (shape, _) in SHAPES.items())})")
END = re.compile(rf"end ({NUMBER})")
# What people write for a verb.
MEANT = {"lock": "take", "acquire": "take", "unlock": "release", "free": "release", "queue": "arrive", "join": "arrive", "read": "rtake", "write": "wtake",
         "runlock": "rrelease", "wunlock": "wrelease", "interrupt": "int", "irq": "int", "fail": "miss", "handoff": "pass", "hand": "pass", "sleep": "halt"}
MOST_ACTS, LONGEST, MOST_CONTEXTS = 10**8, 4096, 6
CLOSING = "behind the events stand `end N`, N the number of the last act, and the ten counts, each 0 where it is not known"


class Refused(Exception):
    def __init__(self, fault, said):
        super().__init__(said)
        self.fault, self.said = fault, said


def numbers_in(text):
    return [int(number) for number in re.findall(r"[0-9]+", text)]


def listed(words):
    return f"{', '.join(words[:-1])} or {words[-1]}" if len(words) > 1 else words[0]


class History:
    """The lines behind a header, one by one, by the checks of an audited history but for the laws."""

    def __init__(self, cpus, kinds):
        self.cpus, self.kinds = cpus, kinds
        self.last, self.left = 0, None

    def take(self, raw):
        """The line as text where it is of an event; else nothing. A line that may not stand there is refused."""
        if len(raw) > LONGEST:
            raise Refused("Line", f"{len(raw)} bytes, of {LONGEST} at most")
        if self.left == []:
            raise Refused("Misplaced", "it stands behind the last count, where nothing may, not even a blank line")
        line = raw.decode("latin-1")
        if self.left is not None:
            return self.take_count(line)
        if END.fullmatch(line):
            return self.take_end(line)
        return self.take_event(line)

    def take_count(self, line):
        shape = re.fullmatch(rf"{self.left[0]} ({NUMBER})", line)
        if not shape or int(shape[1]) >= 2**64:
            raise Refused("UnknownWord", f"behind `end` stand ten counts, each a name and a number, in their order: here {self.left[0]} 0 (nobody judges the number)")
        self.left.pop(0)

    def take_end(self, line):
        act = int(END.fullmatch(line)[1])
        if act >= 2**64:
            raise Refused("UnknownWord", f"{act} is no number of acts (at most {MOST_ACTS})")
        if not self.last <= act <= MOST_ACTS:
            raise Refused("OutOfRange", f"`end` has {act}, and may have {self.last}, the number of the last act, to {MOST_ACTS}")
        self.left = list(COUNTS)

    def take_event(self, line):
        shape = EVENT.fullmatch(line)
        if not shape:
            raise Refused("UnknownWord", said_of(line))
        act, others = int(shape[1]), numbers_in(shape[2] + " " + re.sub(r"^(\w+)", "", shape[3]))
        if act >= 2**64 or any(number >= 2**32 for number in others):
            raise Refused("UnknownWord", "a number is too large: number the events from 1, and processors, contexts and locks from 0")
        self.range(act, shape[2], shape[3].split(" "))
        self.kind(shape[3].split(" "))
        self.last = act
        return line

    def range(self, act, who, words):
        if not self.last < act <= MOST_ACTS:
            wanted = f"above {self.last}, that of the event before" if act <= self.last and self.last else f"from 1 to {MOST_ACTS}"
            raise Refused("OutOfRange", f"the number of the act is {act}, and has to be {wanted}: number the events from 1")
        for waiter in [who] + words[2:3] * (words[0] == "pass"):
            cpu, context = map(int, waiter.split("."))
            self.has_cpu(cpu)
            if context >= MOST_CONTEXTS:
                raise Refused("OutOfRange", f"the context of {waiter} is {context}, and may be 0, a task, to {MOST_CONTEXTS - 1}, the interrupts above it")
        for cpu in words[1:2] * (words[0] == "kick") + words[3:4] * (words[:1] + words[2:3] == ["release", "owing"]):
            self.has_cpu(int(cpu))
        if words[0] not in WITHOUT_LOCK and int(words[1].rstrip("w")) >= len(self.kinds):
            raise Refused("OutOfRange", f"lock {words[1]} is not there: the header declares {locks_of(len(self.kinds))} (lock i kind)")

    def has_cpu(self, cpu):
        if cpu >= self.cpus:
            raise Refused("OutOfRange", f"processor {cpu} is not there: the header has {self.cpus} (cpus n), numbered from 0")

    def kind(self, words):
        if words[0] in WITHOUT_LOCK:
            return
        name, is_wait, kind = words[1].rstrip("w"), words[1].endswith("w"), self.kinds[int(words[1].rstrip("w"))]
        is_spinlock = is_wait == (kind == "rw")
        is_right = is_spinlock if words[0] in SPINLOCKS else not (is_wait and kind == "spin") if words[0] == "miss" else kind == "rw" and not is_wait
        if is_right:
            return
        if kind == "spin":
            wanted = f"it has no wait lock {words[1]}" if is_wait else f"{words[0]} is for a reader-writer lock; of a spinlock it is take and release"
            raise Refused("WrongLock", f"lock {name} is a spinlock: {wanted}")
        wanted = f"{words[0]} is for the lock, {name}, and {words[1]} is its wait lock" if is_wait else f"{words[0]} is for its wait lock, {name}w; of the lock it is rtake, wtake, rrelease and wrelease"
        raise Refused("WrongLock", f"lock {name} is a reader-writer lock: {wanted}")

    def close(self):
        if self.left is None:
            raise Refused("NoEnd", f"the history ends without its closing lines: `end {self.last}` and ten counts, {' 0, '.join(COUNTS)} 0, each on a line (nobody judges their numbers)")
        if self.left:
            raise Refused("NoEnd", f"behind `end` stand ten counts, and {len(self.left)} are missing: write {' 0, '.join(self.left)} 0, each on a line")


def locks_of(count):
    return f"locks 0 to {count - 1}" if count > 1 else "lock 0 alone" if count else "no lock"


def said_of(line):
    """What is wrong with a line that is no event, in the order of its words."""
    if not line.strip():
        return "it is blank; behind `go` stand events alone, one a line, without blank lines"
    if line.lstrip().startswith(("#", "//", ";")):
        return "it is a comment; comments may stand in the header alone, before `go`"
    if line.endswith("\r"):
        return "it ends with a carriage return; behind `go` a line ends with a line feed alone"
    words = line.split(" ")
    if "" in words or "\t" in line:
        return "words are separated by one space, and none stands at the ends of a line"
    if words[0] in (*COUNTS, "end"):
        return f"{CLOSING}"
    if not re.fullmatch(NUMBER, words[0]):
        return f'"{words[0]}" is not the number of an act: an event begins with one, as 1 0.0 take 0 fast; number the events from 1, without leading zeros'
    if len(words) == 1 or not re.fullmatch(WHO, words[1]):
        what = f'"{words[1]}" is not who acted' if len(words) > 1 else "who acted is missing"
        return f"{what}: it is processor.context, as 0.0 (context 0 is a task, and an interrupt above it is 1)"
    return said_of_deed(words[2:])


def said_of_deed(words):
    if not words:
        return f"what happened is missing ({listed(list(SHAPES))})"
    verb, *rest = words
    if verb not in SHAPES:
        near = [MEANT[verb]] if verb in MEANT else difflib.get_close_matches(verb, SHAPES, 1)
        return f'"{verb}" is no event{f"; did you mean {near[0]}?" if near else ""} ({listed(list(SHAPES))})'
    if verb in HOWS and (len(rest) == 1 or len(rest) == 2 and rest[1] not in HOWS[verb]) and re.fullmatch(rf"{NUMBER}w?", rest[0]):
        found = f'"{rest[1]}" is not how a lock is acquired' if len(rest) == 2 else f"{verb} does not say how"
        return f"{found}: behind the lock stands one of {listed(list(HOWS[verb]))}"
    return f"{verb} is written {verb} {SHAPES[verb][1]}" + (" (L is the number of a lock, and with w behind it its wait lock)" if "L" in SHAPES[verb][1] else "")
