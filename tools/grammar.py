"""The grammars of docs/FORMATS.md, to say where an input breaks them and how: `read(word, data)` raises Refused at the first line that
is refused, with the program's name of the fault and a sentence that says what was found and what was expected."""
import difflib
import re
from typing import NamedTuple

import history

MOST_LINE, MOST_INPUT = 4096, 1 << 30
MOST_NUMBER = (1 << 64) - 1
MOST_BALANCE = (1 << 63) - 1
MOST = {"Acts": 10**8, "Words": 64, "Handlers": 16, "Jobs": 100_000}
# How people begin a comment; and what they write for the first word of a line.
COMMENTS = ("#", "//", ";", "--", "/*")
MEANT = {"interrupt": "int", "preempt": "pre", "resume": "res", "run": "step", "steps": "step", "program": "prog", "handler": "irq", "cpu": "cpus",
         "processors": "cpus", "socket": "sockets", "locks": "lock", "start": "go", "wake": "nudge", "format": "qtrace", "account": "accounts", "jobs": "job"}
OTHERS = {"qtrace": ("a trace", "qlock replay"), "qosq": ("a run of the optimistic spin queue", "qlock osq"), "qjobs": ("a job file", "qlock ledger")}
MARK = b"\xef\xbb\xbf"
FORBIDDEN = re.compile(rb"[^\x20-\x7e\t\r]")
MODES = ("virt", "native", "cna", "pv")
KINDS = {"spin": "a spinlock", "rw": "a reader-writer lock"}
# The verbs of a program: the kind of lock, how it is held by then, whether it takes it, and whether it only tries.
VERBS = {
    "lock": ("spin", "as a spinlock", True, False),
    "try": ("spin", "as a spinlock", True, True),
    "unlock": ("spin", "as a spinlock", False, False),
    "read": ("rw", "as a reader", True, False),
    "tryread": ("rw", "as a reader", True, True),
    "runlock": ("rw", "as a reader", False, False),
    "write": ("rw", "as the writer", True, False),
    "trywrite": ("rw", "as the writer", True, True),
    "wunlock": ("rw", "as the writer", False, False),
}
RELEASES = {manner: verb for verb, (_, manner, takes, _) in VERBS.items() if not takes}


class Refused(Exception):
    def __init__(self, line, fault, said):
        super().__init__(said)
        self.line, self.fault, self.said = line, fault, said


class Line(NamedTuple):
    """A kind of line: its rank, how it is written, how many words stand behind its first (None: any), whether it stands once."""
    rank: int
    shape: str
    count: int | None
    is_single: bool = False


def looks_like(words):
    if words[0] in OTHERS:
        return f"; this is {OTHERS[words[0]][0]}, for {OTHERS[words[0]][1]}"
    if len(words) > 2 and words[0].isdigit() and re.fullmatch(r"\d+\.\d+", words[1]):
        return "; this looks like a transcript, and qlock audit reads one behind the header of a trace"
    return ""


def listed(words, last="or"):
    words = [str(word) for word in words]
    return words[0] if len(words) == 1 else f"{', '.join(words[:-1])} {last} {words[-1]}"


class Reader:
    """What all three grammars share; a subclass has its lines, and what each says."""

    what, formats, lines = "", (), {}
    last_of_header, schedule_rank = None, None

    def __init__(self):
        self.number, self.rank, self.seen = 0, None, {}
        self.format = None
        self.ended = None

    def refuse(self, fault, said):
        raise Refused(self.number, fault, said)

    def take(self, raw):
        self.number += 1
        if len(raw) > MOST_LINE:
            self.refuse("Line", f"{len(raw)} bytes, of {MOST_LINE} at most")
        byte = FORBIDDEN.search(raw)
        if self.number == 1 and raw.startswith((MARK, b"\xff\xfe", b"\xfe\xff")):
            self.refuse("NotText", f"byte 0x{raw[0]:02x} at column 1 is not allowed: the file begins with a byte order mark; write it in ASCII, or UTF-8 without the mark")
        if byte:
            self.refuse("NotText", f"byte 0x{byte[0][0]:02x} at column {byte.start() + 1} is not allowed (0x20 to 0x7e, tab and carriage return)")
        words = raw.decode("ascii").split()
        if words and not words[0].startswith("#"):
            self.take_words(words)

    def take_words(self, words):
        try:
            self.take_line(words)
        except Refused as refused:
            if any(word.startswith(COMMENTS) for word in words[1:]):
                refused.said += "; a comment stands on a line of its own"
            raise

    def take_line(self, words):
        if self.format is None:
            self.begin(words)
            return
        if words[0] not in self.lines:
            self.refuse("UnknownWord", f'"{words[0]}" begins no line of {self.what}{self.meant(words[0])} ({listed(self.lines)}){looks_like(words)}')
        line = self.lines[words[0]]
        self.place(words[0], line)
        if line.count is not None and len(words) != line.count + 1:
            self.refuse("WordCount", f'"{words[0]}" has {counted(len(words) - 1)} behind it, and takes {line.count} ({line.shape})')
        getattr(self, "say_" + words[0])(words[1:])
        self.rank = line.rank
        self.seen[words[0]] = self.number

    def opening(self):
        return f"{self.what} begins with"

    def meant(self, word):
        """What a word at the beginning of a line was perhaps meant to be."""
        if word.startswith(COMMENTS):
            return "; a comment begins with #"
        if word in VERBS and "prog" in self.lines:
            return f"; {word} stands in a program, and a program stands on one line (prog p ops)"
        near = [MEANT[word]] if MEANT.get(word) in self.lines else difflib.get_close_matches(word.lower(), self.lines, 1, 0.75)
        return f"; did you mean {self.lines[near[0]].shape}?" if near else ""

    def begin(self, words):
        if " ".join(words) not in self.formats:
            self.refuse("NoFormat", f'"{" ".join(words)[:60]}" is not the format: {self.opening()} {listed(self.formats)}{looks_like(words)}')
        self.format, self.rank = int(words[1]), 0
        self.seen[words[0]] = self.number

    def place(self, word, line):
        if line.rank == 0:
            self.refuse("Repeated", f'"{word}" stood already, at line {self.seen[word]}')
        if self.ended is not None:
            self.refuse("Misplaced", f'"{word}" stands behind "end" of line {self.ended}, where only comments may')
        if "mode" in self.lines and word != "mode" and "mode" not in self.seen:
            self.refuse("Misplaced", f'"{word}" stands before the line "mode", which comes first')
        if line.rank < self.rank or word == "go" and "go" in self.seen:
            before = max((number, name) for name, number in self.seen.items())[1]
            program = "; a program stands on one line" if word in VERBS and before in ("prog", "irq") else ""
            self.refuse("Misplaced", f'"{word}" stands behind "{before}" of line {self.seen[before]}, and belongs before it{program}')
        if self.schedule_rank is not None and line.rank >= self.schedule_rank and "go" not in self.seen:
            self.refuse("Misplaced", f'"{word}" stands before the line "go", with which the header ends')
        if line.is_single and word in self.seen:
            self.refuse("Repeated", f'"{word}" stood already, at line {self.seen[word]}')

    def value(self, word, name, least, most):
        """A number, and whether it is in its range."""
        if not re.fullmatch(r"[0-9]{1,20}", word) or int(word) > MOST_NUMBER:
            only = f"{name} is {least} here, numbered from 0 in the order of the lines" if least == most else f"0 to {MOST_NUMBER}"
            self.refuse("BadNumber", f'"{word}" is not a number ({only})')
        if not least <= int(word) <= most:
            wanted = f"has to be {least}" if least == most else f"may be {least} to {most}" if least < most else "there may be none"
            self.refuse("OutOfRange", f"{name} is {int(word)}, and {wanted}")
        return int(word)

    def choice(self, word, name, choices):
        if word not in choices:
            self.refuse("UnknownWord", f'"{word}" is not {name} ({listed(choices)})')
        return word

    def say_end(self, _):
        self.ended = self.number

    def close(self):
        self.number += 1
        if self.format is None:
            self.refuse("NoFormat", f"the input ends before its format ({listed(self.formats)})")
        if self.ended is None:
            self.refuse("NoEnd", 'the input ends without the line "end"')


def counted(number):
    return f"{number or 'no'} word{'s' if number > 1 else ''}"


class Schedule(Reader):
    """Acts of processors, which traces and runs have."""

    def __init__(self):
        super().__init__()
        self.cpus, self.acts, self.programs = 1, 0, {}

    def cpu(self, word):
        return self.value(word, "the processor", 0, self.cpus - 1)

    def count(self, times):
        self.acts += times
        if self.acts > MOST["Acts"]:
            self.refuse("Acts", f"{self.acts} acts with those of the lines before it, of {MOST['Acts']} at most")

    def say_go(self, _):
        pass

    def say_step(self, words):
        self.cpu(words[0])
        self.count(self.value(words[1], "the number of steps", 1, MOST_NUMBER))

    def no_second_program(self, cpu):
        if cpu in self.programs:
            self.refuse("Repeated", f"processor {cpu} has a program already, at line {self.programs[cpu]}")
        self.programs[cpu] = self.number


class Run(Schedule):
    what, formats, schedule_rank = "a run", ("qosq 1",), 4
    lines = {
        "qosq": Line(0, "qosq 1", 1, True),
        "cpus": Line(1, "cpus n", 1, True),
        "prog": Line(2, "prog p r", 2),
        "go": Line(3, "go", 0),
        "step": Line(4, "step p n", 2),
        "give": Line(4, "give p", 1),
        "end": Line(5, "end", 0),
    }

    def say_cpus(self, words):
        self.cpus = self.value(words[0], "the number of processors", 1, 64)

    def say_prog(self, words):
        cpu = self.cpu(words[0])
        self.value(words[1], "the number of rounds", 1, 64)
        self.no_second_program(cpu)

    def say_give(self, words):
        self.cpu(words[0])
        self.count(1)


class Trace(Schedule):
    what, formats, schedule_rank = "a trace", ("qtrace 1", "qtrace 2"), 10
    lines = {
        "qtrace": Line(0, "qtrace 1", 1, True),
        "mode": Line(1, "mode m", 1, True),
        "cpus": Line(2, "cpus n", 1, True),
        "sockets": Line(3, "sockets s0 s1 ..", None, True),
        "threshold": Line(4, "threshold t", 1, True),
        "spins": Line(5, "spins s", 1, True),
        "lock": Line(6, "lock i kind", 2),
        "prog": Line(7, "prog p ops", None),
        "irq": Line(8, "irq p ops", None),
        "go": Line(9, "go", 0),
        "step": Line(10, "step p n", 2),
        "int": Line(10, "int p", 1),
        "pre": Line(10, "pre p", 1),
        "res": Line(10, "res p", 1),
        "nudge": Line(10, "nudge p", 1),
        "end": Line(11, "end", 0),
    }

    def __init__(self):
        super().__init__()
        self.locks, self.handlers = [], {}

    def say_mode(self, words):
        self.choice(words[0], "a mode", MODES)

    def say_cpus(self, words):
        self.cpus = self.value(words[0], "the number of processors", 1, 1024 if self.format == 2 else 64)

    def say_sockets(self, words):
        if len(words) != self.cpus:
            self.refuse("WordCount", f'"sockets" has {counted(len(words))} behind it, and takes one for each of {self.cpus} processors')
        for cpu, word in enumerate(words):
            self.value(word, f"the socket of processor {cpu}", 0, 63)

    def say_threshold(self, words):
        self.value(words[0], "the threshold", 0, 65535)

    def say_spins(self, words):
        self.value(words[0], "the number of turns", 1, 65535)

    def say_lock(self, words):
        due = len(self.locks)
        if due == 32:
            self.value(words[0], "the lock", 1, 0)
        self.value(words[0], "the lock", due, due)
        self.locks.append(self.choice(words[1], "a kind of lock", KINDS))

    def say_prog(self, words):
        self.program("prog", words, self.no_second_program)

    def say_irq(self, words):
        self.program("irq", words, self.no_handler_too_many)

    def no_handler_too_many(self, cpu):
        self.handlers[cpu] = self.handlers.get(cpu, 0) + 1
        if self.handlers[cpu] > MOST["Handlers"]:
            self.refuse("Handlers", f"processor {cpu} has {MOST['Handlers']} handlers already, the most that there may be")

    def say_act(self, words):
        self.cpu(words[0])
        self.count(1)

    say_int = say_pre = say_res = say_nudge = say_act

    def program(self, word, words, tell_cpu):
        if not words:
            self.refuse("WordCount", f'"{word}" names no processor ({self.lines[word].shape})')
        tell_cpu(self.cpu(words[0]))
        Program(self).read(word, words[1:])


class Program:
    """The operations of one program, with the locks that it holds meanwhile: how, and what else was held where it was tried."""

    def __init__(self, trace):
        self.trace, self.held, self.tried = trace, {}, {}

    def read(self, word, words):
        if not words:
            self.trace.refuse("WordCount", f'"{word}" has no operation ({self.trace.lines[word].shape})')
        for number, at in enumerate(range(0, len(words), 2), 1):
            if number > MOST["Words"]:
                self.trace.refuse("Words", f"operation {number}, of {MOST['Words']} at most")
            self.operation(words[at], words[at + 1 : at + 2])
        if self.held:
            releases = " ".join(f"{RELEASES[manner]} {lock}" for lock, manner in reversed(self.held.items()))
            self.trace.refuse("StillHeld", f"the program ends and still holds {locks(self.held)}; a program stands on one line, and here {releases} is missing")

    def operation(self, verb, rest):
        trace = self.trace
        kind, manner, takes, tries = VERBS[trace.choice(verb, "a verb", VERBS)]
        if not rest:
            trace.refuse("WordCount", f'"{verb}" names no lock')
        lock = trace.value(rest[0], "the lock", 0, MOST_NUMBER)
        said = f'"{verb} {lock}"'
        if lock >= len(trace.locks):
            trace.refuse("WrongLock", f"{said}: no line declares lock {lock}")
        if trace.locks[lock] != kind:
            others = listed([other for other, of in VERBS.items() if of[0] == trace.locks[lock] and of[2:] == (takes, tries)])
            trace.refuse("WrongLock", f"{said}: lock {lock} is {KINDS[trace.locks[lock]]}, and {verb} is for {KINDS[kind]}; here it is {others}")
        if takes:
            self.take(lock, manner, tries, said)
        else:
            self.release(lock, manner, said)

    def take(self, lock, manner, tries, said):
        if lock in self.held:
            self.trace.refuse("Reheld", f"{said}: the program holds lock {lock} already, {self.held[lock]}")
        if tries:
            self.tried[lock] = dict(self.held)
        self.held[lock] = manner

    def release(self, lock, manner, said):
        if self.held.get(lock) != manner:
            how = f"holds lock {lock} {self.held[lock]}, and not {manner}" if lock in self.held else f"does not hold lock {lock}"
            self.trace.refuse("NotHeld", f"{said}: the program {how}")
        del self.held[lock]
        before = self.tried.pop(lock, None)
        if before is not None and before != self.held:
            self.trace.refuse("Crossed", f"{said} ends a try: before the try the program held {locks(before)}, and now {locks(self.held)}")


def locks(held):
    return listed([f"lock {lock}" for lock in sorted(held)], "and") if held else "nothing"


class JobFile(Reader):
    what, formats = "a job file", ("qjobs 1", "qjobs 2")
    lines = {
        "qjobs": Line(0, "qjobs 1", 1, True),
        "mode": Line(1, "mode m", 1, True),
        "guard": Line(2, "guard g", 1, True),
        "workers": Line(3, "workers n", 1, True),
        "sockets": Line(4, "sockets s0 s1 ..", None, True),
        "threshold": Line(5, "threshold t", 1, True),
        "accounts": Line(6, "accounts b0 b1 ..", None, True),
        "job": Line(7, "job w verb ..", None),
        "end": Line(8, "end", 0),
    }
    # How a job is written behind its verb: `a` an account, `n` an amount.
    jobs = {"move": "aan", "add": "an", "sum": "", "get": "a"}

    def __init__(self):
        super().__init__()
        self.mode, self.workers, self.accounts, self.count = "", 1, 0, 0

    def say_mode(self, words):
        self.mode = words[0]
        self.choice(words[0], "a mode", MODES)

    def say_guard(self, words):
        self.choice(words[0], "a kind of lock", KINDS)
        if (self.mode, words[0]) == ("pv", "rw"):
            self.refuse("WrongLock", "the lock of a ledger of mode pv is a spinlock, and \"rw\" is a reader-writer lock")

    def say_workers(self, words):
        self.workers = self.value(words[0], "the number of workers", 1, 16)

    def say_sockets(self, words):
        if len(words) != self.workers:
            self.refuse("WordCount", f'"sockets" has {counted(len(words))} behind it, and takes one for each of {self.workers} workers')
        for worker, word in enumerate(words):
            self.value(word, f"the socket of worker {worker}", 0, 63)

    def say_threshold(self, words):
        self.value(words[0], "the threshold", 0, 65535)

    def say_accounts(self, words):
        if not words:
            self.refuse("WordCount", '"accounts" has no balance (accounts b0 b1 ..)')
        if len(words) > 64:
            self.refuse("OutOfRange", f"{len(words)} accounts, of 64 at most")
        total = sum(self.value(word, f"the balance of account {at}", 0, MOST_BALANCE) for at, word in enumerate(words))
        self.accounts = len(words)
        if total > MOST_BALANCE:
            self.refuse("Total", f"the balances sum to {total}, of {MOST_BALANCE} at most")

    def say_job(self, words):
        if not words:
            self.refuse("WordCount", '"job" names no worker (job w verb ..)')
        self.value(words[0], "the worker", 0, self.workers - 1)
        if len(words) == 1:
            self.refuse("WordCount", f'"job {words[0]}" has no verb ({listed(self.jobs)})')
        places = self.jobs[self.choice(words[1], "a job", self.jobs)]
        if len(words) - 2 != len(places):
            self.refuse("WordCount", f'"{words[1]}" has {counted(len(words) - 2)} behind it, and takes {len(places)}')
        for place, word in zip(places, words[2:]):
            self.value(word, *(("the account", 0, self.accounts - 1) if place == "a" else ("the amount", 0, MOST_BALANCE)))
        self.count += 1
        if self.count > MOST["Jobs"]:
            self.refuse("Jobs", f"job {self.count}, of {MOST['Jobs']} at most")


def lines_of(data):
    """The lines of an input, without line feeds."""
    return data.split(b"\n")[: -1 if data.endswith(b"\n") or not data else None]


def read(word, data):
    """Reads an input to its end; of an audited history also what stands behind `go`, but for the laws."""
    reader = READERS[word]()
    for raw in within(data, reader):
        reader.take(raw)
    reader.close()


def within(data, reader):
    """The lines of an input, up to its limit."""
    taken = 0
    for raw in lines_of(data):
        taken += len(raw) + 1
        if taken > MOST_INPUT + 1:
            raise Refused(reader.number + 1, "Input", f"the input is longer than {MOST_INPUT} bytes")
        yield raw


def read_history(data):
    """Of an audited history the lines of its header, the events, each with the number of its line, and the refusal, if there is one."""
    reader, refused = History(), None
    try:
        for raw in within(data, reader):
            reader.take(raw)
        reader.close()
    except Refused as found:
        refused = found
    return [line.decode("latin-1") for line in lines_of(data)[: reader.header.number]], reader.told, refused


class Header(Trace):
    """The header of a trace, with which a history begins."""

    def opening(self):
        return "a history begins with the header of a trace, and that with"


class History:
    """The header of a trace up to its `go`, and behind it the lines of a transcript."""

    def __init__(self):
        self.header, self.events, self.told = Header(), None, []
        self.number = 0

    def take(self, raw):
        self.number += 1
        if self.events:
            line = self.ask(self.events.take, raw)
            if line:
                self.told.append((self.number, line))
            return
        self.header.take(raw)
        if "go" in self.header.seen:
            self.events = history.History(self.header.cpus, self.header.locks)

    def close(self):
        self.number += 1
        if self.events:
            self.ask(self.events.close)
        else:
            self.header.close()

    def ask(self, check, *given):
        try:
            return check(*given)
        except history.Refused as refused:
            raise Refused(self.number, refused.fault, refused.said) from None


READERS = {"replay": Trace, "steps": Trace, "picture": Trace, "audit": History, "osq": Run, "ledger": JobFile}
