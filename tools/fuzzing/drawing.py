"""Draws inputs that the formats of docs/FORMATS.md accept, and spoils them."""
import re
from typing import NamedTuple

import ledger_check

MODES = ("virt", "native", "cna", "cna", "pv", "pv")
TAKES = {"spin": (("lock", "unlock"), ("try", "unlock")), "rw": (("read", "runlock"), ("write", "wunlock"), ("tryread", "runlock"), ("trywrite", "wunlock"))}
LONGEST = 20  # operations of a program, and one block more


class Input(NamedTuple):
    """What a program is given: its words, and standard input."""

    words: tuple
    text: bytes = b""


class Setup(NamedTuple):
    """What of a drawn trace its schedule goes by: the processors that have a program or a handler, and how many of these each has.
    In a crowd they all want one lock, and queue for it."""

    mode: str
    cpus: list
    handlers: dict
    is_crowd: bool


def text_of(lines):
    return "".join(line + "\n" for line in lines).encode()


# Traces.

def draw_program(draw, kinds, depth):
    """Blocks of a lock and its release, some in others; two locks may be released crosswise where neither is tried."""
    operations, hot = [], draw.choice((0.3, 0.8))

    def add(blocks, held, depth):
        for _ in range(blocks):
            free = [lock for lock in range(len(kinds)) if lock not in held]
            if not free or len(operations) > LONGEST:
                return
            lock = free[0] if draw.random() < hot else draw.choice(free)
            tries = draw.random() < 0.2
            take, release = draw.choice([pair for pair in TAKES[kinds[lock]] if pair[0].startswith("try") == tries])
            operations.append(f"{take} {lock}")
            others = [other for other in free if other > lock and kinds[other] == "spin"]
            if others and not take.startswith("try") and draw.random() < 0.1:
                other = draw.choice(others)
                operations.extend([f"lock {other}", f"{release} {lock}", f"unlock {other}"])
                continue
            if depth and draw.random() < 0.3:
                add(draw.randint(1, 2), held | {lock}, depth - 1)
            operations.append(f"{release} {lock}")

    add(draw.choice((1, 1, 2, 3, 6)), frozenset(), depth)
    return " ".join(operations)


def draw_crowded_program(draw, kinds):
    """The first lock, some times over."""
    pairs = [pair for pair in TAKES[kinds[0]] if not pair[0].startswith("try")]
    return " ".join(f"{take} 0 {release} 0" for take, release in draw.choices(pairs, k=draw.randint(1, 5)))


def draw_cpus(draw, format, is_crowd):
    """How many processors the header says, and those that do something."""
    count = draw.choice((5, 6, 8, 10) if is_crowd else (1, 2, 2, 3, 4, 5, 7))
    most = draw.choice((count, count, 64, 1024)) if format == 2 else draw.choice((count, count, count, 64))
    return max(most, count), sorted(draw.sample(range(max(most, count)), count))


def draw_header(draw):
    """The lines of a header, and what its schedule goes by."""
    format, mode, is_crowd = draw.choice((1, 2)), draw.choice(MODES), draw.random() < 0.4
    count, cpus = draw_cpus(draw, format, is_crowd)
    kinds = [draw.choice(("spin", "spin", "rw")) for _ in range(draw.choice((1, 1, 1, 2, 3, 6)))]
    lines = [f"qtrace {format}", f"mode {mode}"] + [f"cpus {count}"] * (count > 1 or draw.random() < 0.5)
    if mode == "cna" or draw.random() < 0.1:
        sockets = draw.choice((1, 2, 2, 3, 64))
        lines.append("sockets " + " ".join(str(draw.randrange(sockets)) for _ in range(count)))
    if mode == "cna" and draw.random() < 0.7:
        lines.append(f"threshold {draw.choice((0, 0, 1, 1, 2, 3, 20))}")
    if mode == "pv" or draw.random() < 0.05:
        lines.append(f"spins {draw.choice((1, 1, 2, 3, 9))}")
    lines += [f"lock {lock} {kind}" for lock, kind in enumerate(kinds)]
    for cpu in cpus:
        if draw.random() < 0.95:
            lines.append(f"prog {cpu} {draw_crowded_program(draw, kinds) if is_crowd and draw.random() < 0.9 else draw_program(draw, kinds, 2)}")
    handlers = {cpu: draw.choice((0, 0, 1, 2, 7)) for cpu in cpus} if draw.random() < 0.6 else {}
    lines += [f"irq {cpu} {draw_program(draw, kinds, 1)}" for cpu in cpus for _ in range(handlers.get(cpu, 0))]
    return [*lines, "go"], Setup(mode, cpus, handlers, is_crowd)


def draw_phase(draw, setup, other):
    """Lines in which only some of the processors step, so that the others stand where they are: with a lock, or in a queue."""
    awake = draw.sample(setup.cpus, draw.randint(1, len(setup.cpus)))
    bursts = draw.choice(((1,), (1,), (1, 1, 2, 3), (1, 2, 5, 12)))
    for _ in range(draw.choice((2, 6, 15, 30))):
        cpu = draw.choice(awake)
        if draw.random() < other:
            words = ["pre", "res", "res"] + ["int"] * (3 if setup.handlers.get(cpu) else draw.random() < 0.2) + ["nudge"] * (setup.mode == "pv")
            yield f"{draw.choice(words)} {cpu}"
        else:
            yield f"step {cpu} {draw.choice(bursts)}"


def draw_gathering(draw, setup):
    """Lines in which one processor takes the lock, and the others come to queue for it."""
    holder, *others = draw.sample(setup.cpus, len(setup.cpus))
    yield f"step {holder} 1"
    for _ in range(draw.randint(1, 3)):
        yield from (f"step {cpu} {draw.randint(1, 5)}" for cpu in draw.sample(others, len(others)))


def draw_schedule(draw, setup):
    """Lines of a schedule: phases of steps, with interrupts, preemptions and nudges; at last all may come to their end."""
    other = draw.choice((0.02, 0.05, 0.2))
    lines = list(draw_gathering(draw, setup)) if setup.is_crowd else []
    lines += [line for _ in range(draw.choice((1, 4, 10))) for line in draw_phase(draw, setup, other)]
    if draw.random() < 0.7:
        lines += [f"res {cpu}" for cpu in setup.cpus]
        lines += [f"step {cpu} {draw.choice((10, 40))}" for _ in range(draw.randint(2, 8)) for cpu in setup.cpus]
    return lines


def dressed(draw, lines):
    """The lines as a person may have written them: other spaces, leading zeros, comments and blank lines."""
    for line in lines:
        if draw.random() < 0.05:
            yield draw.choice(("# a comment", "", "   ", "#", "\t# go"))
        words = [f"{draw.choice(('0', '00'))}{word}" if word.isdigit() and draw.random() < 0.05 else word for word in line.split(" ")]
        # The number of the format is spelled exactly so.
        words = line.split(" ") if words[0] in ("qtrace", "qosq", "qjobs") else words
        yield draw.choice((" ", " ", " ", "  ", "\t", " \t ")).join(words) + draw.choice(("", "", "", " ", "\r"))


def dress(draw, lines):
    text = text_of(dressed(draw, lines) if draw.random() < 0.2 else lines)
    return text[:-1] if draw.random() < 0.05 else text


def draw_lines(draw):
    """The lines of a trace."""
    header, setup = draw_header(draw)
    return [*header, *draw_schedule(draw, setup), "end"]


def draw_trace(draw):
    """A trace, which is refused at most for a line that its dress makes too long."""
    return Input(("replay",), dress(draw, draw_lines(draw)))


# Runs of the optimistic spin queue.

def draw_run(draw):
    cpus = draw.choice((1, 2, 3, 3, 4, 6, 10, 64))
    active = sorted(draw.sample(range(cpus), min(cpus, draw.choice((2, 3, 4, 8)))))
    lines = ["qosq 1", f"cpus {cpus}"] + [f"prog {cpu} {draw.choice((1, 1, 2, 5, 64))}" for cpu in active] + ["go"]
    bursts, gives = draw.choice(((1,), (1, 2, 3), (1, 5, 12))), draw.choice((0, 0.1, 0.4))
    for _ in range(draw.choice((10, 60, 200))):
        cpu = draw.choice(active if draw.random() < 0.98 else range(cpus))
        lines.append(f"give {cpu}" if draw.random() < gives else f"step {cpu} {draw.choice(bursts)}")
    if draw.random() < 0.6:
        lines += [f"step {cpu} {draw.choice((20, 60))}" for _ in range(3) for cpu in active]
    return Input(("osq",), dress(draw, [*lines, "end"]))


# Job files, and words.

def draw_jobs(draw):
    mode, format = draw.choice(MODES), draw.choice((1, 2))
    guards = ("spin",) if mode == "pv" else ("spin", "rw")
    text = ledger_check.draw_file(draw, (mode,), guards, most=draw.choice((5, 40, 120)))
    return Input(("ledger",), dress(draw, [f"qjobs {format}", *text.splitlines()[1:]]))


def draw_words(draw):
    number = draw.choice((draw.randint(1, 2147483646), 0, 1, 2147483646, 2147483647, 2**64, "007", "-1", "x", ""))
    pool = ["replay", "osq", "audit", "ledger", "gen", "load", "help", "--help", "-V", "qlock", "gen7", str(number)]
    if draw.random() < 0.3:
        return Input((draw.choice(("gen", "load")), str(number)))
    return Input(tuple(draw.choice(pool) for _ in range(draw.choice((0, 1, 2, 2, 3)))))


# Histories: of a program that is trusted as far as it makes them, with some events changed.

HOWS = {"take": ("fast", "try", "pending", "virt", "retry", "nonode", "steal", "head", "sole"), "rtake": ("fast", "irq", "queued", "try"),
        "wtake": ("fast", "queued", "try")}


def change_event(draw, lines, at):
    """Changes one line of a transcript so that it may still be read: leaves it out, exchanges two, or says it of another."""
    act, who, verb, *rest = lines[at].split(" ")
    way = draw.choice(("gone", "exchanged", "who", "how", "who", "tail", "other"))
    if way == "gone":
        del lines[at]
    elif way == "exchanged" and at + 1 < len(lines):
        other = lines[at + 1].split(" ", 1)
        lines[at], lines[at + 1] = f"{act} {other[1]}", f"{other[0]} {lines[at].split(' ', 1)[1]}"
    elif way == "who":
        lines[at] = " ".join([act, draw.choice(lines).split(" ")[1], verb, *rest])
    elif way == "how" and verb in HOWS:
        lines[at] = " ".join([act, who, verb, rest[0], draw.choice(HOWS[verb])])
    elif way == "tail" and verb == "pass":
        to = draw.choice((rest[1], draw.choice(lines).split(" ")[1]))
        lines[at] = " ".join([act, who, verb, rest[0], to, *draw.choice((["moved", str(draw.randint(1, 4))], rest[2:]))])
    elif way == "tail" and verb == "release":
        lines[at] = " ".join([act, who, verb, rest[0]] + ["owing", who.split(".")[0]] * draw.randrange(2))
    elif way == "other" and rest:
        lines[at] = " ".join([act, who, draw.choice(("arrive", "release", "leave", "flush", "promote", "halt", "wake", "miss")), rest[0]])


def draw_history(draw, transcript_of):
    """The header of a drawn trace, and behind it its transcript, in which some events may be changed."""
    trace = text_of(draw_lines(draw))
    transcript = transcript_of(trace).decode()
    cut = transcript.index("end ") if transcript.startswith("end ") else transcript.index("\nend ") + 1
    events, closing = transcript[:cut].splitlines(), transcript[cut:].splitlines()
    for _ in range(draw.choice((0, 1, 1, 1, 2, 4))):
        if events:
            verb = draw.choice(sorted({line.split(" ")[2] for line in events}))
            change_event(draw, events, draw.choice([at for at, line in enumerate(events) if line.split(" ")[2] == verb]))
    header = header_of(trace)
    if draw.random() < 0.2:
        header = re.sub(rb"^threshold .*$", b"threshold 0", header, flags=re.M)
    return Input(("audit",), header + text_of([*events, *closing]))


def header_of(trace):
    """The lines of a trace up to `go`."""
    taken = []
    for line in trace.split(b"\n"):
        taken.append(line)
        if line.split() == [b"go"]:
            break
    return b"\n".join(taken) + b"\n"


# Inputs that may be refused.

NUMBERS = (b"0", b"1", b"2", b"3", b"63", b"64", b"65", b"1023", b"1024", b"1025", b"65535", b"65536", b"100000000", b"100000001",
           b"18446744073709551615", b"18446744073709551616", b"000000000000000000001", b"00000000000000000001", b"-1", b"+1", b"1x")
VOCABULARY = (b"qtrace", b"qosq", b"qjobs", b"mode", b"cpus", b"sockets", b"threshold", b"spins", b"lock", b"prog", b"irq", b"go", b"step", b"int",
              b"pre", b"res", b"nudge", b"give", b"end", b"guard", b"workers", b"accounts", b"job", b"move", b"add", b"sum", b"get", b"spin", b"rw",
              b"virt", b"native", b"cna", b"pv", b"try", b"unlock", b"read", b"tryread", b"runlock", b"write", b"trywrite", b"wunlock", b"#", b"take")


def spoil_words(draw, line):
    """The line with a word gone, said twice, put in or replaced."""
    words = line.split(b" ")
    at = draw.randrange(len(words))
    new = draw.choice(NUMBERS if words[at].isdigit() and draw.random() < 0.8 else VOCABULARY + NUMBERS)
    way = draw.choice(("gone", "twice", "in", "other", "other", "other"))
    behind = {"gone": [], "twice": [words[at]] * 2, "in": [words[at], new], "other": [new]}[way]
    return b" ".join(words[:at] + behind + words[at + 1:])


def spoil_line(draw, lines):
    """Changes one line, or its place."""
    at, other = draw.randrange(len(lines)), draw.randrange(len(lines))
    way = draw.choice(("words", "words", "words", "gone", "twice", "moved", "bytes", "long", "blank"))
    if way == "words":
        lines[at] = spoil_words(draw, lines[at])
    elif way == "gone":
        del lines[at]
    elif way == "twice":
        lines.insert(other, lines[at])
    elif way == "moved":
        lines.insert(other, lines.pop(at))
    elif way == "bytes":
        place = draw.randrange(len(lines[at]) + 1)
        lines[at] = lines[at][:place] + bytes([draw.choice((0, 9, 11, 13, 32, 35, 127, 128, 255))]) + lines[at][place:]
    elif way == "long":
        lines[at] += b" " * (draw.choice((4095, 4096, 4097)) - len(lines[at]))
    else:
        lines.insert(at, b"")


def spoil(draw, text):
    lines = text.split(b"\n")
    for _ in range(draw.choice((1, 1, 1, 2, 3))):
        spoil_line(draw, lines)
        lines = lines or [b""]
    text = b"\n".join(lines)
    return text[:draw.randrange(len(text) + 1)] if draw.random() < 0.1 else text


def draw_input(draw, transcript_of):
    """An input of any word, as often as it may tell something."""
    kind = draw.random()
    if kind < 0.03:
        return draw_words(draw)
    if kind < 0.55:
        drawn = draw_trace(draw)
    elif kind < 0.7:
        drawn = draw_run(draw)
    elif kind < 0.85:
        drawn = draw_history(draw, transcript_of)
    else:
        drawn = draw_jobs(draw)
    return drawn._replace(text=spoil(draw, drawn.text)) if draw.random() < 0.3 else drawn
