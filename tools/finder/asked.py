"""Refuses a search for what cannot be, and says what there is: `check(given)` raises NotThere.

A row, a count, an event or a breach may be unknown, or of another family than the one in which the search is; a pattern may be none; and
what is asked for may need what no trace of the search has, such as nested interrupts or a reader-writer lock."""
import difflib
import re
from types import SimpleNamespace

import grammar
import history
from finder import traces

MODES = grammar.MODES
QUEUED, HEADED = ("native", "cna", "pv"), ("native", "cna")


def labels(letter, *numbers):
    return [f"{letter}{number}" for number in numbers]


# The rows, and the modes in which they are made.
SPIN_ROWS = {
    **dict.fromkeys(("F1", "T1", "T2"), MODES),
    "U1": ("virt", "native", "cna"),
    **dict.fromkeys(("V1", "V2"), ("virt",)),
    **dict.fromkeys(labels("P", *range(5)), HEADED),
    **dict.fromkeys(("G1", "G4", "G5"), QUEUED),
    **dict.fromkeys((*labels("G", 2, 3, 6, 7, 8, 9), "N1", "N2"), HEADED),
    **dict.fromkeys(("G10", "G11"), ("native",)),
    **dict.fromkeys(labels("C", *range(1, 11)), ("cna",)),
    **dict.fromkeys((*labels("H", 1, 2), *labels("W", *range(1, 8)), *labels("E", *range(1, 16)), *labels("K", 1, 2, 3), *labels("U", 2, 3, 4, 5)), ("pv",)),
}
RW_ROWS = (*labels("R", *range(1, 6)), *labels("Wr", *range(1, 7)), *labels("Y", *range(1, 6)), "Z1", "Z2")
ROWS = {**SPIN_ROWS, **dict.fromkeys(RW_ROWS, MODES)}
COUNTS = dict.fromkeys(history.COUNTS, QUEUED) | {"lock_pending": HEADED} | dict.fromkeys([name for name in history.COUNTS if name.startswith("pv_")], ("pv",))
BREACHES = {
    **dict.fromkeys(("Beside", "NotHolder"), MODES),
    **dict.fromkeys(("Twice", "WrongHead", "WrongMove", "WrongNext"), QUEUED),
    "OverThreshold": ("cna",),
    "NoKick": ("pv",),
}
# The words of events, and the modes in which they come.
WORDS = {
    **dict.fromkeys((*history.SHAPES, *(how for hows in history.HOWS.values() for how in hows), "owing", "moved"), MODES),
    **dict.fromkeys(("arrive", "pass", "head"), QUEUED),
    **dict.fromkeys(("pending", "sole", "retry", "nonode"), HEADED),
    "virt": ("virt",),
    **dict.fromkeys(("flush", "promote", "moved"), ("cna",)),
    **dict.fromkeys(("halt", "wake", "kick", "nudge", "owing", "steal", "leave"), ("pv",)),
}
OF_RW = ("rtake", "wtake", "rrelease", "wrelease", "irq", "queued", *RW_ROWS)
# How many handlers of a processor each of these needs: contexts that wait one above the other.
NESTED = {"lock_use_node2": 1, "lock_use_node3": 2, "lock_use_node4": 3, "lock_no_node": 4, "N1": 4, "N2": 4, "nonode": 4, "int": 1, "R2": 1, "irq": 1}
NUMBERS = {"cpus": (2, 64), "locks": (0, 32), "rw": (0, 32), "sockets": (1, 64), "threshold": (0, 65535), "spins": (1, 65535), "operations": (1, 32),
           "interrupts": (0, 16), "acts": (0, 10**7), "tries": (1, 10**9), "seconds": (1, 10**7), "jobs": (1, 64), "seed": (0, 10**18)}
LABEL = re.compile(r"(?<![\w.])(?:Wr|[A-Z])\d{1,2}(?!\w)")


class NotThere(Exception):
    """What is asked for cannot be; the text says what there is."""


def listed(words, most=90):
    text = ", ".join(words)
    return text if len(text) <= most else text[: text.rindex(",", 0, most)] + ", .."


def near(word, words):
    found = [each for each in words if each.lower() == word.lower()] or difflib.get_close_matches(word, words, 1, 0.6) or [each for each in words if word.lower() in each.lower()]
    return f"; did you mean {found[0]}?" if found else ""


def modes_of(modes):
    return " or ".join(f"--mode {mode}" for mode in modes)


def setting_of(given):
    """In what the search is: of a header that is given, what that says."""
    setting = SimpleNamespace(mode=given.mode, spins=given.locks, rw=given.rw, handlers=given.interrupts, from_header=given.header is not None, sockets=given.sockets)
    if given.header:
        trace = header_of(given)
        setting.mode, setting.spins, setting.rw = trace.mode, trace.kinds.count("spin"), trace.kinds.count("rw")
        setting.handlers = max([len(handlers) for handlers in trace.handlers.values()], default=0)
    return setting


def header_of(given):
    """The header that is given; its text is kept for those that make traces of it."""
    reader = grammar.Trace()
    data = given.header.encode(errors="surrogateescape")
    try:
        for raw in grammar.lines_of(data):
            reader.take(raw)
            if "go" in reader.seen:
                return traces.read(given.header)
        reader.close()
    except grammar.Refused as refused:
        raise NotThere(f"--header: line {refused.line}: {refused.said}") from None
    raise NotThere("--header: the file has no line go, with which a header ends")


def check(given):
    """Refuses what cannot be."""
    for name, (least, most) in NUMBERS.items():
        if not least <= getattr(given, name) <= most:
            raise NotThere(f"--{name} is {getattr(given, name)}, and may be {least} to {most}")
    setting = setting_of(given)
    if setting.spins + setting.rw == 0:
        raise NotThere("there is no lock: say --locks 1 or --rw 1")
    if setting.spins + setting.rw > 32:
        raise NotThere(f"--locks and --rw are {setting.spins + setting.rw} locks, and there may be 32")
    for option, known, what in (("row", ROWS, "row"), ("count", COUNTS, "count"), ("breach", BREACHES, "breach")):
        if getattr(given, option):
            check_name(setting, getattr(given, option), known, what)
    if given.stuck:
        check_stuck(setting)
    for option in ("event", "act"):
        if getattr(given, option) is not None:
            check_pattern(setting, f"--{option}", getattr(given, option), option == "event")
    for pattern in given.via:
        check_pattern(setting, "--via", pattern, False)


def check_name(setting, name, known, what):
    if name not in known:
        family = [row for row in ROWS if re.match(r"[A-Z]r?", row)[0] == name.rstrip("0123456789")]
        if what == "row" and family:
            raise NotThere(f"{name} is no row: {listed(family, 200)} are (docs/ROWS.md)")
        there = listed(known) if what != "row" else "docs/ROWS.md has all: " + listed([row for row, modes in ROWS.items() if setting.mode in modes])
        raise NotThere(f"{name} is no {what}{near(name, known)} ({there})")
    if setting.mode not in known[name]:
        raise NotThere(f"{name} is a {what} of {' and '.join(known[name])}, and the search is in {setting.mode}{say(setting, modes_of(known[name]))}")
    check_needs(setting, name)


def say(setting, words):
    return ": the header says so" if setting.from_header else f": say {words}"


def check_needs(setting, name):
    """A reader-writer lock, a spinlock, or handlers enough."""
    if name in OF_RW and not setting.rw:
        raise NotThere(f"{name} needs a reader-writer lock, and there is none{say(setting, '--rw 1')}")
    if setting.handlers < NESTED.get(name, 0):
        raise NotThere(f"{name} needs {NESTED[name] + 1} contexts of one processor, one above the other, and it has {setting.handlers + 1}{say(setting, f'--interrupts {NESTED[name]}')}")


def check_stuck(setting):
    if setting.mode not in HEADED:
        raise NotThere(f"--stuck knows one way to a head that waits for ever, and {setting.mode} has it not{say(setting, modes_of(HEADED))}")
    if setting.handlers < 4:
        raise NotThere(f"--stuck needs a processor with five contexts that wait, and there are {setting.handlers + 1}{say(setting, '--interrupts 4')}")


def check_pattern(setting, option, pattern, is_event):
    try:
        re.compile(pattern)
    except re.error as error:
        raise NotThere(f"{option} '{pattern}' is no regular expression: {error.msg} at position {error.pos}") from None
    plain = re.sub(r"\\.|\[[^\]]*\]|\(\?[:=!]|\(\?P?<\w*>?", " ", pattern)
    for row in LABEL.findall(plain):
        if not is_event or row in ROWS:
            if is_event:
                raise NotThere(f"{row} is a row, and an event has none: say --row {row}, or --act with a pattern")
            check_name(setting, row, ROWS, "row")
    for word in re.findall(r"[a-z]{3,}", plain) if is_event else ():
        check_word(setting, word)


def check_word(setting, word):
    if not any(word in known for known in WORDS):
        meant = history.MEANT.get(word)
        raise NotThere(f'no event has "{word}"{f"; did you mean {meant}?" if meant else near(word, WORDS)} ({listed(WORDS, 200)})')
    if word in WORDS:
        if setting.mode not in WORDS[word]:
            raise NotThere(f"{word} comes in {' and '.join(WORDS[word])}, and the search is in {setting.mode}{say(setting, modes_of(WORDS[word]))}")
        check_needs(setting, word)
