"""Puts lines of ours into a tree of Linux: patch/*.places says where, by a line of Linux that stands there once."""
import re
from pathlib import Path
from typing import NamedTuple

PATCH = Path(__file__).resolve().parent / "patch"
# Files of ours, and where they stand in the tree.
ADDED = {"ring.h": "include/linux/qlock_ring.h", "ring.c": "kernel/locking/qlock_ring.c", "halts.c": "kernel/locking/qlock_halts.c"}
HOW = ("before", "behind", "instead", "if")
CONDITION = re.compile(r"(\s*if )\((.*)\)( \{)?$")


class Place(NamedTuple):
    """Where lines of ours stand: in a file, in a function of it or in all of it, and how they stand to the anchor."""
    file: str
    function: str | None
    how: str
    anchor: str
    ours: list


def places(text):
    """The places of a file of patch, in its order."""
    file, function, found = None, None, []
    for line in text.splitlines():
        word, _, rest = line.partition(" ")
        if line.startswith("\t") or not line and found and found[-1].ours and found[-1].how != "if":
            found[-1].ours.append(line[1:])
        elif word == "file":
            file, function = rest, None
        elif word == "in":
            function = rest
        elif word in HOW:
            found.append(Place(file, function, word, rest, []))
    return found


def span_of(lines, function):
    """The lines of a function: one that is not indented names it, and the next brace at the left edge ends it."""
    begins = re.compile(rf"(?:\S.*)?\b{function}\(")
    starts = [at for at, line in enumerate(lines) if begins.match(line) and not line.endswith(";") and line[:1] != "#"]
    if len(starts) != 1:
        raise SystemExit(f"conformance: {function} begins {len(starts)} times, and not once")
    return starts[0], next(at for at in range(starts[0], len(lines)) if lines[at] == "}")


def only(lines, place):
    """The number of the anchor's line."""
    first, last = span_of(lines, place.function) if place.function else (0, len(lines))
    found = [at for at in range(first, last) if lines[at].strip() == place.anchor]
    if len(found) != 1:
        raise SystemExit(f"conformance: {place.file}, {place.function or 'anywhere'}: {place.anchor!r} stands there {len(found)} times, and not once")
    return found[0]


def with_condition(line, ours):
    head, condition, brace = CONDITION.match(line).groups()
    return f"{head}(({condition}) && {ours}){brace or ''}"


def put(lines, place):
    at = only(lines, place)
    anchor, ours = lines[at], [line for line in place.ours]
    while ours and not ours[-1]:
        ours.pop()
    kept = {"before": [*ours, anchor], "behind": [anchor, *ours], "instead": ours}
    lines[at : at + 1] = [with_condition(anchor, ours[0].strip())] if place.how == "if" else kept[place.how]


def patched(linux, names):
    """The text of each file that any patch names, as these patches make it of Linux's."""
    every = [place for path in sorted(PATCH.glob("*.places")) for place in places(path.read_text())]
    texts = {place.file: Path(linux, place.file).read_text().split("\n") for place in every}
    for name in names:
        for place in places((PATCH / name).read_text()):
            put(texts[place.file], place)
    return {file: "\n".join(lines) for file, lines in texts.items()}


def write(linux, tree, names):
    """Patches a tree that shares its files with Linux's by links. What has its text already keeps its time, and is not compiled again."""
    texts = patched(linux, names)
    texts.update({target: (PATCH / name).read_text() for name, target in ADDED.items()})
    for file, text in texts.items():
        path = Path(tree, file)
        if not path.exists() or path.read_text() != text:
            path.unlink(missing_ok=True)
            path.write_text(text)
