"""The order that a line of Linux's code names: by the names of its calls, and for two macros by the line that defines them."""
import os
import re

SUFFIX = re.compile(r"\w+_(acquire|release|relaxed) ?\(")
RELAXED = re.compile(r"\b(READ_ONCE|WRITE_ONCE|atomic_read|atomic_(?:or|andnot|add|sub)) ?\(")
FULL = re.compile(r"\b(atomic_)?(try_)?(cmpxchg|xchg) ?\(|\bLOCK_PREFIX\b")
# A plain access: a field is stored, or looked at, and nothing names an order.
PLAIN = re.compile(r"->\w+ = |\bif \(\w+->\w+\)|\bdata_race\(")
FENCE = re.compile(r"\bsmp_(mb|wmb|rmb)(?:__before_atomic)? ?\(\)")
MACRO = re.compile(r"\b(arch_mcs_spin_\w+)\(")
COMMENT = re.compile(r"/\*.*?\*/", re.S)


class Source:
    """The files of one version of Linux."""

    def __init__(self, folder):
        self.folder, self.files = folder, {}

    def lines(self, file):
        """The lines of a file, where comments are left out."""
        if file not in self.files:
            with open(os.path.join(self.folder, file)) as text:
                bare = COMMENT.sub(lambda found: "\n" * found[0].count("\n"), text.read())
            self.files[file] = bare.split("\n")
        return self.files[file]

    def line(self, file, number):
        return self.lines(file)[number - 1].strip()

    def macro(self, name):
        """The line behind the definition of a macro of the MCS lock that names an order."""
        lines = self.lines("kernel/locking/mcs_spinlock.h")
        first = next(i for i, line in enumerate(lines) if line.startswith("#define %s(" % name))
        return next(line for line in lines[first:] if SUFFIX.search(line))

    def order(self, text):
        """The order of the access that the text makes; none, if it names none."""
        macro = MACRO.search(text)
        if macro:
            return self.order(self.macro(macro[1]))
        if "smp_store_mb(" in text:
            return "mb-after"
        named = SUFFIX.search(text)
        if named:
            return named[1]
        for pattern, order in ((PLAIN, "plain"), (RELAXED, "relaxed"), (FULL, "full")):
            if pattern.search(text):
                return order
        return None

    def fences(self, file):
        """(line, order) of each barrier of a file."""
        for number, text in enumerate(self.lines(file), 1):
            found = FENCE.search(text)
            if found:
                yield number, found[1]


def stated(source, place, stores):
    """The order that the text has at a place of the table; `stores` are the lines that store for each row of each function."""
    text = source.line(place.file, place.line)
    if place.operation == "node":
        return "plain"
    if place.operation == "fence":
        found = FENCE.search(text)
        return found and found[1]
    if place.operation == "depends" and place.order == "control":
        return "control" if text.startswith("if (") else None
    if place.operation == "depends":
        used = any(place.word + "->" in source.line(place.file, line) for line in stores.get((place.row, place.function), ()))
        return "address" if used and place.word + " = " in text else None
    return source.order(text)


def faults(source, places):
    """What of the orders of the table the source does not say, and the barriers of the source that the table lacks."""
    stores, fences = {}, set()
    for place in places:
        if place.operation == "store":
            stores.setdefault((place.row, place.function), []).append(place.line)
        if place.operation == "fence":
            fences.add((place.file, place.line))
    for place in places:
        if place.operation not in ("none", "halt", "kick"):
            said = stated(source, place, stores)
            if said != place.order:
                yield "%s: %s:%d %s is %s in the table, and %s in the source" % (
                    place.row, os.path.basename(place.file), place.line, place.function, place.order, said or "not named")
    for file in sorted({place.file for place in places}):
        for line, order in source.fences(file):
            if (file, line) not in fences and file.startswith("kernel/"):
                yield "%s:%d: the table has no %s" % (os.path.basename(file), line, order)
