"""What the scripts of this folder share: the versions of Linux, the build folder, the tables, the program."""
import atexit
import os
import re
import shutil
import sys
import tempfile
import typing

HERE = os.path.dirname(os.path.abspath(__file__))
EXAMPLES = os.path.join(HERE, "../examples")
PROGRAM = os.path.join(HERE, "../crates/lk_cli/out/lk_cli")
# The first one is that whose lines the documents name.
VERSIONS = ("6.1", "6.12")


def take_version(words):
    """The version that `--linux VERSION` in front of the words names, which it takes away; the first one without."""
    if words[:1] != ["--linux"]:
        return VERSIONS[0]
    del words[0]
    if not words or words[0] not in VERSIONS:
        sys.exit("conformance: --linux takes one of " + ", ".join(VERSIONS))
    return words.pop(0)


def table(version):
    """The path of the table of operations."""
    return os.path.join(HERE, "operations", version + ".txt")


def whole_table(build, version):
    """The path of the table that the harness reads: that of operations, and behind it the places of the waits that are run beside
    KVM's."""
    path = os.path.join(build, "table.txt")
    with open(path, "w") as whole:
        for part in (table(version), os.path.join(HERE, "operations/waits", version + ".txt")):
            with open(part) as lines:
                whole.write(lines.read() + "\n")
    return path


def say(text):
    """How far a script is, for who waits for it."""
    print("conformance: " + text, file=sys.stderr, flush=True)


def build_folder(version):
    """That of the version in the environment's CONFORMANCE_BUILD, which is kept, or in a temporary one."""
    named = os.environ.get("CONFORMANCE_BUILD")
    if named:
        folder = os.path.join(os.path.abspath(named), version)
        os.makedirs(folder, exist_ok=True)
        return folder
    made = tempfile.mkdtemp(prefix="conformance-")
    atexit.register(shutil.rmtree, made, ignore_errors=True)
    return made


def program():
    """The path of qlock's program: that of the environment's QLOCK, or the one that `qlock` builds."""
    found = os.environ.get("QLOCK", PROGRAM)
    if not os.access(found, os.X_OK):
        sys.exit("conformance: there is no program %s: ./qlock proves and builds it, tools/unproved FILE makes one without proofs, "
                 "and QLOCK=FILE names another" % found)
    return os.path.abspath(found)


class Place(typing.NamedTuple):
    """A line of the table. What operation, word, order and conditions may be, the table's head says."""

    row: str
    file: str
    function: str
    line: int
    operation: str
    word: str
    order: str
    conditions: list


def places(version):
    """The lines of the table, in its order: the operations, and with them the fences and dependencies."""
    found, file = [], None
    with open(table(version)) as lines:
        for line in lines:
            if line.startswith("file "):
                file = line.split()[1]
            elif re.match(r" *\d", line):
                number, function, operation, word, order, row, *conditions = line.split()
                found.append(Place(row, file, function, int(number), operation, word, order, conditions))
    return found


def is_operation(place):
    """Whether Linux makes an operation on a shared word there."""
    return place.operation not in ("none", "fence", "depends")
