"""The help page, which is made of the table of commands; `docs/help.txt` and `docs/qlock.1` have the same text."""
import difflib
import os
import re
import shutil
import subprocess
import sys
import textwrap

from script import table
from script.programs import IS_INSTALLED, TOP, is_compiled, is_proved
from script.words import Unknown

WIDTH, DEEP = 75, " " * 8

SYNOPSIS = """\
    ./qlock [--proved] COMMAND
    ./qlock COMMAND --help
    ./qlock build | --install DIR | --help | --version"""

DESCRIPTION = """\
    qlock replays traces of Linux's queued locks, audits histories of locks,
    and runs the jobs of a ledger on threads under such a lock. Its functions
    are proved to meet their contracts, for every input and every schedule.
    (The NUMA-aware lock, CNA, is not in mainline Linux.)

    ./qlock is a script in the folder of the sources, which makes the program
    where it has to and then runs it. It takes python3. A command reads the
    FILE that is named behind it, or standard input."""

BEHIND_STATUSES = """\
    If a line is refused, the events of the lines before it have been written,
    and the closing lines have not. ledger writes nothing until all its jobs
    are done. Then the script writes a second line to standard error, which
    says what was found and what was expected:
    line 7: "-1" is not a number (0 to 18446744073709551615)."""

FILES = """\
    examples has inputs of each command. README.md is where to begin."""


def filled(text, indent=DEEP):
    return textwrap.fill(table.plain(text), WIDTH, initial_indent=indent, subsequent_indent=indent, break_on_hyphens=False, break_long_words=False)


def entry(shape, about, example):
    told = [f"    {shape}", filled(about)]
    return "\n".join([*told, f"{DEEP}Example: ./qlock {example}"] if example else told)


def of_command(command):
    return entry(command.shape, command.about, command.example)


def sections():
    ours = [command for command in table.COMMANDS if command.word in table.OWN]
    others = [command for command in table.COMMANDS if command.word not in table.OWN]
    formats = "    docs/FORMATS.md has each input and output exactly."
    yield "SYNOPSIS", SYNOPSIS
    yield "DESCRIPTION", DESCRIPTION
    yield "COMMANDS", "\n\n".join([*map(of_command, ours), formats])
    yield "COMMANDS OF THE SCRIPT", "\n\n".join(map(of_command, others))
    yield "PROVED AND NOT PROVED", textwrap.indent(table.WHAT_IS_PROVED, "    ")
    yield "OPTIONS", "\n\n".join(entry(*each) for each in table.OPTIONS)
    yield "EXIT STATUS", "\n\n".join(entry(status, said, "") for status, said in table.STATUSES) + "\n\n" + BEHIND_STATUSES
    yield "FILES", FILES


def text():
    """The whole page."""
    head = "qlock - replay, check and run the queued locks of Linux"
    return "\n\n".join([head, *(f"{name}\n{said}" for name, said in sections())]) + "\n"


def as_typed(said):
    """The text as it has to be typed here: where it is installed, the command is in PATH."""
    return re.sub(r"\./qlock\b", "qlock", said) if IS_INSTALLED else said


def words_for(tool):
    """How a script of `tools` is run: by the Python that runs this one, if it is of Python."""
    with open(tool, "rb") as script:
        return [*([sys.executable] if b"python" in script.readline() else []), str(tool)]


def page(name, word):
    """Writes the page, or that of a command; a script of `tools` has its own."""
    if not word:
        sys.stdout.write(as_typed(text()))
        return 0
    command = table.BY_WORD.get(word)
    if not command:
        others = {shape.split(" ")[0].rstrip(","): (shape, *rest) for shape, *rest in table.OPTIONS}
        if word not in others:
            near = difflib.get_close_matches(word, [*table.BY_WORD, *others], 1)
            raise Unknown(f'"{word}" is no command' + (f"; did you mean {name} help {near[0]}?" if near else f"; {name} --help has each"))
        print(as_typed(entry(*others[word])))
        return 0
    if command.tool:
        return subprocess.run([*words_for(TOP / "tools" / command.tool), "--help"], env={**os.environ, "QLOCK_NAME": f"{name} {command.word}"}).returncode
    print(as_typed(f"usage: {name} {command.shape}\n\n{of_command(command)}"))
    return 0


def version():
    found = re.search(r"^## ([0-9][0-9.]*)", (TOP / "CHANGELOG.md").read_text(), re.M)
    print(f"qlock {found[1]}")
    for crate in table.PROGRAMS:
        words = [command.word for command in table.COMMANDS if crate in command.crates]
        state = "proved" if is_proved(crate) else "compiled, not proved" if is_compiled(crate) else "not there yet"
        print(f"{crate} ({', '.join(words)}): {state}")
    if shutil.which("rt"):
        print("toolchain", subprocess.run(["rt", "version"], capture_output=True, text=True).stdout.strip())
    else:
        print("toolchain: rt is not in PATH")
    return 0
