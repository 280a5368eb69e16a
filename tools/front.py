"""What a newcomer meets first: the help page and its man page, the usage line, second lines of refusals, and --help of each tool."""
import os
import re
import subprocess

import manpage
import refusal
from script import table

USAGE = re.compile(r'"(usage: qlock [^"\\]*)')
SCRIPTS = ("tools/", "bench/", "examples/", "conformance/")


def failures(sources):
    yield from manpage.failures()
    yield from usage(sources)
    yield from refusal.failures()
    for path in sources.files:
        if path.startswith(SCRIPTS) and path.count("/") == 1:
            yield from helps(sources.top, path)


def usage(sources):
    """The script's usage line is the program's."""
    wanted = USAGE.search(sources.text["crates/lk_command/src/notes.rt"])
    if table.USAGE != wanted[1]:
        yield f"tools/script/table.py: its usage line is not the program's: {wanted[1]}"


def helps(top, path):
    """A script says with --help what it does; one that only others import cannot be run."""
    if not os.access(top / path, os.X_OK):
        if path.startswith("bench/") and path.endswith(".py"):
            yield f"{path}: it can not be run"
        return
    run = subprocess.run([top / path, "--help"], stdin=subprocess.DEVNULL, capture_output=True, text=True)
    if run.returncode or len(run.stdout) < 80:
        yield f"{path} --help: its status is {run.returncode}, and it says {run.stdout[:80]!r}"
