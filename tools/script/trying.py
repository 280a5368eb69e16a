"""What the program of a crate answers to files, compiled once and without proofs, by `rt try --cases`."""
import re
import shutil
import subprocess
import tempfile
from pathlib import Path
from typing import NamedTuple

from script.programs import CRATES

TOLD = re.compile(r"((?:^(?!case=).*\n)*)^case=(\S+) (.*)$", re.M)
ENDED = re.compile(r"run=ended status=(\d+) ")
TEXT = re.compile(r"^== (\S+)\n((?:^(?!== ).*\n)*)", re.M)


class Untried(Exception):
    """The program could not be compiled, or answered nothing."""


class Answer(NamedTuple):
    """A status, which is none where the program did not end, and what stood on standard error and output."""
    status: int | None
    note: str
    text: str


def tried(crate, files, *words):
    """The answer of the crate's program to each file, which has a name of its own here: the program reads it as standard input."""
    with tempfile.TemporaryDirectory() as folder:
        for name, path in files.items():
            shutil.copy(path, Path(folder) / name)
        command = ["rt", "try", "--cases", folder, *(["--", *words] if words else [])]
        run = subprocess.run(command, cwd=CRATES / crate, stdin=subprocess.DEVNULL, capture_output=True, text=True)
    texts = dict(TEXT.findall(run.stdout))
    ends = {name: (ENDED.match(line), note.strip()) for note, name, line in TOLD.findall(run.stderr)}
    if not ends:
        raise Untried(f"the program could not be tried: {(run.stdout + run.stderr)[-1000:]}")
    return {name: Answer(int(end[1]) if end else None, note, texts.get(name, "")) for name, (end, note) in ends.items()}
