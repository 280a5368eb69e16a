"""The programs: which are there and fit the sources, and how one is compiled where none is.

A program is built of the crates that stand below it. Beside it stands the checksum of their sources. The proved one is `out/NAME` of
its crate, and one that was compiled without proofs is `out/unproved`. Where the script is installed the proved programs
stand in `programs`, and there are no sources.
"""
import contextlib
import functools
import hashlib
import os
import shutil
import subprocess
import sys
from pathlib import Path

from script import running
from script.table import LIBRARY

TOP = Path(__file__).resolve().parent.parent.parent
CRATES = TOP / "crates"
IS_INSTALLED = not (TOP / "crates.txt").exists()
# Where programs stand once they are installed.
INSTALLED = TOP / "programs"
# Seconds that an interrupted script gets to remove what it has begun.
GRACE = 30
PROOFS, CODE = (".rt", ".antt"), (".rt",)


def say(text):
    print(f"qlock: {text}", file=sys.stderr, flush=True)


class Failed(Exception):
    """The command cannot be done; what is said, and the exit status."""

    def __init__(self, said, status=1):
        super().__init__(said)
        self.said, self.status = said, status


def need_rt(what):
    if not shutil.which("rt"):
        raise Failed(f"{what}, and the toolchain's command rt, which does it, is not in PATH", 127)


@functools.lru_cache(None)
def graph():
    """The crates, each with those of ours that it uses."""
    lines = [line.partition("#")[0] for line in (TOP / "crates.txt").read_text().splitlines()]
    words = [line.replace(":", " ").split() for line in lines if line.strip()]
    names = {first for first, *_ in words}
    return {first: [each for each in rest if each in names] for first, *rest in words}


def below(crate):
    """A crate and those that it stands on, lowest first."""
    found = {}

    def visit(name):
        for each in graph()[name]:
            if each not in found:
                visit(each)
        found[name] = None

    visit(crate)
    return list(found)


@functools.lru_cache(None)
def sources_of(crate, endings):
    told = hashlib.sha256()
    for folder, inside, files in os.walk(CRATES / crate):
        inside[:] = sorted(name for name in inside if name != "out")
        for name in sorted(files):
            if name.endswith(endings):
                path = os.path.join(folder, name)
                told.update(os.path.relpath(path, CRATES).encode() + b"\0")
                told.update(hashlib.sha256(Path(path).read_bytes()).digest())
    return told.hexdigest()


def checksum(crate, endings):
    """The checksum of what a program is built of."""
    told = hashlib.sha256((TOP / "crates.txt").read_bytes())
    for name in below(crate):
        told.update(f"{name} {sources_of(name, endings)}\n".encode())
    return told.hexdigest()


def proved_path(crate):
    name = f"lib{crate}.a" if crate == LIBRARY else crate
    return INSTALLED / name if IS_INSTALLED else CRATES / crate / "out" / name


def unproved_path(crate):
    return CRATES / crate / "out" / "unproved"


def mark_of(path):
    return path.with_name(path.name + ".sources")


def fits(path, crate, endings):
    """Whether a program is there, and is built of the sources as they are."""
    try:
        return os.access(path, os.R_OK if path.suffix == ".a" else os.X_OK) and mark_of(path).read_text().strip() == checksum(crate, endings)
    except OSError:
        return False


def is_proved(crate):
    path = proved_path(crate)
    return os.access(path, os.X_OK) if IS_INSTALLED else fits(path, crate, PROOFS)


def is_compiled(crate):
    return not IS_INSTALLED and fits(unproved_path(crate), crate, CODE)


def ended(words):
    """Runs a script to its end; a signal ends it, and it removes what it has begun."""
    with running.interrupts_raise(), subprocess.Popen(words, stdin=subprocess.DEVNULL, stdout=sys.stderr) as run:
        try:
            return run.wait()
        except running.Interrupted:
            run.terminate()
            with contextlib.suppress(subprocess.TimeoutExpired):
                run.wait(GRACE)
            raise


def compile_unproved(crate, path=None, *how):
    """Compiles a program without proofs, and keeps it."""
    if IS_INSTALLED:
        raise Failed(f"{proved_path(crate)} is not there; ./qlock --install puts it there")
    need_rt("a program has to be compiled")
    say(f"compiling {crate} without proofs: half a minute to two minutes, and longer on a busy machine; it is kept")
    path = path or unproved_path(crate)
    path.parent.mkdir(exist_ok=True)
    mark_of(path).unlink(missing_ok=True)
    made, told = path.with_name(f"{path.name}.{os.getpid()}"), checksum(crate, CODE)
    try:
        if ended([TOP / "tools" / "unproved", "--of", crate, *how, made]):
            raise Failed(f"{crate} could not be compiled")
        made.rename(path)
        mark_of(path).write_text(told + "\n")
    finally:
        made.unlink(missing_ok=True)


def ready(crate):
    """A program that can be run at once, or None."""
    return proved_path(crate) if is_proved(crate) else unproved_path(crate) if is_compiled(crate) else None


def named(variable, crate):
    """The program that a script of `tools` runs: the one that the variable of its environment names, as `./qlock` sets it; or one that is
    there and fits the sources."""
    path = os.environ.get(variable) or ready(crate)
    if path and os.access(path, os.X_OK):
        return str(path)
    script = os.path.basename(sys.argv[0])
    sys.exit(f"{script}: {variable} names no program: {path}" if path else f"{script}: there is no program of {crate}: ./qlock makes it, or {variable} names one")


def path_of(crate, quick=None):
    """The program to run, and whether it is proved: the proved one where it fits, else one that is compiled without proofs. `quick` does
    the same, and is compiled sooner."""
    for name in (crate, quick):
        if name and is_proved(name):
            return proved_path(name), True
    for name in (crate, quick):
        if name and is_compiled(name):
            return unproved_path(name), False
    compile_unproved(quick or crate)
    return unproved_path(quick or crate), False
