"""What the scripts of this folder share: the interposer's build, the environment that sets it before a program, and its counts."""
import contextlib
import os
import signal
import subprocess
import sys
from pathlib import Path

HERE = Path(__file__).resolve().parent
sys.path.insert(0, str(HERE.parent))

import building

FAMILIES = ("virt", "native", "cna", "pv")


def test_of(folder):
    """The test's program, compiled."""
    flags = ("-std=c11", "-D_GNU_SOURCE", *building.WARNS)
    subprocess.run(["cc", *flags, *sorted((HERE / "test").glob("*.c")), "-lpthread", "-o", folder / "test"], check=True)
    return folder / "test"


def environment(library, family, told):
    """That of a program over the library, which appends its counts to the file `told` at its end."""
    return {**os.environ, "LD_PRELOAD": str(library), "QLOCK_FAMILY": family, "QLOCK_COUNTS": str(told)}


def counts_in(file):
    """The counts that a process wrote last; none, if none wrote any."""
    lines = file.read_text().splitlines() if file.exists() else []
    words = dict(word.split("=") for word in lines[-1].split()[1:]) if lines else {}
    return {name: int(word) if word.isdigit() else word for name, word in words.items()}


def over(library, family, words, folder, more=()):
    """A program over the library: the run, and its counts."""
    told = folder / "counts"
    told.unlink(missing_ok=True)
    its_own = {**environment(library, family, told), **dict(more)}
    with open(folder / "said", "w+") as out, open(folder / "complained", "w+") as errors:
        run = subprocess.Popen(words, env=its_own, stdin=subprocess.DEVNULL, stdout=out, stderr=errors, start_new_session=True)
        run.wait(3000)
        # A forked child that is stuck would stay.
        with contextlib.suppress(ProcessLookupError):
            os.killpg(run.pid, signal.SIGKILL)
    ended = subprocess.CompletedProcess(words, run.returncode, (folder / "said").read_text(), (folder / "complained").read_text())
    return ended, counts_in(told)
