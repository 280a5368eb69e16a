"""The setups of the table in docs/EXPLORE.md: the header of each, its figures, and the rows that no schedule makes."""
import re
from pathlib import Path
from typing import NamedTuple

TOP = Path(__file__).resolve().parent.parent.parent
TABLE = TOP / "docs" / "EXPLORE.md"
SETUPS = TOP / "examples" / "explore"
LINE = re.compile(r"^\| (?:(\w+), (\d) processors, each (once|twice)|\[(\w+)\]\([^)]*\)) ((?:\| [\d,]+ ){7})\| ([^|]*) \|$", re.M)
# The table of folded states: the setup, all states, those that are left, and the edges between these.
FOLD = re.compile(r"^\| (?:(\w+), (\d) processors, each (once|twice)|\[(\w+)\]\([^)]*\)) \| [\d,]+ \| ([\d,]+) \| ([\d,]+) \|$", re.M)
TIMES = {"once": 1, "twice": 2}


class Setup(NamedTuple):
    name: str
    # The header, up to the line `go`.
    text: str
    # The figures of the table, and the rows that it says no schedule makes.
    figures: list
    never: str

    @property
    def acts(self):
        """The acts that are explored."""
        cpus = int(re.search(r"^cpus (\d+)", self.text, re.M)[1])
        handled = dict.fromkeys(re.findall(r"^irq (\d+)", self.text, re.M))
        return [*(f"step {cpu} 1" for cpu in range(cpus)), *(f"int {cpu}" for cpu in handled)]


def header(mode, cpus, times):
    lines = ["qtrace 1", f"mode {mode}", f"cpus {cpus}"]
    lines += ["sockets " + " ".join(str(cpu % 2) for cpu in range(cpus)), "threshold 1"] if mode == "cna" else []
    lines += ["spins 1"] if mode == "pv" else []
    return "\n".join([*lines, "lock 0 spin", *(f"prog {cpu}" + " lock 0 unlock 0" * times for cpu in range(cpus)), "go", ""])


def folds():
    """Of each setup in which two processors are alike, how many states and edges are left where they are folded."""
    return {example or f"{mode} {cpus} {times}": [int(each.replace(",", "")) for each in counts] for mode, cpus, times, example, *counts in FOLD.findall(TABLE.read_text())}


def setups():
    for mode, cpus, times, example, figures, never in LINE.findall(TABLE.read_text()):
        text = (SETUPS / f"{example}.qtrace").read_text().replace("end\n", "") if example else header(mode, int(cpus), TIMES[times])
        yield Setup(example or f"{mode} {cpus} {times}", text, [int(figure.replace(",", "")) for figure in figures.split("|") if figure.strip()], never)
