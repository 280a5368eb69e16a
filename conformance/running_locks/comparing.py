"""What the running locks did, line by line, and what `./qlock steps` tells."""
import re
import subprocess
from collections import Counter

LINE = re.compile(r"(\d+)(?:-(\d+))? (.*)")
TIMES = re.compile(r", \d+ times$")
ROW = re.compile(r"\d+ \d+\.\d+ [A-Z]")
# The statuses of the driver: all acts were made; the next one asks for what no caller may ask.
END, OUTSIDE = 0, 10
MOST_CPUS = 64


def setting(lines, word):
    return next((line.split()[1] for line in lines if line.split()[:1] == [word]), None)


def runs_here(lines):
    """Whether a domain can make the acts of the trace."""
    if int(setting(lines, "cpus") or 1) > MOST_CPUS:
        return False
    # A domain whose waiters halt has spinlocks alone.
    return setting(lines, "mode") != "pv" or not any(line.split()[:1] == ["lock"] and "rw" in line.split() for line in lines)


def acts_of(told):
    """A line for each act, without its event: consecutive acts that did the same have one line in what is told."""
    for line in told.splitlines():
        first, last, what = LINE.fullmatch(line).groups()
        what = what.split(": ")[0]
        for act in range(int(first), int(last or first) + 1):
            yield f"{act} {TIMES.sub('', what) if last else what}"


def output(command, text, good):
    run = subprocess.run(command, input=text, capture_output=True)
    if run.returncode not in good:
        return run.returncode, None
    return run.returncode, run.stdout.decode()


class Tally:
    """How much was compared, by family."""

    def __init__(self):
        self.traces, self.acts, self.rows, self.whole = Counter(), Counter(), Counter(), Counter()
        self.kinds, self.different = Counter(), 0

    def add(self, family, acts, is_whole):
        rows = [act for act in acts if ROW.match(act)]
        self.traces[family] += 1
        self.acts[family] += len(acts)
        self.rows[family] += len(rows)
        self.whole[family] += is_whole
        self.kinds.update(row.split()[2] for row in rows)

    def __str__(self):
        lines = [f"{family}: {self.traces[family]} traces, {self.whole[family]} to their end; {self.acts[family]} acts, {self.rows[family]} rows" for family in self.traces]
        lines.append(f"{len(self.kinds)} rows of the tables were made: " + " ".join(f"{row} {count}" for row, count in sorted(self.kinds.items())))
        return "\n".join([*lines, f"{self.different} traces differ"])


def difference(programs, text, tally):
    """The first difference between what both programs do, or none."""
    steps, driver = programs
    status, told = output(steps, text, (END,))
    if told is None:
        return differs(tally, f"steps ended with {status}")
    status, made = output(driver, text, (END, OUTSIDE))
    if made is None:
        return differs(tally, f"the driver ended with {status}")
    wanted, found = list(acts_of(told)), made.splitlines()
    tally.add(setting(text.decode().splitlines(), "mode"), found, status == END)
    for one, other in zip(wanted, found):
        if one != other:
            return differs(tally, f"steps tells {one!r}, and the running locks did {other!r}")
    if len(found) > len(wanted) or status == END and len(found) < len(wanted):
        return differs(tally, f"steps tells {len(wanted)} acts, and the running locks made {len(found)}")
    return None


def differs(tally, what):
    tally.different += 1
    return what
