"""What a walk of docs/LOCKDEP.md is: the page's commands and its calls of ./qlock, wrong words for them, and what is asked of the answer."""
import re
import resource
import shlex
import shutil
import subprocess
import tarfile
import time
from pathlib import Path
from typing import NamedTuple

TOP = Path(__file__).resolve().parent.parent.parent
PAGE = TOP / "docs" / "LOCKDEP.md"
BLOCK = re.compile(r"(?m)^(?:    .*\n)+")
CALL = re.compile(r"\./qlock import lockdep --stat [^`\n]*")
ANSWER = re.compile(r"(lawful|breach): (\d+) events told of (\d+), of (\d+) locks? \((\d+) reader-writer\), in (\d+) histor(?:y|ies)")
STEP = re.compile(r"live: ([\d.]+) (begins|ends) (\d+)")
FAILED = "live: failed"
# A walk with fewer events shows little, and a page that records next to nothing has a fault.
LEAST_TOLD, LEAST_LOCKS = 10_000, 100
TORTURED = "torture_"


class Way(NamedTuple):
    """A way of the page: what is tortured, its commands, its call of ./qlock, the folder of the call, and the files that it wants."""
    name: str
    kind: str
    commands: list
    call: str
    folder: str
    results: str


class Wrong(NamedTuple):
    """A page with a fault: the way, words of it and wrong ones in their place, and what is said then."""
    way: str
    words: str
    others: str
    said: str


WRONG = (
    Wrong("trace-cmd", "-C counter", "-C global", "is no counter: record with the clock `counter`"),
    Wrong("trace-cmd", "report --stat", "report --no-such-option", "the command failed: trace-cmd report --no-such-option"),
    Wrong("tracefs", "echo counter > trace_clock", "echo x86-tsc > trace_clock", "this is a clock of time, and no counter"),
    Wrong("tracefs", "echo 0 > options/overwrite; echo 65536", "echo 1 > options/overwrite; echo 64", "events (overrun)"),
)


class Told(NamedTuple):
    """What ./qlock said: its lines, first those of the answer; its status, and the seconds that passed and that it was at work."""
    lines: list
    status: int
    passed: float
    worked: float

    @property
    def counts(self):
        """The answer, events told, events read, locks, of which reader-writer locks, and histories; none if there is no answer."""
        found = ANSWER.match(self.lines[0]) if self.lines else None
        return (found[1], *map(int, found.groups()[1:])) if found else None

    @property
    def is_lawful(self):
        return self.status == 0 and bool(self.counts) and self.counts[0] == "lawful"


def ways():
    """The page's two ways: its first two blocks of commands, each with the call of ./qlock that follows."""
    text = PAGE.read_text()
    blocks = [[line[4:] for line in block.splitlines()] for block in BLOCK.findall(text)][:2]
    commands = [[line for line in block if not line.startswith("./qlock")] for block in blocks]
    calls = CALL.findall(text)
    return [
        Way("trace-cmd", "spin_lock", commands[0], calls[0], "root", "root/events.text root/events.stat"),
        Way("tracefs", "rw_lock", commands[1], calls[1], ".", "tmp/events.text tmp/stats"),
    ]


def changed(way, wrong):
    """A way with wrong words."""
    commands = [line.replace(wrong.words, wrong.others) for line in way.commands]
    if commands == way.commands:
        raise SystemExit(f"conformance: docs/LOCKDEP.md has no {wrong.words!r}")
    return way._replace(name=f"{way.name}, `{wrong.others}`", commands=commands)


def script_of(way):
    """The commands for the guest's shell, each with its times. The load ends behind the recording, as a person would end it."""
    last = next(number for number, line in enumerate(way.commands) if "sleep 2" in line)
    lines = [f'results="{way.results}"', f"work {way.kind}"]
    for number, line in enumerate(way.commands):
        lines += [f"at begins {number}", line, f"at ends {number}", *(["rest"] if number == last else [])]
    return "\n".join([*lines, "write", ""])


def steps(told):
    """The seconds of each command that came to its end, by its number; and the number of one that began, and did not."""
    begun, seconds = {}, {}
    for at, what, number in (found.groups() for found in map(STEP.match, told) if found):
        if what == "begins":
            begun[int(number)] = float(at)
        else:
            seconds[int(number)] = float(at) - begun[int(number)]
    return seconds, next((number for number in begun if number not in seconds), None)


def libraries(program):
    """The files that a program wants, by the paths under which it looks for them."""
    told = subprocess.run(["ldd", program], capture_output=True, text=True, check=True).stdout
    return {path.lstrip("/"): Path(path).read_bytes() for path in re.findall(r"(/\S+) \(0x", told)}


def guest_files():
    program = shutil.which("trace-cmd")
    if not program:
        raise SystemExit("conformance: trace-cmd is not there, by which the page records")
    return {"bin/trace-cmd": Path(program).read_bytes(), **libraries(program)}


def unpack(disk, folder):
    """Unpacks the files that the guest wrote to its disk."""
    shutil.rmtree(folder, ignore_errors=True)
    with tarfile.open(disk) as made:
        made.extractall(folder)


def asked(way, folder, program, *more):
    """What the page's call says, of the files in a folder in place of the machine's. `program` is what stands for ./qlock import lockdep."""
    call = way.call.replace("/tmp/", shlex.quote(f"{folder}/tmp") + "/")
    call = call.replace("./qlock import lockdep", shlex.join([*program, *more]))
    used, begun = resource.getrusage(resource.RUSAGE_CHILDREN), time.monotonic()
    done = subprocess.run(["sh", "-c", call], cwd=folder / way.folder, capture_output=True, text=True)
    passed, now = time.monotonic() - begun, resource.getrusage(resource.RUSAGE_CHILDREN)
    return Told((done.stdout + done.stderr).splitlines(), done.returncode, passed, now.ru_utime + now.ru_stime - used.ru_utime - used.ru_stime)


def fault(told, tortured):
    """What is wrong with the answer of a walk, of all locks and of the tortured one alone; none if it is as the page says."""
    if not told.is_lawful:
        return "no lawful answer"
    if told.counts[1] < LEAST_TOLD or told.counts[3] < LEAST_LOCKS:
        return f"less than {LEAST_TOLD} events of {LEAST_LOCKS} locks"
    if not tortured.is_lawful:
        return "nothing is told of the lock that was tortured"
    return None
