"""The commands of `./qlock`: one entry each, and nothing else has to be changed to add one.

A command is done by a program, which is a crate, or by a script of `tools`, which is given the programs that it runs. `--help`,
`docs/help.txt` and `docs/qlock.1` are made of this table: `tools/manpage.py` writes both files.
"""
import re
from typing import NamedTuple

# The usage line of the proved program, which stands first wherever the words ask for nothing.
USAGE = "usage: qlock replay | ledger | gen <n> | load <n> | audit | osq"


class Command(NamedTuple):
    # The word, or a word with an option, as "audit --strict".
    word: str
    # What is said of it, and an example of it.
    about: str
    example: str
    # The crate whose program does it; one that does the same, and is compiled sooner where nothing is proved; and the words with
    # which the program is called, where they are not the command's own.
    crate: str = "lk_cli"
    quick: str | None = None
    words: tuple | None = None
    # A script of `tools` that is given what the program wrote, and the title.
    behind: str | None = None
    # Or the script of `tools` that does it, and the programs that it is given: a variable of its environment, and a crate.
    tool: str | None = None
    needs: tuple = ()
    # Whether that script refuses wrong options by itself: then it is asked first, with QLOCK_DRY set, before a program is made.
    checks: bool = False
    # What it reads from standard input, or from a file that is named behind it; None: nothing.
    reads: str | None = None
    # What may stand behind it: "N" a start number, "[TITLE]" a title, "OPTIONS" options of the script's own.
    takes: str = ""
    # Its options that take no value: a file may stand behind them.
    flags: tuple = ()
    # Whether the line behind it tells how the trace ended.
    tells_ending: bool = False

    @property
    def shape(self):
        """How it is called."""
        return " ".join(part for part in (self.word, self.takes, "[FILE]" if self.reads else "") if part)

    @property
    def crates(self):
        """The programs that it runs."""
        return tuple(crate for _, crate in self.needs) if self.tool else (self.crate,)

    @property
    def proved(self):
        """The programs that are proved for it: how a trace ends is told by the acts."""
        return tuple(dict.fromkeys([*self.crates, *(["lk_steps"] if self.tells_ending else [])]))


STEPS = ("QLOCK_STEPS", "lk_steps")
EXPLORE = ("QLOCK_EXPLORE", "lk_explore")
MAIN = ("QLOCK", "lk_cli")
ORDER = ("QLOCK_ORDER", "lk_order")

COMMANDS = (
    Command(
        "replay",
        "Reads a trace and writes its transcript: who took which lock by which path, act by act, and ten counts. If not all are done "
        "at the end, says on standard error who holds what, who waits where, and whether they are stuck; so do steps, picture and view.",
        "replay examples/pending.qtrace",
        quick="lk_steps", reads="a trace", tells_ending=True,
    ),
    Command(
        "audit",
        "Reads the header of a trace and behind it a transcript from anybody. Writes one line: that the history is lawful, or "
        "which line breaks it first, and how. docs/AUDIT.md says how to write one. If a lawful history ends with a lock that is held or "
        "has a queue, says so on standard error.",
        "audit examples/audit/release_left_out.history",
        reads="a history",
    ),
    Command(
        "ledger",
        "Reads a job file, runs the jobs of each worker on a thread of its own, and writes their outcome: journal, reads and "
        "closing balances.",
        "ledger examples/ledger/transfers.qjobs",
        reads="a job file",
    ),
    Command(
        "osq",
        "Reads a run of the optimistic spin queue and writes its transcript.",
        "osq examples/osq/quit_between.qosq",
        reads="a run",
    ),
    Command(
        "gen",
        "Writes the generated trace of the start number N, 1 to 2147483646. Reads nothing.",
        "gen 7 > seven.qtrace",
        takes="N",
    ),
    Command(
        "load",
        "Replays that trace in memory and writes the closing lines of its transcript. Reads nothing.",
        "load 7",
        takes="N",
    ),
    Command(
        "steps",
        "Reads a trace and writes every act as a line: the row, what it met and what it left. docs/STEPS.md explains the lines.",
        "steps examples/pending.qtrace",
        crate="lk_steps", words=(), reads="a trace", tells_ending=True,
    ),
    Command(
        "picture",
        "Reads a trace and writes a timeline of its acts as an SVG.",
        "picture examples/pending.qtrace > pending.svg",
        crate="lk_steps", words=(), behind="timeline.py", reads="a trace", takes="[TITLE]", tells_ending=True,
    ),
    Command(
        "view",
        "Reads a trace and writes one HTML page that steps through its acts. docs/VIEW.md has the keys. Option: --title TITLE.",
        "view examples/pending.qtrace > pending.html",
        tool="view", needs=(STEPS,), reads="a trace", takes="OPTIONS", tells_ending=True,
    ),
    Command(
        "find",
        "Searches by chance for a trace with an event, a row or a count, and makes it small. docs/VIEW.md has examples.",
        "find --mode cna --cpus 6 --row C8",
        tool="find", needs=(STEPS, MAIN), checks=True, takes="OPTIONS",
    ),
    Command(
        "order",
        "Reads the header of a trace, and says whether its locks have ranks; if so, no schedule deadlocks. If not, names a cycle of them, "
        "operation by operation, and searches for a deadlock. --trace FILE writes it as a trace. docs/PROGRESS.md says what is proved.",
        "order examples/order/opposite.qtrace",
        tool="finder/order", needs=(ORDER, STEPS), checks=True, reads="a trace", takes="OPTIONS",
    ),
    Command(
        "audit --strict",
        "Audits, and asks one thing more: a queue head that takes as sole, or leaves, has nobody behind it. Tested, and not proved.",
        "audit --strict examples/audit/sole_with_one_behind.history",
        tool="audits/strict", needs=(MAIN,), reads="a history",
    ),
    Command(
        "import lockdep",
        "Makes histories of exclusion of what a running kernel's lockdep told, and audits them; names class, line and last events of a breach. "
        "docs/LOCKDEP.md has the commands for a machine of one's own.",
        "import lockdep --stat events.stat events.text",
        tool="audits/lockdep", needs=(MAIN,), checks=True, takes="OPTIONS",
    ),
    Command(
        "orders",
        "Explores small setups of the locks under memory orders weaker than sequential consistency: which orders of Linux are needed, "
        "and what fails without each. Takes a C++ compiler. docs/ORDERS.md has what was found.",
        "orders table native",
        tool="../conformance/orders/run", takes="OPTIONS",
    ),
    Command(
        "explore",
        "Explores every schedule of a small trace, behind its own: which rows and events they reach and which none does, whether all can "
        "always finish, and a shortest trace to a row, an event or a state that is stuck. With --fold, states that differ only in the numbers of "
        "processors that are alike are one. With --threads N acts are tried on N threads, and what is written is the same. docs/EXPLORE.md has "
        "examples.",
        "explore --rest --row P2 examples/transient_pending.qtrace",
        tool="exploring/explore", needs=(EXPLORE,), checks=True, reads="a trace", takes="OPTIONS",
        flags=("--finished", "--stuck", "--doomed", "--rest", "--fold", "--nudges", "--preempt", "--quiet"),
    ),
)
# The commands that the proved program has by itself.
OWN = ("replay", "audit", "ledger", "osq", "gen", "load")
BY_WORD = {command.word: command for command in COMMANDS}
# The crates whose programs are built and installed.
PROGRAMS = tuple(dict.fromkeys(crate for command in COMMANDS for crate in command.proved))
# The crate that is the library for C, which is installed beside them.
LIBRARY = "qlock_c"

OPTIONS = (
    (
        "--proved COMMAND",
        "Runs the command by a proved program only. Where it is not there, proves and builds it first (see build).",
        "--proved replay examples/pending.qtrace",
    ),
    (
        "--quick COMMAND",
        "Runs the command as without an option: it never waits for a proof.",
        "--quick replay examples/pending.qtrace",
    ),
    (
        "build [--lanes N]",
        "Proves every crate, and builds the programs. It works in N lanes, copies of the sources that are removed at the end: one "
        "for each processor, if not said. It says how far it is. An interrupt ends it, and what is proved by then is kept.",
        "build",
    ),
    (
        "--install DIR",
        "Copies the proved programs, this script and what it reads below DIR: DIR/bin/qlock has all commands but build. Beside them "
        "comes the library for C, with its header, for pkg-config and man. Builds first where it has to.",
        "--install ~/.local",
    ),
    ("--help, help [COMMAND]", "Writes this page, or that of a command; so does COMMAND --help.", "help find"),
    ("--version", "Writes the version, which programs are there, and the toolchain.", ""),
)

WHAT_IS_PROVED = """\
The first call compiles the program without proving it, in about a
minute, and keeps it until a source changes. Each run of such a program
says so in a line on standard error. ./qlock build proves it, in 40 minutes
to an hour on four processors; from then on every command runs the proved
program, with no word more. Of steps and explore, the lines are tested,
and of order all answers but ordered; picture, view, find, import and
orders are tested too, and so is what audit --strict asks. docs/CLAIMS.md
says what is proved."""

STATUSES = (
    ("0", "Done. An audit: the history is lawful."),
    ("1", "From the script: the program could not be built, find found nothing, orders found a failure, or explore found that there is none."),
    ("2", "The words ask for no command. The usage line is written, and nothing is read."),
    ("3", "A line is refused by the grammar: bad input line 7: BadNumber. Of import: the trace is refused. Of orders: a limit stopped it."),
    ("4", "A read failed: read fault. From the script: there is no such file."),
    ("5", "A write failed: write fault."),
    ("6", "There was no memory: out of memory. Nothing was written."),
    ("7", "A line passes a limit: limit line 7: Acts. Or explore ended at its limit."),
    ("8", "An audited history is not lawful: unlawful line 9."),
    ("9", "Of order: the locks have no ranks, or no theorem covers the setup."),
    ("10", "Of order, from the script: a deadlock was found."),
    ("127", "From the script: rt is needed and is not in PATH."),
)


def plain(text):
    return re.sub(r"\s+", " ", text).strip()
