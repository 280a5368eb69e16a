"""The sources of the running locks as they are driven: a copy, in which each row says its name and each operation goes through a gate.

`lk_run` gets one line a row, and nothing else: the first line of the function whose comment says `the row R`. In `lk_domain` the
operations of locks and nodes go through `gate.rt.in`, and a processor keeps what the gate needs. `lk_pvdomain` gets both. The driver is a
crate of its own."""
import re
import shutil
import subprocess
import sys
from pathlib import Path

HERE = Path(__file__).resolve().parent
TOP = HERE.parent.parent
BELOW = "lk_names lk_word lk_text lk_rows lk_law lk_waits lk_values lk_cell lk_forms lk_domain lk_run lk_pvdomain"

# A comment of a function that is a row, up to the function's body, and the one row whose function has no such comment.
COMMENT = re.compile(r"((?:^ *//.*\n)+)((?: *#\[.*\]\n)*)((?: *(?:pub(?:\(crate\))? )?fn (\w+)(?s:.*?)\n)( *)\{\n)", re.M)
NAMED = re.compile(r"\b[Tt]he\s+(?://+\s+)?row\s+(?://+\s+)?([A-Z][a-z]?\d+)\b")
UNNAMED = {("spin.rt", "unlock"): "U1"}

# What an operation is to its row, by the rule under which it is made.
HOW = {"Resets": "Before", "RunsLooks": "Before", "Exchanges": "Joins", "Entries": "Enters", "TailLooks": "Names"}
OPERATION = re.compile(r"(\bdomain\s*\.table\s*\.shared|\btable\s*\.shared|\bshared)\s*\.(\w+)::<(\w+)(?:<\w+>)?>\(\s*seat,")
# The same of the paravirtual lock, whose functions get no processor: the files whose functions are rows, and the lines that are rows
# elsewhere. A halted processor is asked only where a kick is remembered, and a turn made again finds that kick taken.
PV_HOW = {"ResetLooks": "Before", "EntryLooks": "Spares", "Entries": "Enters", "HaltLooks": "Halts", "Wakings": "Wakes", "StealTries": "Steals",
          "HeadTries": "Heads", "ReleaseTries": "Releases", "Fillings": "Fills", "PlaceLooks": "Finds(lock)", "Erasings": "Empties(lock)"}
PV_FILES = "arriving.rt waiting.rt leading.rt handing.rt"
PV_ROWS = (
    ("halting.rt", "    if moves::take_free(", "seat", "F1"),
    ("halting.rt", "    if moves::look_once(", "seat", "T1"),
    ("halting.rt", "    if moves::take_once(", "seat", "T2"),
    ("halting.rt", "    tries::try_release(seat, domain, lock, HELD)\n", "seat", "U2"),
    ("freeing.rt", "    let pair = hash::take_out(", "seat", "U3"),
    ("freeing.rt", "    words::go_on(seat, domain, lock, WordUse::Drops);", "seat", "U4"),
    ("freeing.rt", "    kicks::kick(", "seat", "U5"),
)
PV_ASKED = "    if !is_kicked(domain, own.cpu) {\n        return false;\n    }\n"
SHARED = re.compile(r"let shared = &((?:domain\.)?table)\.shared;")
IN_DOMAIN = (
    ("cpu.rt", "    pub(crate) notes: Notes,\n", "    pub(crate) notes: Notes,\n    pub(crate) row: &'static str,\n    pub(crate) made: &'static str,\n"
     "    pub(crate) shot: Option<crate::gate::Shot>,\n    pub(crate) below: u32,\n    pub(crate) wrong: u32,\n"),
    ("cpu.rt", "        self.notes.depth\n", "        self.notes.depth + self.below\n"),
    ("making.rt", "            notes,\n", "            notes,\n            row: \"\",\n            made: \"\",\n            shot: None,\n            below: 0,\n            wrong: 0,\n"),
    ("making.rt", "let near = plan.first_state() + plan.halting_words();", "let near = plan.first_state() + plan.halting_words() + crate::gate::GATE;"),
    ("lib.rt", "mod domain;\n", "mod domain;\npub mod gate;\n"),
)


def changed(path, old, new):
    text = path.read_text()
    if text.count(old) != 1:
        sys.exit(f"running_locks: {path.name} has {text.count(old)} times what is to be changed, and not once:\n{old}")
    path.write_text(text.replace(old, new))


def name_rows(folder):
    """Each row says its name. The names, by the file and the function."""
    names = {}

    def named(found):
        comment, marks, function, name, indent = found.groups()
        row = UNNAMED.get((path.name, name)) or (NAMED.search(comment) or [None, None])[1]
        if row is None:
            return found[0]
        names[path.name, name, row] = row
        return f'{comment}{marks}{function}{indent}    cpu.at("{row}");\n'

    for path in sorted(folder.glob("*.rt")):
        path.write_text(COMMENT.sub(named, path.read_text()))
    return names


def gate_operations(folder):
    """Each operation on a word goes through the gate. How many there are."""
    count = 0

    def gated(found):
        words = "shared" if found[1] == "shared" else "&domain.table" if found[1].startswith("domain") else "table"
        return f"crate::gate::at({words}, crate::gate::How::{HOW.get(found[3], 'Row')}).{found[2]}(seat,"

    for name in ("moves.rt", "node_moves.rt", "rw_moves.rt"):
        path = folder / "locks" / name
        text, times = OPERATION.subn(gated, path.read_text())
        path.write_text(SHARED.sub(r"let shared = &\1;", text))
        count += times
    for path in (folder / "locks").glob("*.rt"):
        path.write_text(path.read_text().replace("&mut cpu.seat", "cpu.at_row(domain)"))
    return count


def gate_pv(folder):
    """The rows of the paravirtual lock say their names, and its operations go through the gate. How many there are."""
    for name in PV_FILES.split():
        def named(found):
            comment, marks, function, _, indent = found.groups()
            row = NAMED.search(comment)
            line = f'{indent}    lk_domain::gate::name(seat, &self.domain.table, "{row[1]}");\n' if row else ""
            return f"{comment}{marks}{function}{line}"
        path = folder / name
        path.write_text(COMMENT.sub(named, path.read_text()))
    for name, line, seat, row in PV_ROWS:
        changed(folder / name, line, f'    lk_domain::gate::name({seat}, &domain.table, "{row}");\n{line}')
    changed(folder / "kicks.rt", PV_ASKED, "")
    count = 0
    for path in sorted(folder.glob("*.rt")):
        def gated(found):
            return f"lk_domain::gate::at(&domain.table, lk_domain::gate::How::{PV_HOW.get(found[3], 'Row')}).{found[2]}(seat,"
        text, times = OPERATION.subn(gated, path.read_text())
        if path.name != "making.rt":
            path.write_text(text)
            count += times
    return count


def forget_gate(path):
    """A pattern of a processor names no field of the gate."""
    path.write_text(re.sub(r"(let Cpu \{(?:\s*\w+: _,)*\s*seat,)(\s*\})", r"\1 ..\2", path.read_text()))


def make_tree(tree, mistakes=()):
    """The copy, in a folder, with these mistakes, of which the driver makes the one whose number it is given."""
    (tree / "crates").mkdir(parents=True)
    for crate in BELOW.split():
        shutil.copytree(TOP / "crates" / crate, tree / "crates" / crate, ignore=shutil.ignore_patterns("out", "edits", "must-fail"))
    shutil.copytree(TOP / "tools", tree / "tools", ignore=shutil.ignore_patterns("__pycache__"))
    for name in ("HANDLES",):
        shutil.copy(TOP / name, tree / name)
    lines = [line for line in (TOP / "crates.txt").read_text().splitlines() if line.split(":")[0] in BELOW.split()]
    (tree / "crates.txt").write_text("\n".join([*lines, f"lk_driver: {BELOW}"]) + "\n")
    driver = tree / "crates/lk_driver"
    for folder in ("specs", "proofs"):
        (driver / folder).mkdir(parents=True)
        (driver / folder / "Lib.antt").write_text("")
    (driver / "src").mkdir()
    for source in (HERE / "driver").glob("*.rt.in"):
        shutil.copy(source, driver / "src" / source.stem)
    shutil.copy(TOP / "crates/lk_steps/src/text.rt", driver / "src/text.rt")
    domain = tree / "crates/lk_domain/src"
    shutil.copy(HERE / "gate.rt.in", domain / "gate.rt")
    for name, old, new in IN_DOMAIN:
        changed(domain / name, old, new)
    forget_gate(domain / "ending.rt")
    for mistake in mistakes:
        changed(tree / "crates" / mistake.crate / "src" / mistake.file, mistake.right, mistake.wrong)
    return name_rows(tree / "crates/lk_run/src"), gate_operations(domain), gate_pv(tree / "crates/lk_pvdomain/src")


def compile_tree(tree, file):
    """Compiles the driver, not proved, and keeps it as the file."""
    run = subprocess.run([tree / "tools/unproved", "--of", "lk_driver", file], stdin=subprocess.DEVNULL)
    if run.returncode:
        sys.exit(f"running_locks: the driver was not made; its sources are in {tree}")


def compile_steps(file):
    """Compiles the program behind `./qlock steps`, as it stands, and gives its file."""
    run = subprocess.run([TOP / "tools/unproved", "--steps", file], stdin=subprocess.DEVNULL)
    if run.returncode:
        sys.exit("running_locks: the program behind ./qlock steps was not made")
    return file
