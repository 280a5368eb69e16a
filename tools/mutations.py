"""Edits: files that each make a mutation of a crate's code, which the prover must refuse."""
import re
from pathlib import Path

# The folder of a crate's edits that the gate tries, and that of those which are tried before a version is made.
IN_GATE, BESIDE = "must-fail", "edits"


def changes(text):
    """Each change of an edit: the file, the line as it stands there, and as the mutation has it."""
    path, old = "", ""
    for line in text.splitlines():
        word, _, rest = line.partition(": ")
        if word == "file":
            path = rest.strip()
        elif word == "old":
            old = rest
        elif line.startswith("new:"):
            yield path, old, re.sub(r"^new: ?", "", line)


def failures(sources):
    """An edit that the gate does not try can still be applied: the text that it replaces stands in its file exactly once."""
    for path in sources.files:
        parts = path.split("/")
        if len(parts) != 4 or parts[0] != "crates" or parts[2] != BESIDE:
            continue
        found = list(changes((sources.top / path).read_text()))
        if not found:
            yield f"{path}: changes nothing"
        for file, old, new in found:
            text = sources.text.get(f"crates/{parts[1]}/{file}", "")
            times = text.count(old) if old else 0
            if times != 1 or old == new:
                yield f"{path}: its text stands {times} times in {file}, and has to stand there once and be changed"


def edits_beside(top):
    """The edits that the gate does not try, by crate."""
    found = {}
    for path in sorted(Path(top).glob(f"crates/*/{BESIDE}/*.edit")):
        found.setdefault(path.parts[-3], []).append(path)
    return found
