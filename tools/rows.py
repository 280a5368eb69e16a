#!/usr/bin/env python3
"""rows.py [--index]

The tables of docs/rows against the code: each row of the machine stands once, with a verb, the function that makes it, and the
functions and step calls that make it on threads. The lists of all rows, of lk_explore and of tools/finder, have each row too. `tools/check`
asks it. --index writes docs/rows/index.md anew: each row in a line, with
its verb and its page from the tables, and what it does from the sources.
"""
import re
import sys
from collections import Counter
from pathlib import PurePosixPath

sys.dont_write_bytecode = True

import labels
from finder import asked
from tables import rows_of, unfenced

INDEX = labels.TOP / "docs" / "rows" / "index.md"
HEAD = """# Index of the rows

Each row in a line. `tools/rows.py --index` writes this page: the verbs are those of the tables, and what a row does is the comment of its variant of `Pc`.

| Label | Verb | What it does | Page |
|---|---|---|---|
"""

CODE = re.compile(r"\[`(\w+)::(\w+)`\]\(([^)]+)\)")
# A function, or a method, with the comment above it and its body; what a comment says of rows; the step calls that a cell or a
# body names.
FUNCTION = re.compile(r"^((?: *//.*\n)+)(?: *#\[.*\n)*( *)(?:pub(?:\(crate\))? )?fn (\w+)", re.M)
VERB = re.compile(r"[a-z]{3,8}")
SAID = re.compile(r"\b[Rr]ows? ([^.]*)")
STEPS = re.compile(r"\bsteps::(\w+)")
DISPATCH = re.compile(r"\b(?:Pc::)?([A-Z]\w*)\)?\s*=>\s*(\w+)::(\w+)\(")
# The functions of lk_explore that list the rows in their order, and a label there.
LISTS, LABEL = "crates/lk_explore/src/rows.rt", re.compile(r"\b(?:Wr|[A-Z])\d+\b")


def failures(sources):
    made = {}
    for path, text in sources.text.items():
        if path.endswith("/src/row.rt"):
            folder = path[: -len("/row.rt")]
            made.update({label: (f"{folder}/{module}.rt", name) for label, module, name in DISPATCH.findall(text)})
    told = Counter()
    for path in sources.documents():
        if path.startswith("docs/rows/"):
            for _, row in rows_of(unfenced((sources.top / path).read_text())):
                if row and "Row" in row and "Code" in row:
                    told[row["Row"]] += 1
                    if not VERB.fullmatch(row.get("Verb", "")):
                        yield f"{path}: {row['Row']}: its verb is no word of three to eight letters: {row.get('Verb')!r}"
                    yield from (f"{path}: {row['Row']}: {failure}" for failure in code(sources, row, made))
                    yield from (f"{path}: {row['Row']}: {failure}" for failure in threads(sources, row))
    for label in sources.rows:
        if told[label] != 1:
            yield f"docs/rows: the row {label} stands {told[label]} times"
    for label in told.keys() - set(sources.rows):
        yield f"docs/rows: there is no row {label}"
    if LABEL.findall(sources.text[LISTS].partition("fn all_rows")[0]) != sources.rows:
        yield f"{LISTS}: its rows are not those of the sources, in their order"
    for label in sorted(set(sources.rows) ^ set(asked.ROWS)):
        yield f"tools/finder/asked.py: {label} is not both a row and in its lists"
    if not INDEX.exists() or INDEX.read_text() != index():
        yield "docs/rows/index.md is not what tools/rows.py --index writes"


def index():
    """The page that has each row in a line, in the order of the sources."""
    told = labels.told()
    lines = [f"| {label} | {told[label]['Verb']} | {said} | [{told[label]['page']}]({told[label]['page']}.md) |\n" for label, said in labels.meanings().items() if label in told]
    return HEAD + "".join(lines)


def code(sources, row, made):
    found = CODE.fullmatch(row["Code"])
    if not found:
        yield f"its code is not named: {row['Code']}"
        return
    module, name, link = found.groups()
    file = str(PurePosixPath(*[part for part in PurePosixPath(link).parts if part != ".."]))
    if made.get(row["Row"]) != (file, name):
        yield f"its code is {made.get(row['Row'])}"
    if PurePosixPath(file).stem != module or not re.search(rf"\bfn {name}\b", sources.text.get(file, "")):
        yield f"no function {module}::{name} in {file}"


def functions(text):
    """Each function of a file with the comment above it, its name and its body."""
    for found in FUNCTION.finditer(text):
        yield found[1], found[3], text[found.end() : text.find(f"\n{found[2]}}}\n", found.end())]


def rows_in(sources, comment):
    """The rows that a comment names behind the word row, up to the end of its sentence."""
    found = set()
    for words in SAID.findall(" ".join(line.strip(" /") for line in comment.splitlines())):
        for first, last in re.findall(r"(\w+) to (\w+)", words):
            if {first, last} <= set(sources.rows):
                found |= set(sources.rows[sources.rows.index(first) : sources.rows.index(last) + 1])
        found |= set(re.findall(r"\w+", words)) & set(sources.rows)
    return found


def threads(sources, row):
    """Each function of the column On threads says that it makes the row, and they make each step call that is named, and no other."""
    if "On threads" not in row:
        return
    made = set()
    for _, name, link in CODE.findall(row["On threads"]):
        file = str(PurePosixPath(*[part for part in PurePosixPath(link).parts if part != ".."]))
        bodies = [body for comment, found, body in functions(sources.text.get(file, "")) if found == name and row["Row"] in rows_in(sources, comment)]
        if not bodies:
            yield f"{file} has no function {name} that says it makes the row"
        made |= {step for body in bodies for step in STEPS.findall(body)}
    if made != set(STEPS.findall(row["On threads"])):
        yield f"on threads it is made by the step calls {', '.join(sorted(made)) or 'none'}"


def main(words):
    if words != ["--index"]:
        is_help = words[:1] in (["-h"], ["--help"])
        print(__doc__.strip(), file=sys.stdout if is_help else sys.stderr)
        return 0 if is_help else 2
    INDEX.write_text(index())
    return 0


if __name__ == "__main__":
    sys.exit(main(sys.argv[1:]))
