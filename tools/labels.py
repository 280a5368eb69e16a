"""What the documents and the sources say of the rows, by their labels."""
import re
from pathlib import Path

import tables

TOP = Path(__file__).resolve().parent.parent
PARTS = TOP / "crates" / "lk_rows" / "src" / "parts.rt"


def told():
    """Of each row what its line in docs/rows says, by column, and the name of its page."""
    pages = sorted((TOP / "docs" / "rows").glob("*.md"))
    lines = [{**row, "page": page.stem} for page in pages for _, row in tables.rows_of(tables.unfenced(page.read_text())) if row]
    return {row["Row"]: row for row in lines if "Row" in row and "Code" in row}


def verbs():
    """What each row does, in a word."""
    return {label: row["Verb"] for label, row in told().items()}


def meanings():
    """What each row does, in a sentence: the comment of its label in the sources. A swap there is what the documents call a
    compare-exchange."""
    text = PARTS.read_text() if PARTS.exists() else ""
    return {label: re.sub("^Swaps", "Compare-exchanges", said) for said, label in re.findall(r"^    /// (.*)\n    (\w+),$", text, re.M)}
