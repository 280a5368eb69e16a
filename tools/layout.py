"""No file is longer, and no folder fuller, than a reader wants."""
from collections import defaultdict

MOST_LINES = 500
MOST_ENTRIES = 40
# A folder in which a reader finds the way by a page: docs/ARCHITECTURE.md has the crates by layer.
MOST_WITH_A_PAGE = {"crates": 61}
# What has no lines.
PICTURES = (".png",)


def failures(sources):
    entries = defaultdict(set)
    for path in sources.files:
        lines = 0 if path.endswith(PICTURES) else (sources.top / path).read_bytes().count(b"\n")
        if lines > MOST_LINES:
            yield f"{path}: {lines} lines, of {MOST_LINES} at most"
        parts = path.split("/")
        for depth in range(len(parts)):
            entries["/".join(parts[:depth])].add(parts[depth])
    for folder, inside in sorted(entries.items()):
        most = MOST_WITH_A_PAGE.get(folder, MOST_ENTRIES)
        if len(inside) > most:
            yield f"{folder or '.'}: {len(inside)} entries, of {most} at most"
