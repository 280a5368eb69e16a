"""The names, files, links and code of the documents, and the documents that the sources name."""
import re
from pathlib import PurePosixPath

from tables import rows_of, unfenced, without

LINK = re.compile(r"\[[^\]\n]*\]\(([^)\s]+)\)")
SPAN = re.compile(r"`([^`\n]+)`")
# A fenced block that names the file from which it is taken.
SHOWN = re.compile(r"^```\w+ (\S+)\n(.*?)^```$", re.M | re.S)
CLAUSES = re.compile(r"(?:`(?:\w+::)*(\w+)`,? )?clauses? ((?:`\w+`(?:, | and )?)+)")
HEADING = re.compile(r"^#+ (.*)$", re.M)
OURS = (".antt", ".rt", ".md", ".qtrace", ".qosq", ".transcript", ".py", ".edit")
FOLDERS = ("crates/", "docs/", "examples/", "tools/", "bench/")
LABEL = re.compile(r"(?<![\w.`/-])(?:[FTUVPGNCHWEKRYZ]|Wr)\d{1,2}(?![\w/])")
# What a column names outside of this repository; and names of Linux that no column has.
OUTSIDE = ("Linux", "Paper")
LINUX = {"_Q_PENDING_LOOPS", "hv_qlock_wait", "osq_lock", "osq_unlock", "osq_wait_next", "smp_mb", "smp_rmb", "smp_wmb", "xen_qlock_wait",
         "lock_acquire", "lock_acquired", "lock_release", "percpu_rwsem", "rt_mutex", "downgrade_write", "contention_begin", "contention_end"}


def failures(sources):
    texts = {path: unfenced((sources.top / path).read_text()) for path in sources.documents()}
    outside = LINUX | {name for text in texts.values() for name in outside_names(text)}
    for path, text in texts.items():
        yield from (f"{path}: {failure}" for failure in shown(sources, path))
        yield from (f"{path}: {failure}" for failure in links(sources, path, text))
        yield from (f"{path}: {failure}" for failure in names(sources, path, text, outside))
        yield from (f"{path}: {failure}" for failure in steps(sources, text))
        yield from (f"{path}: no row {label}" for label in labels(sources, text))
    for path, text in sources.text.items():
        for name in set(re.findall(r"docs/[\w/]+\.md", text)):
            if name not in sources.files:
                yield f"{path}: no document {name}"
    for path in sources.files:
        if path.endswith(".qtrace"):
            yield from (f"{path}: no row {label}" for label in labels(sources, comments(sources, path)))


def outside_names(text):
    for _, row in rows_of(text):
        for column in OUTSIDE:
            yield from re.findall(r"\w+", (row or {}).get(column, ""))


def comments(sources, path):
    lines = (sources.top / path).read_text(errors="replace").splitlines()
    return "\n".join(line for line in lines if line.startswith("#"))


def labels(sources, text):
    return sorted(set(LABEL.findall(text)) - set(sources.rows))


def shown(sources, path):
    """A block of code that names its file stands there, line by line; `..` stands for lines that are left out."""
    for file, block in SHOWN.findall((sources.top / path).read_text()):
        lines = [line.strip() for line in sources.lines_of(file)]
        for piece in re.split(r"^\s*\.\.\n", block, flags=re.M):
            wanted = [line.strip() for line in piece.splitlines()]
            if not any(lines[at : at + len(wanted)] == wanted for at in range(len(lines))):
                yield f"the code that begins `{wanted[0] if wanted else ''}` does not stand in {file}"


def anchors(text):
    slugs = (re.sub(r"[^\w\- ]", "", heading.lower()) for heading in HEADING.findall(text))
    return {slug.strip().replace(" ", "-") for slug in slugs}


def links(sources, path, text):
    for target in LINK.findall(text):
        if target.startswith(("http:", "https:")):
            continue
        name, _, anchor = target.partition("#")
        goal = (sources.top / path).parent / name if name else sources.top / path
        if not goal.exists():
            yield f"the link {target} leads nowhere"
        elif anchor and anchor not in anchors(unfenced(goal.read_text())):
            yield f"the link {target} names no heading"


def names(sources, path, text, outside):
    for line in without(text, OUTSIDE):
        for span in SPAN.findall(line):
            if not is_known(sources, path, span, outside):
                yield f"`{span}` names nothing that is there"
        for owner, found in CLAUSES.findall(line):
            known = sources.clauses.get(owner, sources.declared)
            yield from (f"no clause `{clause}` {owner}" for clause in SPAN.findall(found) if clause not in known)


def steps(sources, text):
    """In a step of a checklist that names files, each name stands in one of them."""
    for line in text.splitlines():
        spans = SPAN.findall(line) if line.startswith("- [ ]") else []
        files = tuple(span for span in spans if span.endswith((".antt", ".rt")))
        inside = {name for path, names in sources.names.items() if path.endswith(files) for name in names} if files else set()
        for span in spans:
            if inside and is_ours(span) and span in sources.declared - inside:
                yield f"`{span}` is in none of the files of its step"


def is_known(sources, path, span, outside):
    if span.startswith(FOLDERS) or re.fullmatch(r"[\w*][\w./*-]*", span) and span.endswith(OURS):
        return sources.has_file(span.split(" ")[0])
    parts = span.split("::")
    if not all(re.fullmatch(r"\w+", part) for part in parts):
        return True
    if len(parts) > 1 and parts[0] in sources.crates:
        return set(parts[1:]) <= sources.declared_in(parts[0])
    if span in sources.crates or span in outside:
        return True
    if span.isupper() and "_" in span:
        return sources.mentions(span)
    return not is_ours(span) or set(parts) <= sources.declared or sources.has_beside(parts[-1], str(PurePosixPath(path).parent))


def is_ours(span):
    """A name of more than one word; a single word may be of a text or of another language."""
    return "::" in span or "_" in span or re.search(r"[a-z][A-Z]", span)
