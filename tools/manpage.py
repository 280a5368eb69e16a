#!/usr/bin/env python3
"""manpage.py

Writes docs/help.txt and docs/qlock.1 anew: the help page, which `./qlock --help` prints, and the man page that is made of it. Both are
made of the commands in tools/script/table.py. `tools/check` compares the two files with what this writes.
"""
import re
import sys
from pathlib import Path

sys.dont_write_bytecode = True

from script import helping

DOCS = Path(__file__).resolve().parent.parent / "docs"


def escaped(text):
    text = text.replace("\\", "\\e").replace("-", "\\-")
    return "\\&" + text if text.startswith((".", "'")) else text


def blocks(lines):
    """The paragraphs of a section, each as its lines."""
    return [block.split("\n") for block in re.split(r"\n\s*\n", "\n".join(lines).strip("\n"))]


def indent(line):
    return len(line) - len(line.lstrip())


def paragraph(lines):
    """A paragraph; or what is described, and behind it its description, which is indented further."""
    if len(lines) > 1 and indent(lines[1]) > indent(lines[0]):
        return [".TP", f".B {escaped(lines[0].strip())}", *text_of(lines[1:])]
    return [".PP", *text_of(lines)]


def text_of(lines):
    """Running text; an example stands on a line of its own."""
    said = []
    for line in lines:
        line = line.strip()
        if line.startswith("Example: "):
            said += [".br", escaped(line)]
        else:
            said.append(escaped(line))
    return said


def section(head, lines):
    said = [f".SH {escaped(head)}"]
    if head == "SYNOPSIS":
        return said + [".nf", *(escaped(line.strip()) for line in lines if line.strip()), ".fi"]
    return said + [line for block in blocks(lines) for line in paragraph(block)]


def page(text):
    name, *rest = text.splitlines()
    said = ['.TH QLOCK 1 "" qlock', ".SH NAME", escaped(name)]
    heads = [at for at, line in enumerate(rest) if line and not line.startswith(" ")]
    for at, end in zip(heads, [*heads[1:], len(rest)]):
        said += section(rest[at], rest[at + 1 : end])
    return "\n".join(said) + "\n"


def pages():
    """Each file, and its text."""
    text = helping.text()
    return {DOCS / "help.txt": text, DOCS / "qlock.1": page(text)}


def failures():
    """What tools/check asks."""
    for path, text in pages().items():
        if not path.exists() or path.read_text() != text:
            yield f"docs/{path.name} is not what tools/manpage.py writes"


def main(words):
    if words:
        print(__doc__.strip(), file=sys.stdout if words[0] in ("-h", "--help") else sys.stderr)
        return 0 if words[0] in ("-h", "--help") else 2
    for path, text in pages().items():
        path.write_text(text)
    return 0


if __name__ == "__main__":
    sys.exit(main(sys.argv[1:]))
