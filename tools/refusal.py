#!/usr/bin/env python3
"""refusal.py WORD NOTE < INPUT

Says in one line what is wrong with an input that `qlock WORD` refused: what was found, where, and what was expected. NOTE is the line
that the program wrote, such as `bad input line 7: BadNumber`. `./qlock` prints this line behind it.

It reads the grammar of docs/FORMATS.md by itself, in Python. Where it finds another fault than the program did, it says no more than
which line it is. Of an audited history that is not lawful it says why, by tools/judge.py.

refusal.py --self-test compares the second lines in the tables of examples/refusals, examples/osq/refusals and
examples/ledger/refusals, and those of as_typed.txt in examples/refusals and examples/audit, with what it says of those inputs. It prints
failures only, and ends with 1 if there are any.
"""
import re
import sys
from pathlib import Path

sys.dont_write_bytecode = True

import grammar
from audits import reasons
from grammar import Refused

EXAMPLES = Path(__file__).resolve().parent.parent / "examples"
NOTE = re.compile(r"(?:bad input|limit) line (\d+): (\w+)")
LISTED = re.compile(r"^\| \[(\w+)\]\((\w+)\.(\w+)\) \| \d \| `([^`]+)` \| `([^`]+)` \|$", re.M)
TYPED = re.compile(r"^== (.*)\n(.*)\n(.*)\n(.*)\n--\n((?:^(?!== ).*\n)*)", re.M)
FOLDERS = {"replay": "refusals", "osq": "osq/refusals", "ledger": "ledger/refusals"}


def shown(line):
    """A line as it is quoted: cut where it is long, and without bytes that a terminal would obey."""
    text = line.decode("ascii", "replace").strip()
    text = "".join(letter if letter.isprintable() else "?" for letter in text)
    return f'"{text[:60]}.."' if len(text) > 62 else f'"{text}"'


def told(word, note, data):
    """The line that says what was found and what was expected, or None where the note tells of no line."""
    if note.startswith("unlawful line "):
        number = int(note.split()[-1])
        return f"line {number}: {shown(line_of(data, number))}: {unlawful(data, number)}"
    found = NOTE.fullmatch(note)
    if not found:
        return None
    number, fault = int(found[1]), found[2]
    try:
        grammar.read(word, data)
    except Refused as refused:
        if (refused.line, refused.fault) == (number, fault):
            return f"line {number}: {refused.said}"
    return f"line {number}: {shown(line_of(data, number))}: {fault} (docs/FORMATS.md has the checks in their order)"


def unlawful(data, number):
    """Why the event of a line is not lawful behind those before it."""
    header, events, _ = grammar.read_history(b"\n".join(grammar.lines_of(data)[:number]))
    found = reasons.why(header, events)
    return found[2] if found and found[0] == number else "it is not lawful behind the lines before it (docs/AUDIT.md has each breach)"


def line_of(data, number):
    lines = data.split(b"\n")
    return lines[number - 1] if number <= len(lines) else b""


def typed():
    """The inputs of as_typed.txt: of each its name, the word that reads it, the note of the program, the second line, and the input."""
    return [case for folder in ("refusals", "audit") for case in TYPED.findall((EXAMPLES / folder / "as_typed.txt").read_text())]


def failures():
    for name, word, note, second, text in typed():
        said = told(word, note, text.encode())
        if said != second:
            yield f"as_typed.txt, {name}: the second line is {said!r}"
    for word, folder in FOLDERS.items():
        for name, _, suffix, note, second in LISTED.findall((EXAMPLES / folder / "README.md").read_text()):
            said = told(word, note, (EXAMPLES / folder / f"{name}.{suffix}").read_bytes())
            if said != second:
                yield f"{folder}/{name}: the second line is {said!r}"


def self_test():
    found = list(failures())
    for failure in found:
        print(failure)
    return 1 if found else 0


def main(words):
    if words == ["--self-test"]:
        return self_test()
    if len(words) != 2 or words[0] in ("-h", "--help"):
        print(__doc__.strip(), file=sys.stdout if words[:1] in (["-h"], ["--help"]) else sys.stderr)
        return 0 if words[:1] in (["-h"], ["--help"]) else 2
    said = told(words[0], words[1], sys.stdin.buffer.read())
    if said:
        print(said)
    return 0


if __name__ == "__main__":
    sys.exit(main(sys.argv[1:]))
