"""The words behind `./qlock`: which command they ask for, and what to type where they ask for none."""
import difflib
import os
import re
from typing import NamedTuple

from script.table import BY_WORD

MOST_START = 2147483646
OPTIONS = ("--quick", "--proved", "--help", "--version", "--install")
OTHERS = ("build", "help")


class Asked(NamedTuple):
    command: object
    # The words behind the command: of an option, of a title, or a start number.
    words: list
    # The file to read in place of standard input.
    file: str | None


class Unknown(Exception):
    """The words ask for nothing; what is said is what to type."""


def is_start(word):
    return re.fullmatch(r"[0-9]{1,20}", word) and 1 <= int(word) <= MOST_START


def is_file_name(word):
    return os.path.exists(word) or "/" in word or re.search(r"\.(qtrace|qosq|qjobs|history|txt)$", word)


def quoted(words):
    return " ".join(word if re.fullmatch(r"[\w./=+-]+", word) else "'" + word.replace("'", "'\\''") + "'" for word in words)


def read(name, words):
    """What the words ask for. `name` is how this script is called."""
    if not words:
        raise Unknown(f"{name} --help has each command")
    word, *rest = words
    # A command may have an option in its name, wherever that stands.
    option = next((each for each in rest if f"{word} {each}" in BY_WORD), None)
    if option:
        word = f"{word} {option}"
        rest.remove(option)
    if word not in BY_WORD:
        raise Unknown(no_command(name, word, rest))
    command = BY_WORD[word]
    late = [each for each in rest if each in ("--quick", "--proved")]
    if late and command.takes != "OPTIONS":
        raise Unknown(f"{late[0]} stands before the command: {name} {late[0]} {quoted([word, *(each for each in rest if each not in late)])}")
    return WAYS[command.takes](name, command, rest)


def no_command(name, word, rest):
    every = [*BY_WORD, *OPTIONS, *OTHERS]
    near = difflib.get_close_matches(word.lower(), every, 1, 0.6) or [each for each in every if len(word.strip("-")) > 1 and each.lstrip("-").startswith(word.lower().lstrip("-"))]
    short = {"-V": "--version", "-v": "--version", "-q": "--quick", "version": "--version", "install": "--install", "prove": "build", "test": "replay"}
    near = [short[word]] if word in short else near
    if near:
        return f'"{word}" is no command; did you mean {name} {quoted([*near[0].split(" "), *rest])}?'
    if is_file_name(word):
        return f'"{word}" is no command; a trace is replayed by {name} replay {quoted([word])}'
    return f'"{word}" is no command ({", ".join(BY_WORD)}); {name} --help has each'


def plain(name, command, rest):
    """A command with at most a file behind it."""
    if not command.reads and rest:
        raise Unknown(f"{command.word} takes no word behind it: {name} {command.word}")
    options = [word for word in rest if word.startswith("-") and word != "-"]
    if options:
        raise Unknown(f"{command.word} has no option {options[0]}: {name} {command.word} --help")
    if len(rest) > 1:
        raise Unknown(f"{command.word} reads {command.reads}, from one file or from standard input: {name} {quoted([command.word, rest[0]])}")
    return Asked(command, [], rest[0] if rest and rest[0] != "-" else None)


def numbered(name, command, rest):
    """A command with a start number behind it."""
    rest = rest[1:] if rest[:1] == ["--"] else rest
    if len(rest) == 1 and is_start(rest[0]):
        return Asked(command, rest, None)
    what = f'"{quoted(rest)}" is no start number' if rest else "the start number is missing"
    raise Unknown(f"{what}: {command.word} takes a number from 1 to {MOST_START}, as {name} {command.word} 7")


def titled(name, command, rest):
    """A command with a file or a title behind it, or both."""
    files = [word for word in rest if is_file_name(word)][:1]
    titles = [word for word in rest if word not in files]
    if len(titles) > 1 or len(rest) > 2 or titles and os.path.exists(titles[0]):
        raise Unknown(f"{command.word} takes a file and a title: {name} {command.word} FILE 'A TITLE'")
    if titles and titles[0].startswith("-"):
        raise Unknown(f"{command.word} has no option {titles[0]}: {name} {command.word} --help")
    return Asked(command, titles, files[0] if files else None)


def optioned(_name, command, rest):
    """A command with options of its own. Where it reads, the file is its last word, if that is not the value of an option."""
    is_value = len(rest) > 1 and re.fullmatch(r"--[a-z-]+", rest[-2]) and rest[-2] not in command.flags
    is_file = command.reads and rest and not rest[-1].startswith("-") and not is_value
    first = command.reads and len(rest) > 1 and not rest[0].startswith("-")
    if first:
        return Asked(command, rest[1:], rest[0])
    return Asked(command, rest[:-1], rest[-1]) if is_file else Asked(command, rest, None)


WAYS = {"": plain, "N": numbered, "[TITLE]": titled, "OPTIONS": optioned}
