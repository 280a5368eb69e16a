"""Makes an input that fails shorter, as long as the same check fails."""
import time

SECONDS = 60


def without(items, start, size):
    return items[:start] + items[start + size:]


def fewer(items):
    """The items with a piece left out, large pieces first."""
    size = len(items)
    while size:
        for start in range(0, len(items), size):
            yield without(items, start, size)
        size //= 2


def smaller(word):
    """Words in the place of a number."""
    if word.isdigit() and int(word) > 0:
        yield from (str(number).encode() for number in dict.fromkeys((0, 1, int(word) // 2, int(word) - 1)) if number < int(word))


def simpler(line):
    """The line with words left out, or with a smaller number."""
    words = line.split(b" ")
    for size in (4, 2, 1):
        yield from (b" ".join(without(words, start, size)) for start in range(1, len(words) - size + 1))
    for at, word in enumerate(words):
        yield from (b" ".join(words[:at] + [other] + words[at + 1:]) for other in smaller(word))


def next_texts(text):
    lines = text.split(b"\n")
    yield from (b"\n".join(some) for some in fewer(lines))
    for at, line in enumerate(lines):
        yield from (b"\n".join(lines[:at] + [other] + lines[at + 1:]) for other in simpler(line))


def next_inputs(given):
    if given.words[1:] or not given.text:
        yield from (given._replace(words=tuple(words)) for words in fewer(list(given.words)))
    yield from (given._replace(text=text) for text in next_texts(given.text))


def shrunk(given, fails):
    """The shortest input that was found in a minute of which `fails(input)` says the same."""
    until = time.monotonic() + SECONDS
    found = True
    while found:
        found = False
        for other in next_inputs(given):
            if time.monotonic() > until:
                return given
            if fails(other):
                given, found = other, True
                break
    return given
