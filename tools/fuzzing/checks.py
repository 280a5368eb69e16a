"""What is asked of the program's answer to one input. `check` raises Wrong where something does not hold."""
import random
import re
import subprocess
import zlib
from typing import NamedTuple

import grammar
import judge
import laws
import ledger_check
import schedules

SECONDS = 120
LIMITS = ("Line", "Input", "Words", "Handlers", "Acts", "Jobs", "Total")
USAGE = b"usage: qlock replay | ledger | gen <n> | load <n> | audit | osq\n"
LAST_START = 2147483646


class Wrong(Exception):
    """An answer that is not as it should be: which check says so, and what."""

    def __init__(self, check, what):
        super().__init__(check, what)
        self.check, self.what = check, what

    def __str__(self):
        return f"{self.check}: {self.what}"


class Answer(NamedTuple):
    status: int
    note: bytes
    text: bytes


class Program:
    """The program, or one whose answers are made wrong by `spoil(words, text, answer)`, to see who notices."""

    def __init__(self, path, spoil=None):
        self.path, self.spoil = path, spoil

    def run(self, words, text=b""):
        try:
            done = subprocess.run([self.path, *words], input=text, capture_output=True, timeout=SECONDS)
        except subprocess.TimeoutExpired:
            raise Wrong("an answer", f"there is none after {SECONDS} seconds") from None
        answer = Answer(done.returncode, done.stderr, done.stdout)
        return self.spoil(words, text, answer) if self.spoil else answer

    def transcript_of(self, trace):
        answer = self.run(("replay",), trace)
        if answer.status:
            raise Wrong("a drawn trace", f"status {answer.status}, {answer.note.decode().strip()}")
        return answer.text


def want(check, wanted, found):
    if wanted != found:
        raise Wrong(check, f"wanted {shown(wanted)}, found {shown(found)}")


def shown(value):
    if isinstance(value, Answer):
        return f"status {value.status}, note {shown(value.note)}, text {shown(value.text)}"
    text = value.decode("latin-1") if isinstance(value, bytes) else str(value)
    return repr(text if len(text) <= 400 else f"{text[:200]} .. {text[-200:]}")


def lines_of(text):
    """The lines of an input, without line feeds."""
    lines = text.split(b"\n")
    return lines[:-1] if lines[-1] == b"" else lines


def refusal_note(line, fault):
    return f"{'limit' if fault in LIMITS else 'bad input'} line {line}: {fault}\n".encode()


def refusal_status(fault):
    return 7 if fault in LIMITS else 3


# Traces and runs.

def events_before(program, word, text, line):
    """What the lines before a refused one write: the events of a text that ends there."""
    before = lines_of(text)[:line - 1]
    if not any(words.split()[:1] == [b"go"] for words in before):
        return b""
    ended = any(words.split()[:1] == [b"end"] for words in before)
    answer = program.run((word,), b"\n".join(before + [b"end"] * (not ended)) + b"\n")
    if answer.status:
        raise Wrong("the lines before a refused one", f"status {answer.status}, {shown(answer.note)}")
    at = re.search(rb"^end ", answer.text, re.M)
    return answer.text[:at.start()]


def check_refused(program, word, text, refused, answer):
    written = events_before(program, word, text, refused.line) if word in ("replay", "osq") else b""
    want("a refusal", Answer(refusal_status(refused.fault), refusal_note(refused.line, refused.fault), written), answer)


def check_rewritten(program, word, text, said, transcript):
    """The metamorphic check: a schedule that says the same in another way tells the same events, at the acts that correspond."""
    if said.acts > schedules.LONGEST:
        return
    other, written = schedules.rewritten(random.Random(zlib.crc32(text)), said)
    answer = program.run((word,), other)
    wanted = re.sub(r"^(\d+)(?= )", lambda act: str(written.place(int(act[1]))), transcript, flags=re.M)
    wanted = re.sub(r"^end \d+$", f"end {written.acts}", wanted, flags=re.M)
    if answer != Answer(0, b"", wanted.encode()):
        raise Wrong("the same in another way", f"of the schedule\n{other.decode()}: wanted {shown(wanted)}, found {shown(answer)}")


def check_laws(law, said, transcript):
    try:
        law(said, transcript)
    except laws.Broken as broken:
        raise Wrong("the form of a transcript", str(broken)) from None


def check_audit_of(program, said, transcript):
    """Whatever `replay` writes is lawful, by the laws and by `audit`."""
    text = said.header_text() + transcript
    want("the laws, of a transcript", f"lawful {len(laws.parts_of(transcript)[0])}", judge.verdict(text))
    want("audit, of a transcript", Answer(0, b"", f"{judge.verdict(text)}\n".encode()), program.run(("audit",), text.encode()))


def check_trace(program, text, answer):
    said, transcript = schedules.Said(text), answer.text.decode("latin-1")
    want("a trace's status", (0, b""), (answer.status, answer.note))
    check_laws(laws.check_trace, said, transcript)
    check_audit_of(program, said, transcript)
    check_rewritten(program, "replay", text, said, transcript)


def check_run(program, text, answer):
    said, transcript = schedules.Said(text), answer.text.decode("latin-1")
    want("a run's status", (0, b""), (answer.status, answer.note))
    check_laws(laws.check_run, said, transcript)
    check_rewritten(program, "osq", text, said, transcript)


def check_jobs(_, text, answer):
    want("a job file's status", (0, b""), (answer.status, answer.note))
    try:
        said = "".join(" ".join(words) + "\n" for words in schedules.words_in(text))
        ledger_check.judge(ledger_check.JobFile.of(said), answer.text.decode("latin-1"))
    except ledger_check.Wrong as wrong:
        raise Wrong("the judge of outcomes", str(wrong)) from None


READ = {"replay": check_trace, "osq": check_run, "ledger": check_jobs}


def check_read(program, word, text):
    """A trace, a run or a job file, which may be refused."""
    answer = program.run((word,), text)
    try:
        grammar.read(word, text)
    except grammar.Refused as refused:
        check_refused(program, word, text, refused, answer)
        return f"{word}, refused"
    READ[word](program, text, answer)
    return word


# Audits.

def verdict_of(text):
    """The answer that an audited history is to get, by the grammar and by the laws: of a breach, or of a line that is refused, the first."""
    header, events, refused = grammar.read_history(text)
    laws_of = judge.Judge(judge.rules_of(header))
    for number, event in events:
        breach = laws_of.take(judge.event_of(event))
        if breach:
            return Answer(8, f"unlawful line {number}\n".encode(), f"breach {number} {breach}\n".encode())
    if refused:
        return Answer(refusal_status(refused.fault), refusal_note(refused.line, refused.fault), b"")
    return Answer(0, b"", f"lawful {len(events)}\n".encode())


def check_audit(program, text):
    wanted = verdict_of(text)
    want("audit, of a history", wanted, program.run(("audit",), text))
    return {0: "audit", 8: "audit, a breach"}.get(wanted.status, "audit, refused")


# Words.

def start_of(words):
    """The start number of `gen n` or `load n`, where these words are one of them."""
    is_start = len(words) == 2 and words[0] in ("gen", "load") and re.fullmatch(r"[0-9]{1,20}", words[1])
    return int(words[1]) if is_start and 1 <= int(words[1]) <= LAST_START else None


def draws_from(start):
    while True:
        start = 48271 * start % 2147483647
        yield start


def generated(start):
    """The text of `gen`, as docs/FORMATS.md has it."""
    draws = draws_from(start)
    lines = ["qtrace 1", "mode cna", "cpus 32", "sockets " + " ".join(str(cpu // 8) for cpu in range(32)), "threshold 16"]
    lines += [f"lock {lock} spin" for lock in range(4)]
    for cpu in range(32):
        drawn = [next(draws) % 4 for _ in range(16)]
        lines.append(f"prog {cpu} " + " ".join(f"lock {lock} unlock {lock}" for lock in drawn))
    lines += ["go", *(f"step {next(draws) % 32} 8" for _ in range(25000)), "end"]
    return "".join(line + "\n" for line in lines).encode()


def check_start(program, word, start, answer):
    text = generated(start)
    if word == "load":
        text = program.transcript_of(text)
        text = text[text.index(b"\nend ") + 1:]
    want(f"`{word} n`", Answer(0, b"", text), answer)


def check_words(program, words):
    answer = program.run(words)
    start = start_of(words)
    if start is not None:
        check_start(program, words[0], start, answer)
        return words[0]
    want("words that ask for nothing", Answer(2, USAGE, b""), answer)
    return "words that ask for nothing"


def check(program, given):
    """What kind of input it is; Wrong is raised where the answer is not as it should be."""
    try:
        if given.words == ("audit",):
            return check_audit(program, given.text)
        if given.words in (("replay",), ("osq",), ("ledger",)):
            return check_read(program, given.words[0], given.text)
        return check_words(program, given.words)
    except (ArithmeticError, AttributeError, LookupError, TypeError, ValueError) as error:
        raise Wrong("reading the answer", repr(error)) from error
