#!/usr/bin/env python3
"""ledger_check.py FILE OUTCOME
ledger_check.py --examples FOLDER
ledger_check.py --random N [--seed S] [--mode MODE] PROGRAM [WORD ...]
ledger_check.py --self-test [N] [--seed S]

Judges the outcome of a job file by the two texts alone: every worker's writes stand in the journal in the order of its lines, each
once; each reply is that of one thread which does the journal's jobs in turn; each read has the answer of the balances after as many
entries as it says it saw, and it saw all that its worker wrote before it, nothing that it wrote after it, and no less than its
worker's read before; and the closing balances and numbers are right. Any interleaving of the workers may come.

With --examples it judges the outcome NAME.outcome of each job file NAME.qjobs of a folder. With --random it makes N job files, gives each to PROGRAM WORD ... on standard input, and judges what that
writes. They are of mode `virt`, `native` or `cna`, or with --mode of that mode alone; `pv` has spinlocks alone. The self-test
judges the outcomes of a reference in Python, one thread that draws whose turn it is, and then those outcomes with one thing
changed, which have to be refused.
"""
import random
import subprocess
import sys
from dataclasses import dataclass, field
from pathlib import Path

LIMIT = 2 ** 63
WRITES, READS = ("move", "add"), ("sum", "get")


class Wrong(Exception):
    """What is wrong with an outcome."""


@dataclass
class JobFile:
    """What a job file says, as far as an outcome depends on it: a job is its words, as the file has them."""

    balances: list = field(default_factory=list)
    jobs: list = field(default_factory=lambda: [[]])

    @staticmethod
    def of(text):
        said = JobFile()
        for line in text.splitlines():
            words = line.split()
            if not words or words[0].startswith("#"):
                continue
            if words[0] == "workers":
                said.jobs = [[] for _ in range(int(words[1]))]
            elif words[0] == "accounts":
                said.balances = [int(word) for word in words[1:]]
            elif words[0] == "job":
                said.jobs[int(words[1])].append((words[2], *(int(word) for word in words[3:])))
        return said

    def numbered(self, worker, verbs):
        return [(number, job) for number, job in enumerate(self.jobs[worker], 1) if job[0] in verbs]

    def workers(self):
        return range(len(self.jobs))


def reply_to(balances, job):
    """What a job answers, as an outcome has it; it changes the balances."""
    if job[0] == "sum":
        return str(sum(balances))
    if job[0] == "get":
        return str(balances[job[1]])
    if job[0] == "add":
        if sum(balances) + job[2] >= LIMIT:
            return "full"
        balances[job[1]] += job[2]
        return "ok"
    _, giver, taker, amount = job
    if balances[giver] < amount:
        return "short"
    balances[giver] -= amount
    balances[taker] += amount
    return "ok"


@dataclass
class Outcome:
    """The lines of an outcome: an entry is worker, job and reply; a read is worker, number, version, job and answer."""

    entries: list
    reads: list
    balances: list

    def text(self):
        lines = [f"entry {n} {worker} {words_of(job)} {reply}" for n, (worker, job, reply) in enumerate(self.entries, 1)]
        lines += [f"read {worker} {number} {version} {words_of(job)} {answer}" for worker, number, version, job, answer in self.reads]
        lines += [f"balance {account} {amount}" for account, amount in enumerate(self.balances)]
        lines.append(f"end {len(self.entries)} {len(self.reads)}")
        return "".join(line + "\n" for line in lines)

    @staticmethod
    def of(text):
        """Reads a text; whether it is written as it should be is judged by writing it again."""
        told = Outcome([], [], [])
        for line in text.splitlines():
            words = line.split(" ")
            try:
                if words[0] == "entry":
                    told.entries.append((int(words[2]), job_of(words[3:-1]), words[-1]))
                elif words[0] == "read":
                    told.reads.append((int(words[1]), int(words[2]), int(words[3]), job_of(words[4:-1]), words[-1]))
                elif words[0] == "balance":
                    told.balances.append(int(words[2]))
                elif words[0] != "end":
                    raise Wrong(f"no line of an outcome: {line}")
            except (IndexError, ValueError):
                raise Wrong(f"no line of an outcome: {line}") from None
        if told.text() != text:
            raise Wrong("lines or numbers out of order")
        return told


def words_of(job):
    return " ".join(str(word) for word in job)


def job_of(words):
    return (words[0], *(int(word) for word in words[1:]))


def judge(said, text):
    """Raises Wrong where the text is of no outcome of the job file."""
    told = Outcome.of(text)
    places = places_of(said, told)
    states = states_of(said, told)
    judge_reads(said, told, places, states)
    if told.balances != states[-1]:
        raise Wrong("the balances are not those after the journal")


def places_of(said, told):
    """For each worker the places in the journal, from 1, of its writes, by their numbers."""
    places = [{} for _ in said.workers()]
    left = [said.numbered(worker, WRITES) for worker in said.workers()]
    for place, (worker, job, _) in enumerate(told.entries, 1):
        if worker >= len(left) or not left[worker]:
            raise Wrong(f"entry {place} is of no job that is left")
        number, wanted = left[worker].pop(0)
        if job != wanted:
            raise Wrong(f"entry {place} is not the next job of worker {worker}")
        places[worker][number] = place
    if any(left):
        raise Wrong("a job that writes has no entry")
    return places


def states_of(said, told):
    """The balances before the first entry and after each."""
    balances, states = list(said.balances), [list(said.balances)]
    for place, (_, job, reply) in enumerate(told.entries, 1):
        if reply_to(balances, job) != reply:
            raise Wrong(f"the reply of entry {place} is not that of one thread")
        states.append(list(balances))
    return states


def judge_reads(said, told, places, states):
    wanted = [(worker, number, job) for worker in said.workers() for number, job in said.numbered(worker, READS)]
    if wanted != [(worker, number, job) for worker, number, _, job, _ in told.reads]:
        raise Wrong("the reads are not those of the job file, by worker and number")
    last = {}
    for worker, number, version, job, answer in told.reads:
        which = f"read {number} of worker {worker}"
        if version >= len(states) or reply_to(list(states[version]), job) != answer:
            raise Wrong(f"{which} does not have the answer at its version")
        if version < last.get(worker, 0):
            raise Wrong(f"{which} saw less than the one before it")
        if any(place > version for write, place in places[worker].items() if write < number):
            raise Wrong(f"{which} did not see what its worker wrote before it")
        if any(place <= version for write, place in places[worker].items() if write > number):
            raise Wrong(f"{which} saw what its worker wrote after it")
        last[worker] = version


# Job files that are drawn.

def draw_job(draw, accounts):
    amount = draw.choice((0, 1, draw.randrange(20), draw.randrange(LIMIT)))
    verb = draw.choice(WRITES + READS) if accounts else "sum"
    if verb == "move":
        return (verb, draw.randrange(accounts), draw.randrange(accounts), amount)
    if verb == "add":
        return (verb, draw.randrange(accounts), amount)
    return (verb, draw.randrange(accounts)) if verb == "get" else (verb,)


def draw_file(draw, modes=("virt", "native", "cna"), guards=("spin", "rw"), most=200):
    workers, accounts = draw.randint(1, 16), draw.choice((0, 1, 2, 3, 8, 64))
    share = LIMIT // max(accounts, 1)
    balances = [draw.choice((0, draw.randrange(30), draw.randrange(share))) for _ in range(accounts)]
    lines = ["qjobs 1", f"mode {draw.choice(modes)}", f"guard {draw.choice(guards)}", f"workers {workers}"]
    lines += ["sockets " + " ".join(str(draw.randrange(64)) for _ in range(workers))] if draw.random() < 0.3 else []
    lines += [f"threshold {draw.randrange(65536)}"] if draw.random() < 0.3 else []
    lines += ["accounts " + " ".join(map(str, balances))] if accounts else []
    lines += [f"job {draw.randrange(workers)} {words_of(draw_job(draw, accounts))}" for _ in range(draw.randrange(most))]
    return "".join(line + "\n" for line in [*lines, "end"])


# The reference, and outcomes that are wrong.

def reference(draw, said):
    """One thread does the jobs, and draws whose turn it is; a read may be of any moment that is fresh enough."""
    told, balances = Outcome([], [], []), list(said.balances)
    left = [list(enumerate(jobs, 1)) for jobs in said.jobs]
    while any(left):
        worker = draw.choice([w for w in said.workers() if left[w]])
        number, job = left[worker].pop(0)
        reply = reply_to(balances, job)
        if job[0] in WRITES:
            told.entries.append((worker, job, reply))
        else:
            told.reads.append((worker, number, len(told.entries), job, reply))
    told.reads.sort(key=lambda read: read[:2])
    told.balances = balances
    return told


def spoiled(draw, told):
    """The text with one thing changed, none of which an outcome may have."""
    text = told.text()
    entries, reads, balances = told.entries, told.reads, told.balances
    yield text[:-1]
    yield text + text
    yield text.replace("end ", "end 0", 1)
    if entries:
        at = draw.randrange(len(entries))
        worker, job, reply = entries[at]
        yield Outcome(entries[:at] + entries[at + 1:], reads, balances).text()
        yield Outcome(entries[:at] + [entries[at]] + entries[at:], reads, balances).text()
        yield Outcome(entries[:at] + [(worker, job, {"ok": "short", "short": "full", "full": "ok"}[reply])] + entries[at + 1:], reads, balances).text()
        yield Outcome(entries[:at] + [(worker, (*job[:-1], job[-1] + 1), reply)] + entries[at + 1:], reads, balances).text()
        own = [place for place, entry in enumerate(entries, 1) if entry[0] == worker]
        for at, (reader, number, version, job, answer) in enumerate(reads):
            if reader == worker and version >= own[0]:
                yield Outcome(entries, reads[:at] + [(reader, number, own[0] - 1, job, answer)] + reads[at + 1:], balances).text()
            elif reader == worker:
                yield Outcome(entries, reads[:at] + [(reader, number, own[0], job, answer)] + reads[at + 1:], balances).text()
    if reads:
        at = draw.randrange(len(reads))
        worker, number, version, job, answer = reads[at]
        for other in ((worker, number, version, job, str(int(answer) + 1)), (worker, number, len(entries) + 1, job, answer),
                      (worker, number + 1, version, job, answer)):
            yield Outcome(entries, reads[:at] + [other] + reads[at + 1:], balances).text()
        yield Outcome(entries, reads[:at] + reads[at + 1:], balances).text()
    if balances:
        at = draw.randrange(len(balances))
        yield Outcome(entries, reads, balances[:at] + [balances[at] + 1] + balances[at + 1:]).text()


def is_refused(said, text):
    try:
        judge(said, text)
    except Wrong:
        return True
    return False


def self_test(draw, count):
    refused = 0
    for _ in range(count):
        text = draw_file(draw)
        said = JobFile.of(text)
        told = reference(draw, said)
        judge(said, told.text())
        for wrong in spoiled(draw, told):
            if not is_refused(said, wrong):
                sys.exit(f"ledger_check: this outcome is accepted:\n{wrong}of this job file:\n{text}")
            refused += 1
    print(f"{count} outcomes accepted, {refused} spoiled ones refused")


def run_random(draw, count, mode, command):
    kinds = {"guards": ("spin",)} if mode == "pv" else {}
    kinds |= {"modes": (mode,)} if mode else {}
    for done in range(count):
        text = draw_file(draw, **kinds)
        run = subprocess.run(command, input=text, capture_output=True, text=True)
        try:
            if run.returncode or run.stderr:
                raise Wrong(f"status {run.returncode}, {run.stderr.strip()}")
            judge(JobFile.of(text), run.stdout)
        except Wrong as wrong:
            sys.exit(f"ledger_check: after {done} job files: {wrong}\n{text}")
    print(f"{count} job files, judged right")


def judge_files(file, outcome):
    try:
        judge(JobFile.of(file.read_text()), outcome.read_text())
    except Wrong as wrong:
        sys.exit(f"ledger_check: {outcome}: {wrong}")


def main(words):
    seed, mode, options = 1, None, {}
    if words[:1] in (["-h"], ["--help"]):
        return print(__doc__.strip())
    if words[:1] == ["--examples"] and len(words) == 2:
        for file in sorted(Path(words[1]).glob("*.qjobs")):
            judge_files(file, file.with_suffix(".outcome"))
        return
    while words and words[0].startswith("--"):
        option = words.pop(0)
        if option == "--seed" and words:
            seed = int(words.pop(0))
        elif option == "--mode" and words:
            mode = words.pop(0)
        elif option in ("--random", "--self-test"):
            options[option] = int(words.pop(0)) if words and words[0].isdigit() else 300
        else:
            sys.exit(__doc__)
    draw = random.Random(seed)
    if "--self-test" in options and not words:
        return self_test(draw, options["--self-test"])
    if "--random" in options and words:
        return run_random(draw, options["--random"], mode, words)
    if options or len(words) != 2:
        sys.exit(__doc__)
    judge_files(Path(words[0]), Path(words[1]))


if __name__ == "__main__":
    main(sys.argv[1:])
