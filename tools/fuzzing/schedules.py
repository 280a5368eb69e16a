"""What a trace or a run says, word for word: it takes for granted that the program's grammar accepts it. And the metamorphic check:
a schedule written in another way, with acts between that do nothing, and where each act stands in it."""
import bisect

LONGEST = 100_000  # acts of a schedule that is written in another way


def words_in(text):
    """The words of each line that is not blank and no comment."""
    lines = (line.split() for line in text.decode().split("\n"))
    return [words for words in lines if words and not words[0].startswith("#")]


class Said:
    """A trace or a run: its header's lines, and the schedule as (word, processor, acts)."""

    def __init__(self, text):
        lines = words_in(text)
        go = next(at for at, words in enumerate(lines) if words[0] == "go")
        self.header = lines[:go]
        self.schedule = [(words[0], int(words[1]), int(words[2]) if words[0] == "step" else 1) for words in lines[go + 1:] if words[0] != "end"]
        self.acts = sum(times for _, _, times in self.schedule)
        self.mode = self.value("mode", "osq")
        self.cpus = int(self.value("cpus", "1"))
        self.kinds = [words[2] for words in self.header if words[0] == "lock"]
        self.programs = {int(words[1]) for words in self.header if words[0] == "prog"}
        self.handlers = {int(words[1]) for words in self.header if words[0] == "irq"}

    def value(self, name, otherwise):
        return next((words[1] for words in self.header if words[0] == name), otherwise)

    def header_text(self):
        return "".join(" ".join(words) + "\n" for words in self.header) + "go\n"

    def actors(self):
        """For each line of the schedule the number of its last act, and its processor."""
        ends, cpus, acts = [], [], 0
        for _, cpu, times in self.schedule:
            acts += times
            ends.append(acts)
            cpus.append(cpu)
        return lambda act: cpus[bisect.bisect_left(ends, act)]


class Rewritten:
    """A schedule that is written again, line by line: `same` acts keep their order, and `idle` ones come between."""

    def __init__(self):
        self.lines, self.acts, self.old = [], 0, 0
        self.starts, self.shifts = [1], [0]

    def idle(self, word, cpu, times=1):
        self.lines.append(f"{word} {cpu}" + f" {times}" * (word == "step"))
        self.acts += times
        self.starts.append(self.old + 1)
        self.shifts.append(self.acts - self.old)

    def same(self, word, cpu, times):
        self.lines.append(f"{word} {cpu}" + f" {times}" * (word == "step"))
        self.acts += times
        self.old += times

    def place(self, act):
        """Where an act of the old schedule stands in the new one."""
        return act + self.shifts[bisect.bisect_right(self.starts, act) - 1]


class Rewriter:
    """Writes a trace's schedule again: steps are cut, their processor is preempted and resumed in between, and idle acts are added."""

    def __init__(self, draw, said):
        self.draw, self.said, self.to = draw, said, Rewritten()
        self.preempted = set()

    def idle_acts(self):
        """Acts that do nothing as things stand: of a processor that has nothing to do, or is preempted, or lacks what the act is for."""
        cpu = self.draw.randrange(self.said.cpus)
        has_work = cpu in self.said.programs or cpu in self.said.handlers
        words = ["step"] if not has_work or cpu in self.preempted else []
        words += ["pre", "int", "nudge"] if cpu in self.preempted else ["res"]
        words += ["int"] * (cpu not in self.said.handlers) + ["nudge"] * (self.said.mode != "pv")
        return self.draw.choice(words), cpu

    def between(self, cpu):
        """Something between two halves of a step that leaves everything as it is."""
        if cpu not in self.preempted and self.draw.random() < 0.7:
            self.to.idle("pre", cpu)
            if self.draw.random() < 0.5:
                self.to.idle("step", cpu, self.draw.randint(1, 3))
            self.to.idle("res", cpu)
        elif self.draw.random() < 0.5:
            self.add_idle()

    def add_idle(self):
        word, cpu = self.idle_acts()
        self.to.idle(word, cpu, self.draw.randint(1, 3) if word == "step" else 1)

    def step(self, cpu, times):
        while times > 0:
            piece = self.draw.randint(1, times) if self.draw.random() < 0.6 else times
            self.to.same("step", cpu, piece)
            times -= piece
            if times > 0:
                self.between(cpu)

    def line(self, word, cpu, times):
        if self.draw.random() < 0.15:
            self.add_idle()
        if word == "step":
            return self.step(cpu, times)
        self.to.same(word, cpu, times)
        self.preempted = self.preempted | {cpu} if word == "pre" else self.preempted - {cpu} if word == "res" else self.preempted


class RunRewriter(Rewriter):
    """The same of a run of the spin queue, which has no preemption: an act of a processor without rounds does nothing, and no more
    does a second request right behind the first."""

    def idle_acts(self):
        idle = [cpu for cpu in range(self.said.cpus) if cpu not in self.said.programs]
        return (self.draw.choice(("step", "give")), self.draw.choice(idle)) if idle else None

    def between(self, _):
        if self.draw.random() < 0.5:
            self.add_idle()

    def add_idle(self):
        found = self.idle_acts()
        if found:
            self.to.idle(*found, self.draw.randint(1, 3) if found[0] == "step" else 1)

    def line(self, word, cpu, times):
        super().line(word, cpu, times)
        if word == "give" and self.draw.random() < 0.3:
            self.to.idle("give", cpu)


def rewritten(draw, said):
    """The whole text, and the schedule written again."""
    rewriter = (RunRewriter if said.mode == "osq" else Rewriter)(draw, said)
    for line in said.schedule:
        rewriter.line(*line)
    return (said.header_text() + "".join(line + "\n" for line in rewriter.to.lines) + "end\n").encode(), rewriter.to
