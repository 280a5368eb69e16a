#!/usr/bin/env python3
"""timeline.py [--mark ACT] [TITLE] < STEPS > PICTURE

Draws what `./qlock steps` says of a trace as one SVG. Time goes down, a row for each line. Each processor has a lane, and in it a bar
for each context, a nested one right of the one that it interrupts, in the colour of what the context does. Beside the bars stands the
row of the act with its event or, where it tells none, with the verb that docs/rows has for it; behind a compare-exchange that failed
stands `fails`. At the right stands what the act met and left. Where that would be wider than a page, the events stand at the right too,
and where it still were, the verbs. Arrows show links, handoffs and kicks. ACT is the number of the act that matters: its line is
marked. Over a label a browser shows what the row does.

A lane is as wide as its labels ask, so that one in which little happens is narrow; a processor that never acts has none. Letters have at
least 10 pixels where the picture is as wide as a page, unless there are too many lanes for that.
"""
import argparse
import re
import sys
from xml.sax.saxutils import escape

sys.dont_write_bytecode = True

import labels
from script.running import as_program

# The width of a page, and the letters' least size on it. A letter is so wide for each pixel of its size.
PAGE, LEAST, SLIM = 830, 10, 0.603
ROW, TOP = 17, 82
# A picture of more lines says what shows them better.
MOST = 2000
SIZE, BAR, GAP = 11, 7, 4
LETTER = SIZE * SLIM
MARK = "#fff3bf"
# The rows of a reader-writer lock, and the fields of a value that is not one word alone.
READER_WRITER = re.compile(r"R\d|Wr|Y|Z")
FIELDS = {"lock": "(tail,pending,locked)", "reader-writer lock": "(readers,waiting,writer)", "node": "(flag,next)"}
# What stands at the right of the lanes, besides what the act met and left: nothing, the events, or the events and else the verbs.
NOTHING, EVENTS, WORDS = range(3)
FAILS = '<tspan fill="#b3261e" font-weight="bold">fails</tspan>'
COLOURS = {"runs": "#e4e4e4", "seeks": "#f0c94a", "pending": "#ee7f2d", "queued": "#9cc5ea", "leads": "#2f6db5", "holds": "#3c9a5f",
           "halted": "#5b4a63"}
ARROWS = {"link": "#2f6db5", "handoff": "#3c9a5f", "kick": "#b3261e"}
LINE = re.compile(r"(\d+)(?:-(\d+))? (\d+)\.(\d+) (.*?)(, fails)?(?:, (\d+) times)?(?:: (.*))?$")


class Act:
    """A line of qlock-steps: the acts from `first` on, the waiter, what it did, and the event."""

    def __init__(self, text):
        found = LINE.match(text)
        if not found:
            sys.exit("timeline: no line of qlock-steps: " + text)
        self.first, self.last, cpu, context, self.deed, fails, self.times, self.event = found.groups()
        self.cpu, self.context, self.fails = int(cpu), int(context), bool(fails)
        self.words = self.deed.split()
        self.row = self.words[0]
        self.is_idle = "idle," in self.words

    def numbers(self):
        return self.first if self.last is None else self.first + "-" + self.last

    def is_row(self):
        return re.match(r"[A-Z]", self.row)

    def name(self):
        """The row, or the word of the act and why it is idle."""
        return self.deed.replace("step idle", "idle") if self.is_idle else self.row

    def gloss(self, verbs):
        """What the row does in a word, and whether it fails."""
        return " ".join(filter(None, [verbs.get(self.row), "fails" if self.fails else ""]))

    def news(self):
        """The event, where it says more than the label."""
        return self.event if self.event != self.row else None

    def told(self, verbs):
        """The event; else the gloss."""
        return ("fails: " if self.fails else "") + self.news() if self.news() else self.gloss(verbs)

    def has_number(self, number):
        return int(self.first) <= number <= int(self.last or self.first)

    def part(self):
        """The kind of the part on which a row operated."""
        if not self.is_row():
            return None
        return "reader-writer lock" if READER_WRITER.match(self.row) else self.words[1]

    def values(self):
        """On what the act operated, what it met there, and what it left."""
        return " ".join(self.words[1:]) if self.is_row() else ""

    def met(self):
        return self.words[3].strip("()").split(",")

    def node(self):
        """The node on which it operated, as processor and index."""
        return tuple(int(part) for part in self.words[2].split("."))


class Context:
    """A context of a processor, from its first act to its last; `phases` has what it does after each of its rows."""

    def __init__(self, cpu, depth, begin):
        self.cpu, self.depth, self.begin, self.end = cpu, depth, begin, begin
        self.waits, self.held, self.is_halted = None, set(), False
        self.phases = {}

    def phase(self):
        if self.is_halted:
            return "halted"
        return self.waits or ("holds" if self.held else "runs")

    def hear(self, event):
        """What an event of its own says."""
        what, *rest = event.split()
        if what in ("take", "rtake", "wtake"):
            self.waits = "leads" if rest[0].endswith("w") else None
            if not rest[0].endswith("w"):
                self.held.add(rest[0])
        elif what in ("release", "rrelease", "wrelease"):
            self.held.discard(rest[0])
        elif what == "miss":
            self.waits = None
        elif what == "halt":
            self.is_halted = True
        elif what in ("wake", "nudge"):
            self.is_halted = False

    def step(self, act):
        """What a row that it made says."""
        if act.row == "G4":
            self.waits = "leads" if act.met()[0] == "0" else "queued"
        elif act.row == "P1":
            self.waits = "pending" if act.met()[1] == "0" else "seeks"
        elif act.event is None and act.row in ("F1", "P2", "R1", "Wr1"):
            self.waits = "seeks"


class Story:
    """Who does what when, from the lines of qlock-steps."""

    def __init__(self, acts):
        self.acts, self.contexts, self.arrows = acts, [], []
        self.stacks, self.owners = {}, {}
        for at, act in enumerate(acts):
            self.tell(at, act)
        for context in self.contexts:
            if context.phase() != "runs":
                context.end = len(acts) - 1

    def context(self, at, act):
        """The context that acts; those above it on its processor have ended."""
        stack = self.stacks.setdefault(act.cpu, [])
        while len(stack) > act.context + 1:
            stack.pop()
        while len(stack) <= act.context:
            stack.append(Context(act.cpu, len(stack), at))
            self.contexts.append(stack[-1])
        return stack[act.context]

    def top(self, cpu):
        return self.stacks[cpu][-1]

    def tell(self, at, act):
        if act.event == "int" and self.stacks.get(act.cpu):
            below = self.stacks[act.cpu][act.context - 1]
            below.is_halted = False
            below.phases[at] = below.phase()
        context = self.context(at, act)
        if not act.is_idle or context.waits or context.held:
            context.end = at
        if act.row == "G1":
            self.owners[act.cpu, int(act.words[3])] = context
        context.step(act)
        if act.event:
            context.hear(act.event)
            self.point(at, act, context)
        if act.row in ("G5", "C4", "C9"):
            self.arrows.append((at, context, self.owners[act.node()], "link"))
        context.phases[at] = context.phase()

    def point(self, at, act, context):
        """The arrow of an event that is about another waiter, and what it means for that one."""
        what, *rest = act.event.split()
        if what == "pass":
            cpu, depth = (int(part) for part in rest[1].split("."))
            other = self.stacks[cpu][depth]
            other.waits = "leads"
            other.phases[at] = other.phase()
            self.arrows.append((at, context, other, "handoff"))
        elif what == "kick":
            self.arrows.append((at, context, self.top(int(rest[0])), "kick"))


def width(texts):
    return LETTER * max(map(len, texts), default=0)


class Picture:
    def __init__(self, story, title, mark):
        self.story, self.title, self.mark = story, title, mark
        self.verbs, self.meanings = labels.verbs(), labels.meanings()
        self.cpus = 1 + max(context.cpu for context in story.contexts)
        self.depths = [1 + max([c.depth for c in story.contexts if c.cpu == cpu] or [0]) for cpu in range(self.cpus)]
        self.margin = 14 + width(["act"] + [act.numbers() for act in story.acts])
        for self.is_aside in (NOTHING, EVENTS, WORDS):
            self.place()
            if self.width * LEAST <= PAGE * SIZE:
                break
        self.height = TOP + ROW * len(story.acts) + 8
        self.parts = []

    def fields(self):
        """What the fields of the values are."""
        seen = {act.part() for act in self.story.acts}
        return "; ".join(f"{part} {fields}" for part, fields in FIELDS.items() if part in seen)

    def bars_room(self, cpu):
        return 4 + (BAR + 1) * self.depths[cpu] + GAP

    def place(self):
        """Where each lane begins, where the last one ends, and how wide all is."""
        self.lanes_at = [self.margin]
        for cpu in range(self.cpus):
            shown = [self.label(act) for act in self.story.acts if act.cpu == cpu]
            room = self.bars_room(cpu) + width([f"cpu {cpu}", *shown]) + 7 if shown else 0
            self.lanes_at.append(self.lanes_at[-1] + room)
        asides = [self.aside(act) for act in self.story.acts]
        self.aside_room = 8 + width(asides) if any(asides) else 0
        values = 14 + width(["met -> left"] + [act.values() for act in self.story.acts])
        self.width = max(self.lanes_at[-1] + self.aside_room + values, 8 + width([self.title]) * 1.2, 8 + width([self.fields()]), self.legend_width())

    def label(self, act):
        """What stands in the lane."""
        if self.is_aside == NOTHING and act.news():
            return f"{act.name()} {act.told(self.verbs)}" if act.is_row() else act.event
        gloss = act.gloss(self.verbs) if self.is_aside != WORDS else ""
        return " ".join(filter(None, [act.name(), gloss, f"x{act.times}" if act.times else ""]))

    def aside(self, act):
        """What stands at the right of the lanes."""
        return {NOTHING: "", EVENTS: act.news() or "", WORDS: act.told(self.verbs)}[self.is_aside]

    def add(self, text, *values):
        self.parts.append(text % values)

    def text(self, x, y, words, style="", meaning=""):
        """Words; `fails` among them is marked."""
        hover = f"<title>{escape(meaning)}</title>" if meaning else ""
        marked = re.sub(r"\bfails\b", FAILS, escape(words))
        self.add('<text x="%.1f" y="%.1f"%s>%s%s</text>', x, y, style, hover, marked)

    def bar_x(self, context):
        return self.lanes_at[context.cpu] + 4 + (BAR + 1) * context.depth

    def y(self, at):
        return TOP + ROW * at

    def legend_width(self):
        return sum(30 + LETTER * len(phase) for phase in COLOURS) + sum(44 + LETTER * len(arrow) for arrow in ARROWS)

    def legend(self):
        self.text(8, 18, self.title, ' font-weight="bold" font-size="13"')
        x = 8
        for phase, colour in COLOURS.items():
            self.add('<rect x="%.1f" y="27" width="12" height="11" fill="%s"/>', x, colour)
            self.text(x + 15, 37, phase)
            x += 30 + LETTER * len(phase)
        for arrow, colour in ARROWS.items():
            self.add('<path d="M%.1f 33 h20" stroke="%s" stroke-width="1.4" marker-end="url(#%s)"/>', x, colour, arrow)
            self.text(x + 26, 37, arrow)
            x += 44 + LETTER * len(arrow)
        self.text(8, 53, self.fields(), ' fill="#555555"')

    def lanes(self):
        self.text(6, TOP - 6, "act")
        for cpu in range(self.cpus):
            left, right = self.lanes_at[cpu:cpu + 2]
            if left == right:
                continue
            self.add('<rect x="%.1f" y="%d" width="%.1f" height="%d" fill="%s"/>', left, TOP - 18, right - left, self.height - TOP + 14,
                     "#f4f4f1" if cpu % 2 else "#ffffff")
            self.text(left + 4, TOP - 6, f"cpu {cpu}", ' font-weight="bold"', f"processor {cpu}")
        right = self.lanes_at[-1] + 6
        if self.aside_room:
            self.text(right, TOP - 6, "event", ' font-weight="bold"')
        self.text(right + self.aside_room, TOP - 6, "met -> left")

    def marks(self):
        """A line at each fifth act, and the band of the act that matters."""
        for at, act in enumerate(self.story.acts):
            if self.mark is not None and act.has_number(self.mark):
                self.add('<rect x="0" y="%d" width="%.1f" height="%d" fill="%s"/>', self.y(at), self.width, ROW, MARK)
                self.add('<path d="M0 %d v%d" stroke="#e8590c" stroke-width="6"/>', self.y(at), ROW)
        for at in range(0, len(self.story.acts) + 1, 5):
            self.add('<path d="M0 %d h%.1f" stroke="#dddddd" stroke-width="0.6"/>', self.y(at), self.width)

    def bars(self):
        for context in self.story.contexts:
            phase, begin = "runs", context.begin
            for at in range(context.begin, context.end + 2):
                now = context.phases.get(at, phase) if at <= context.end else None
                if now != phase:
                    self.bar(context, begin, at, phase)
                    phase, begin = now, at

    def bar(self, context, begin, end, phase):
        """From the middle of the row in which the phase begins to that in which it ends."""
        top, bottom = self.y(begin) + ROW / 2, self.y(end) + (ROW / 2 if end <= context.end else -1)
        if begin == context.begin:
            top = self.y(begin) + 1
        if bottom > top:
            self.add('<rect x="%.1f" y="%.1f" width="%d" height="%.1f" fill="%s"/>', self.bar_x(context), top, BAR, bottom - top, COLOURS[phase])

    def words(self):
        right = self.lanes_at[-1] + 6
        for at, act in enumerate(self.story.acts):
            baseline = self.y(at) + 12
            style = ' fill="#777777"' if act.is_idle or act.times else ' font-weight="bold"' if act.event else ""
            self.text(8, baseline, act.numbers())
            self.text(self.lanes_at[act.cpu] + self.bars_room(act.cpu), baseline, self.label(act), style, self.meaning(act))
            if self.aside(act):
                self.text(right, baseline, self.aside(act), style)
            self.text(right + self.aside_room, baseline, act.values(), ' fill="#555555"')

    def meaning(self, act):
        said = self.meanings.get(act.row)
        return f"{act.row}: {said}" if said else ""

    def draw_arrows(self):
        for at, one, other, kind in self.story.arrows:
            y, x, to = self.y(at) + ROW - 2.5, self.bar_x(one) + BAR / 2, self.bar_x(other) + BAR / 2
            to += -BAR / 2 - 1 if to > x else BAR / 2 + 1
            self.add('<circle cx="%.1f" cy="%.1f" r="2" fill="%s"/>', x, y, ARROWS[kind])
            self.add('<path d="M%.1f %.1f H%.1f" stroke="%s" stroke-width="1.4" marker-end="url(#%s)"/>', x, y, to, ARROWS[kind], kind)

    def draw(self):
        for kind, colour in ARROWS.items():
            self.add('<marker id="%s" viewBox="0 0 8 8" refX="7" refY="4" markerWidth="6" markerHeight="6" orient="auto">'
                     '<path d="M0 0 L8 4 L0 8 z" fill="%s"/></marker>', kind, colour)
        self.lanes()
        self.legend()
        self.marks()
        self.bars()
        self.words()
        self.draw_arrows()
        head = ('<svg xmlns="http://www.w3.org/2000/svg" width="%.0f" height="%d" viewBox="0 0 %.0f %d" font-family="DejaVu Sans Mono, monospace"'
                ' font-size="%d">\n<rect width="100%%" height="100%%" fill="#ffffff"/>\n')
        return head % (self.width, self.height, self.width, self.height, SIZE) + "\n".join(self.parts) + "\n</svg>\n"


def main():
    said = argparse.ArgumentParser(description=__doc__, formatter_class=argparse.RawDescriptionHelpFormatter, usage="timeline.py [--mark ACT] [TITLE] < STEPS > PICTURE")
    said.add_argument("--mark", type=int, metavar="ACT")
    said.add_argument("title", nargs="?", default="", metavar="TITLE")
    args = said.parse_args()
    acts = [Act(line.rstrip("\n")) for line in sys.stdin]
    if not acts:
        sys.exit("timeline: no acts")
    if len(acts) > MOST:
        print(f"timeline: a picture of {len(acts)} lines; `./qlock view` makes a page that draws those in sight", file=sys.stderr)
    sys.stdout.write(Picture(Story(acts), args.title, args.mark).draw())
    return 0


if __name__ == "__main__":
    as_program(main)
