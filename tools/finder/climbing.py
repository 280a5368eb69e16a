"""A search that climbs, for what many acts have to lead to. Each want that has levels says how near a trace comes to it, and by which
act. The beginnings of traces that came nearest are kept. They are cut behind that act, and no act stays in them that can be left out.
The next traces begin with one of them. A beginning that has been gone on from often, and never led higher, makes room for one with
another header."""
from finder import shrinking

# How many beginnings are kept of each level.
KEPT = 4
# How often a trace begins with one of the nearest beginnings, and not with one of any level.
NEAREST = 0.6
# How many traces begin with a beginning that leads no higher.
WORN = 60


class Near:
    """A trace that comes as near as a level."""

    def __init__(self, want, level):
        self.want, self.wanted = want, level

    def act(self, trace):
        level, act = self.want.level(trace)
        return act if level >= self.wanted else None


class Beginning:
    def __init__(self, trace):
        self.trace, self.header, self.used = trace, "\n".join(trace.header()), 0


class Climber:
    def __init__(self, want, maker):
        self.want, self.maker = want, maker
        # The beginnings of each level, and of each level the headers whose beginnings led no higher.
        self.levels, self.worn = {}, set()

    def beginning(self):
        """The level and the beginning of a trace; None for a trace that is new from its first act."""
        random = self.maker.random
        if not self.levels:
            return None
        level = max(self.levels)
        if random.random() > NEAREST:
            level = random.choice([0, *self.levels])
        if level not in self.levels:
            return None
        return level, random.choice(self.levels[level])

    def tried(self, seed):
        """A trace that has what is wanted, or None; the beginning of a trace that came near is kept."""
        self.maker.random.seed(seed)
        begun = self.beginning()
        trace = self.maker.extended(begun[1].trace) if begun else self.maker.trace()
        level, _ = self.want.level(trace)
        if begun:
            self.wear(*begun, level)
        if level:
            self.keep(level, trace)
        if level < self.want.HIGHEST:
            return None
        act = self.want.act(trace)
        if act is not None:
            trace.acts = trace.acts[:act]
        return trace if act is not None else None

    def wear(self, level, begun, reached):
        """Gives a beginning up that has led no higher often enough, and with it those of its header; but not the only header there is."""
        begun.used = 0 if reached > level else begun.used + 1
        if begun.used < WORN or self.maker.given:
            return
        self.worn.add((level, begun.header))
        self.levels[level] = [each for each in self.levels[level] if each.header != begun.header]
        self.levels = {level: kept for level, kept in self.levels.items() if kept}

    def keep(self, level, trace):
        """Keeps the beginning of the trace, where there are few of its level."""
        if (level, "\n".join(trace.header())) in self.worn:
            return
        beginnings = self.levels.setdefault(level, [])
        if len(beginnings) < KEPT:
            small = shrinking.Shrinker(Near(self.want, level), trace.copy())
            small.try_one(trace.copy())
            small.fewer_acts()
            beginnings.append(Beginning(small.trace))
