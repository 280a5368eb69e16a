"""The families of locks of which random runs are made, on which of Linux's codes, and the figures of each."""
import collections
from typing import NamedTuple


class Family(NamedTuple):
    name: str     # the harness's
    variant: str  # of Linux's code
    options: tuple = ()
    word: str = "replay"  # with which qlock makes the same run


PLAIN = [
    Family("native", "generic"), Family("native", "generic-loops"), Family("native", "generic-16k"), Family("native", "x86"),
    Family("virt", "x86"), Family("pv", "generic"), Family("pv", "generic-16k"), Family("pv", "x86"),
    Family("native-rw", "generic"), Family("native-rw", "x86"), Family("virt-rw", "x86"), Family("pv-rw", "x86"),
    Family("cna", "generic"), Family("cna-rw", "generic"), Family("pv", "x86-stride"), Family("pv", "x86-hyperv"), Family("pv", "x86-xen"),
]
LEAVING = [Family("native", "generic", ("--leave",)), Family("pv", "x86", ("--leave",)), Family("native-rw", "generic", ("--leave",))]
# Linux's code for 16,384 processors beside format 2, which has its word.
WIDE = [Family(name, "generic-16k", ("--wide",)) for name in ("native", "pv", "native-rw", "pv-rw", "cna", "cna-rw")]
QUEUE = [Family("osq", "osq", (), "osq")]
ALL = PLAIN + LEAVING + WIDE + QUEUE

HEAD = "%-10s %-13s %-8s %6s %6s %6s %6s %10s %9s  %s" % (
    "family", "Linux's code", "", "runs", "same", "differ", "lawful", "operations", "acts", "the runs that differ, by cause")


class Figures:
    """The counts of a family: runs, operations of Linux, acts; same and different runs, by the cause that they met."""

    def __init__(self, family):
        self.family = family
        self.operations = self.acts = self.lawful = 0
        self.same, self.different = collections.Counter(), collections.Counter()

    def add(self, compared):
        cause = " ".join(compared.causes) or "no cause"
        (self.same if compared.same else self.different)[cause] += 1
        self.lawful += compared.verdict == "lawful"

    @property
    def runs(self):
        return sum(self.same.values()) + sum(self.different.values())

    @property
    def faults(self):
        """Runs that differ for no cause, and runs of which Linux's own transcript is not lawful."""
        unlawful = self.runs - self.lawful if self.family.word == "replay" else 0
        return self.different["no cause"] + unlawful

    def causes(self):
        met = sorted((set(self.same) | set(self.different)) - {"no cause"})
        told = ["%s: %d of the %d runs that met it" % (cause, self.different[cause], self.same[cause] + self.different[cause]) for cause in met]
        return "; ".join(told + ["NO CAUSE: %d" % self.different["no cause"]] * (self.different["no cause"] > 0))

    def line(self):
        name, variant, options, word = self.family
        same, different = sum(self.same.values()), sum(self.different.values())
        lawful = self.lawful if word == "replay" else "-"
        numbers = (self.runs, same, different, lawful, self.operations, self.acts, self.causes())
        return ("%-10s %-13s %-8s %6d %6d %6d %6s %10d %9d  %s" % ((name, variant, " ".join(options)) + numbers)).rstrip()
