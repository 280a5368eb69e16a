"""Wrong bodies of the slow path, each of which the comparison has to find. The driver makes the one whose number it is given."""
from typing import NamedTuple


class Mistake(NamedTuple):
    name: str
    crate: str
    file: str
    right: str
    wrong: str


def left_out(number, line, indent):
    return f"{indent}if !cpu.is_wrong({number}) {{\n{indent}    {line}\n{indent}}}\n"


def pv_left_out(number, line, indent):
    return f"{indent}if !lk_domain::gate::is_wrong(&self.domain.table, {number}) {{\n{indent}    {line}\n{indent}}}\n"


MISTAKES = (
    # A call that met a tail leaves its pending bit, for which the queue head then waits.
    Mistake("leaves_pending", "lk_run", "slowpath.rt", "                self.clear_pending(cpu);\n", left_out(1, "self.clear_pending(cpu);", " " * 16)),
    # A head that was handed a secondary queue forgets it.
    Mistake(
        "forgets_those_aside",
        "lk_run",
        "slowpath.rt",
        "Flag::Second(first) => self.lead(cpu, Some(first)),",
        "Flag::Second(first) => {\n                let second = if cpu.is_wrong(2) { None } else { Some(first) };\n                self.lead(cpu, second)\n            }",
    ),
    # The last of the secondary queue is stored before the link behind it is cut.
    Mistake(
        "names_before_it_cuts",
        "lk_run",
        "choosing.rt",
        "        self.cut(cpu, b);\n        self.set_tail(cpu, first, b);\n",
        "        if cpu.is_wrong(3) {\n            self.set_tail(cpu, first, b);\n            self.cut(cpu, b);\n        } else {\n"
        "            self.cut(cpu, b);\n            self.set_tail(cpu, first, b);\n        }\n",
    ),
    # A writer waits for the readers without keeping new ones out.
    Mistake("lets_readers_past", "lk_run", "polled_write.rt", "        self.announce(cpu);\n", left_out(4, "self.announce(cpu);", " " * 8)),
    # A head with others behind it hands off without having taken the lock.
    Mistake("hands_on_what_it_has_not", "lk_run", "slowpath.rt", "        self.take_head(cpu);\n", left_out(5, "self.take_head(cpu);", " " * 8)),
    # A paravirtual head leaves its pending bit when its turns are over, so that nobody steals from one that sleeps.
    Mistake("sleeps_pending", "lk_pvdomain", "slowpath.rt", "        self.clear_pending(seat, hashed);\n", pv_left_out(6, "self.clear_pending(seat, hashed);", " " * 8)),
    # One that goes on behind its halt, or does not halt, does not take its state back.
    Mistake("stays_halted", "lk_pvdomain", "slowpath.rt", "        self.say_running(seat, prev);\n        let left = self.turns();\n        self.wait(seat",
            pv_left_out(7, "self.say_running(seat, prev);", " " * 8) + "        let left = self.turns();\n        self.wait(seat"),
    # A holder that hands off to one that has halted does not make the byte slow, so its release kicks nobody.
    Mistake("kicks_nobody", "lk_pvdomain", "slowpath.rt", "            self.store_slow(seat, to);\n", pv_left_out(8, "self.store_slow(seat, to);", " " * 12)),
)
