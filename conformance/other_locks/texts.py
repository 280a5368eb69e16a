"""The two locks: their files of Linux, the bodies that stand for assembly, and the numbers that are made smaller."""
import os
import re
import sys
from pathlib import Path
from typing import NamedTuple

sys.path.insert(0, str(Path(__file__).resolve().parent.parent))

import sources


class Text(NamedTuple):
    name: str
    # Each file of the kernel, and its name in the build folder.
    files: dict
    # Each function in assembly, and what stands for its assembly and what follows it.
    bodies: dict
    # What stands in Linux's text, and what here: tunables that a machine's owner sets, so that short runs meet each branch.
    numbers: dict
    # Headers that the files include, and for which shims/NAME/kernel.h stands.
    shimmed: str
    # A line that Linux 6.12 has, and without which its text stalls.
    line: str = ""


POWERPC = Text(
    "powerpc",
    {
        "arch/powerpc/lib/qspinlock.c": "qspinlock.c",
        "arch/powerpc/include/asm/qspinlock.h": "asm/qspinlock.h",
        "arch/powerpc/include/asm/qspinlock_types.h": "asm/qspinlock_types.h",
    },
    {
        "trylock_clean_tail": "return shim_update(&lock->val, SHIM_CLEAN, tail, newval, __func__);",
        "publish_tail_cpu": "return shim_update(&lock->val, SHIM_PUBLISH, tail, 0, __func__);",
        "set_mustq": "return shim_update(&lock->val, SHIM_MUSTQ, 0, 0, __func__) | _Q_MUST_Q_VAL;",
        "clear_mustq": "return shim_update(&lock->val, SHIM_NO_MUSTQ, 0, 0, __func__) & ~_Q_MUST_Q_VAL;",
        "try_set_sleepy": "return shim_update(&lock->val, SHIM_SLEEPY, old, new, __func__) == old;",
        "__queued_spin_trylock_nosteal": "return shim_update(&lock->val, SHIM_TRY, 0, new, __func__) == 0;",
        "__queued_spin_trylock_steal": "return !(shim_update(&lock->val, SHIM_STEAL, 0, new, __func__) & ~_Q_TAIL_CPU_MASK);",
    },
    {
        "steal_spins __read_mostly = (1 << 5)": "steal_spins __read_mostly = 1",
        "head_spins __read_mostly = (1 << 8)": "head_spins __read_mostly = 4",
        "pv_yield_allow_steal __read_mostly = false": "pv_yield_allow_steal __read_mostly = true",
        "pv_sleepy_lock_factor __read_mostly = 256": "pv_sleepy_lock_factor __read_mostly = 2",
    },
    """linux/bug.h linux/compiler.h linux/export.h linux/percpu.h linux/processor.h linux/smp.h linux/topology.h linux/sched/clock.h
    asm/paravirt.h linux/types.h asm/byteorder.h linux/debugfs.h""",
    "\tnode->lock = NULL;\n",
)
S390 = Text(
    "s390",
    {
        "arch/s390/lib/spinlock.c": "spinlock.c",
        "arch/s390/include/asm/spinlock.h": "asm/spinlock.h",
        "arch/s390/include/asm/spinlock_types.h": "asm/spinlock_types.h",
    },
    {
        "arch_load_niai4": "return READ_ONCE(*lock);",
        "arch_cmpxchg_niai8": "return __atomic_cmpxchg_bool(lock, old, new);",
        "arch_spin_unlock": "shim_release(&lp->lock, __func__);",
    },
    {"int spin_retry = -1": "int spin_retry = 2"},
    """linux/types.h linux/export.h linux/jiffies.h linux/init.h linux/smp.h linux/percpu.h linux/io.h asm/alternative.h asm/atomic_ops.h
    asm/barrier.h asm/processor.h linux/compiler.h""",
)
ALL = (POWERPC, S390)
FILES = ["Makefile", *(file for text in ALL for file in text.files)]


def only(found, wanted, where):
    if found.count(wanted) != 1:
        raise SystemExit(f"conformance: {where} has {wanted!r} {found.count(wanted)} times, and not once")


def with_bodies(text, path, told):
    """The text of a file with its bodies of assembly replaced, and which they are. What stands before the assembly stays."""
    replaced = [name for name in text.bodies if re.search(rf"^static .*\b{name}\(", told, re.M)]
    for name in replaced:
        function = sources.function_of(path, name)[1]
        only(told, function, path)
        told = told.replace(function, function[: function.index("\tasm")] + f"\t{text.bodies[name]}\n}}")
    return told, replaced


def with_numbers(text, told):
    for linux, here in text.numbers.items():
        only(told, linux, text.name)
        told = told.replace(linux, here)
    return told


def write(text, source, folder, is_without_line):
    """Writes the files of a lock into a folder, and the headers for which the shims stand."""
    found = []
    for file, name in text.files.items():
        path = os.path.join(source, file)
        told, replaced = with_bodies(text, path, Path(path).read_text())
        found += replaced
        told = with_numbers(text, told) if name.endswith(".c") else told
        if is_without_line and name.endswith(".c"):
            only(told, text.line, file)
            told = told.replace(text.line, "")
        target = Path(folder, name)
        target.parent.mkdir(parents=True, exist_ok=True)
        target.write_text(told)
    if sorted(found) != sorted(text.bodies):
        raise SystemExit(f"conformance: {text.name} has not each of its bodies once: {found}")
    headers = {name: '#include "kernel.h"\n' for name in text.shimmed.split()}
    if text is S390:
        headers["linux/spinlock.h"] = '#include "kernel.h"\n#include <asm/spinlock_types.h>\n#include <asm/spinlock.h>\n'
    for name, told in headers.items():
        target = Path(folder, name)
        target.parent.mkdir(parents=True, exist_ok=True)
        target.write_text(told)
