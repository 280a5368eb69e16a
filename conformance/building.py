"""Compiles the kernel's files, unchanged, against the shims, and the harnesses."""
import concurrent.futures
import os
import re
import subprocess

import setting

HERE = os.path.dirname(os.path.abspath(__file__))
# Headers that the kernel's files include, and for which shims/kernel.h stands.
SHIMMED = """linux/smp.h linux/bug.h linux/cpumask.h linux/percpu.h linux/hardirq.h linux/mutex.h linux/prefetch.h linux/memblock.h
linux/debug_locks.h linux/jump_label.h linux/types.h linux/atomic.h linux/compiler.h asm/byteorder.h asm/types.h asm/barrier.h
asm/processor.h asm/cpufeature.h asm/paravirt.h asm/rmwcc.h trace/events/lock.h asm/mcs_spinlock.h asm/qspinlock_paravirt.h""".split()
# Name, x86's own header or asm-generic, flags.
VARIANTS = {
    "generic": (False, ["-D_Q_PENDING_LOOPS=0"]),
    "generic-loops": (False, []),
    "generic-16k": (False, ["-D_Q_PENDING_LOOPS=0", "-DCONFIG_NR_CPUS=16384"]),
    "x86": (True, []),
    "x86-stride": (True, ["-DCONFORMANCE_STRIDE"]),
    "x86-hyperv": (True, ["-DCONFORMANCE_HYPERV"]),
    "x86-xen": (True, ["-DCONFORMANCE_XEN"]),
}
# The harness of the optimistic spin queue, which is no spinlock and has no variants.
QUEUE = "osq"
KERNEL_FLAGS = """-std=gnu11 -O1 -g -fno-strict-aliasing -fsanitize=thread -Wall -Wno-unused-function -Wno-unused-variable
-Wno-unused-value -Wno-missing-braces -Wno-unknown-pragmas -Wno-int-to-pointer-cast""".split()
HARNESS_FLAGS = ["-std=gnu++17", "-O2", "-g", "-Wall", "-Wextra", "-Wno-missing-field-initializers"]
SHARED = ["changes", "fault", "table", "words"]
SPINLOCKS = ["main", "machine", "memory", "acts", "hooks", "plain", "scheduler", "setup", "setups", "schedules", "traces"]
QUEUES = ["osq/main", "osq/memory", "osq/acts", "osq/hooks", "osq/turns", "osq/runs"]
CALL = re.compile(r"call +\w+ <__tsan_(?:unaligned_)?(read|write)\d+>")
ADDRESS = re.compile(r"^ *([0-9a-f]+):\t")


def write_headers(build):
    folder = os.path.join(build, "headers")
    texts = {name: '#include "kernel.h"\n' for name in SHIMMED}
    texts["linux/sched.h"] = '#include "asking.h"\n'
    texts["asm/spinlock_types.h"] = "#include <asm-generic/qspinlock_types.h>\n"
    texts["linux/spinlock.h"] = "#include <asm/qspinlock.h>\n#include <asm-generic/qrwlock.h>\n"
    for name, text in texts.items():
        path = os.path.join(folder, name)
        os.makedirs(os.path.dirname(path), exist_ok=True)
        with open(path, "w") as header:
            header.write(text)
    return folder


def text_of(command):
    done = subprocess.run(command, capture_output=True, text=True)
    if done.returncode != 0:
        raise SystemExit(" ".join(command) + "\n" + done.stderr)
    return done.stdout


class Compilation:
    """The commands that make the harnesses in a build folder: the objects first, then the programs."""

    def __init__(self, build, source):
        self.build, self.source = build, source
        self.headers = write_headers(build)
        self.commands, self.links, self.programs = [], [], {}

    def object_of(self, folder, name):
        path = os.path.join(self.build, "objects", folder, name + ".o")
        os.makedirs(os.path.dirname(path), exist_ok=True)
        return path

    def add_harness(self, names):
        """The objects of the harness's own files."""
        objects = [self.object_of("harness", name) for name in names]
        for name, target in zip(names, objects):
            self.commands.append(["g++"] + HARNESS_FLAGS + ["-c", os.path.join(HERE, "harness", name + ".cpp"), "-o", target])
        return objects

    def add_kernel(self, folder, paths, is_x86, flags):
        """The objects of files of the kernel, or of the shims."""
        shims = os.path.join(HERE, "shims")
        asm = os.path.join(self.source, "arch/x86/include") if is_x86 else os.path.join(shims, "generic")
        includes = [shims, self.headers, asm, os.path.join(self.source, "include"), os.path.join(self.source, "kernel/locking"), self.source]
        flags = KERNEL_FLAGS + flags + ["-ffile-prefix-map=%s/=" % self.source] + ["-I" + include for include in includes]
        objects = [self.object_of(folder, os.path.basename(path)[:-2]) for path in paths]
        for path, target in zip(paths, objects):
            self.commands.append(["gcc"] + flags + ["-c", path, "-o", target])
        return objects

    def add_program(self, name, objects, flags):
        self.programs[name] = os.path.join(self.build, "harness-" + name)
        self.links.append(["g++"] + flags + objects + ["-o", self.programs[name]])

    def run(self):
        setting.say("compiling %d files" % len(self.commands))
        with concurrent.futures.ThreadPoolExecutor(2) as pool:
            list(pool.map(text_of, self.commands))
            list(pool.map(text_of, self.links))


def kernel_file(source, name):
    return os.path.join(source, "kernel/locking", name)


def build_all(build, source):
    """The harness of each variant of the kernel's code, and that of the queue, by name."""
    made = Compilation(build, source)
    shared = made.add_harness(SHARED)
    own = shared + made.add_harness(SPINLOCKS)
    for variant, (is_x86, flags) in VARIANTS.items():
        paths = [kernel_file(source, "qspinlock.c"), kernel_file(source, "qrwlock.c"), os.path.join(HERE, "shims/entries.c")]
        generic = [] if is_x86 else ["-DCONFORMANCE_GENERIC"]
        made.add_program(variant, own + made.add_kernel(variant, paths, is_x86, flags + generic), [])
    queue = made.add_kernel(QUEUE, [kernel_file(source, "osq_lock.c")], False, [])
    # Without a random base, the places of its plain accesses can be listed beside it.
    made.add_program(QUEUE, shared + made.add_harness(QUEUES) + queue, ["-no-pie"])
    made.run()
    write_plain_places(made.programs[QUEUE])
    return made.programs


def plain_calls(program):
    """(the address behind it, load or store) of each call that the compiler made for a plain access."""
    kind, found = None, []
    for line in text_of(["objdump", "-d", "--no-show-raw-insn", program]).splitlines():
        address = ADDRESS.match(line)
        if address and kind:
            found.append((int(address[1], 16), kind))
        call = CALL.search(line)
        kind = {"read": "load", "write": "store"}[call[1]] if call else None
    return found


def write_plain_places(program):
    """Where in the source each plain access stands, for the harness to read: address, kind, file, line, function."""
    calls = plain_calls(program)
    command = ["addr2line", "-e", program, "-f"] + ["%x" % (address - 1) for address, _ in calls]
    lines = iter(text_of(command).splitlines())
    with open(program + ".places", "w") as places:
        for (address, kind), function, place in zip(calls, lines, lines):
            file, line = place.split(" ")[0].rsplit(":", 1)
            name = file[file.rindex("kernel/locking/"):] if "kernel/locking/" in file else file
            print("%x" % address, kind, name, line, function, file=places)
