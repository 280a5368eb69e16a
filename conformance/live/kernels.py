"""Builds the kernels: one with lockdep, of Linux as it is; one with the ring of events; and that one with faults. What is built is kept."""
import hashlib
import os
import shutil
import subprocess
import sys
import time
from pathlib import Path
from typing import NamedTuple

HERE = Path(__file__).resolve().parent
sys.path.insert(0, str(HERE.parent))

import patching
import setting
import sources

LINUX = "6.12"
# Folders of which only the lists of files and options are wanted, and what nobody compiles.
LEFT_OUT = ["Documentation/*.rst", "*/Documentation/*.yaml", "*/Documentation/*.txt", "*/drivers/gpu/*.[ch]", "*/drivers/net/*.[ch]",
            "*/drivers/media/*.[ch]", "*/sound/*.[ch]", "*/tools/testing/*.[ch]", "*.dts", "*.dtsi"]
MADE = {"bzImage": "arch/x86/boot/bzImage", "torture.ko": "kernel/torture.ko", "locktorture.ko": "kernel/locking/locktorture.ko"}


class Kernel(NamedTuple):
    """A kernel, by the name of its configuration, and the patches of its tree."""
    name: str
    config: str
    patches: tuple


LOCKDEP = Kernel("lockdep", "lockdep", ())
RING = Kernel("ring", "ring", ("ring.places",))
FAULTY = Kernel("faulty", "ring", ("ring.places", "faults.places"))


def wanted_of(kernel):
    return "".join((HERE / "configs" / name).read_text() for name in ("common", kernel.config))


def key_of(kernel, version):
    """What a kernel is made of, as a digest: where it changes, the kernel is built again."""
    parts = [version, wanted_of(kernel), *((patching.PATCH / name).read_text() for name in kernel.patches)]
    parts += [(patching.PATCH / name).read_text() for name in patching.ADDED] if kernel.patches else []
    return hashlib.sha256("\n".join(parts).encode()).hexdigest()


class Builder:
    def __init__(self, build, jobs):
        self.package, self.folder, self.jobs = build, Path(build, "live"), jobs
        self.linux = self.folder / "linux"
        self.folder.mkdir(exist_ok=True)

    def unpacked(self):
        """The tree of Linux, but for what nobody compiles."""
        whole = self.linux / ".whole"
        if not whole.exists():
            archive = sources.fetch(self.package, "linux-source-" + LINUX)
            setting.say("unpacking linux-source-" + LINUX)
            shutil.rmtree(self.linux, ignore_errors=True)
            self.linux.mkdir()
            run(["tar", "-xf", archive, "-C", self.linux, "--strip-components=1", *(f"--exclude={name}" for name in LEFT_OUT)])
            whole.touch()
        return self.linux

    def tree(self, kernel):
        """The tree of a kernel: Linux's own, or a patched one, which shares with it by links the files that are not patched."""
        linux = self.unpacked()
        if not kernel.patches:
            return linux
        tree = self.folder / "linux-ring"
        if not tree.exists():
            begun = self.folder / "linux-ring.begun"
            shutil.rmtree(begun, ignore_errors=True)
            run(["cp", "-al", linux, begun])
            begun.rename(tree)
        patching.write(linux, tree, kernel.patches)
        return tree

    def configure(self, kernel, tree, output):
        """Writes the configuration, and refuses one that lacks a wanted line."""
        output.mkdir(exist_ok=True)
        wanted = output / "wanted"
        if wanted.exists() and wanted.read_text() == wanted_of(kernel) and (output / ".config").exists():
            return
        wanted.write_text(wanted_of(kernel))
        self.make(tree, output, f"KCONFIG_ALLCONFIG={wanted}", "allnoconfig")
        has = set((output / ".config").read_text().splitlines())
        missing = [line for line in wanted_of(kernel).split() if line not in has]
        if missing:
            raise SystemExit(f"conformance: the configuration {kernel.config} does not get {' '.join(missing)}")

    def make(self, tree, output, *words):
        log = output / "log"
        command = ["make", "-C", tree, f"O={output}", f"-j{self.jobs}", *words]
        with open(log, "w") as told:
            done = subprocess.run(command, stdout=told, stderr=subprocess.STDOUT, stdin=subprocess.DEVNULL)
        if done.returncode:
            raise SystemExit(f"conformance: {' '.join(map(str, command))}\n" + "\n".join(log.read_text().splitlines()[-20:]))

    def built(self, kernel):
        """The folder of a kernel's image and modules, and the seconds that it took: none if it was kept."""
        linux, made = self.unpacked(), self.folder / f"made-{kernel.name}"
        key = key_of(kernel, sources.version(linux))
        if (made / "key").exists() and (made / "key").read_text() == key:
            setting.say(f"kernel {kernel.name}: kept")
            return made, None
        begun = time.monotonic()
        setting.say(f"kernel {kernel.name}: building with {self.jobs} jobs, which takes some minutes")
        tree, output = self.tree(kernel), self.folder / kernel.config
        self.configure(kernel, tree, output)
        self.make(tree, output, "bzImage", "modules")
        shutil.rmtree(made, ignore_errors=True)
        made.mkdir()
        for name, path in MADE.items():
            shutil.copyfile(output / path, made / name)
        (made / "key").write_text(key)
        seconds = time.monotonic() - begun
        setting.say(f"kernel {kernel.name}: built in {seconds:.0f} s")
        return made, seconds


def run(command):
    subprocess.run(list(map(os.fspath, command)), check=True, stdin=subprocess.DEVNULL)
