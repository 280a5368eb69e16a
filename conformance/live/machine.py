"""The machine: a kernel in qemu without a hypervisor, with four processors, and the ring in a part of its memory that the host reads too."""
import gzip
import mmap
import os
import select
import shutil
import struct
import subprocess
import time
from pathlib import Path
from typing import NamedTuple

# As in patch/ring.c.
RING_AT, RING_BYTES, RING_PAGE, RING_NAME, SLOT = 0x20000000, 0x4000000, 4096, 0x676E69726B636F71, 16
MEGABYTE = 1 << 20
QEMU = "qemu-system-x86_64"
# The kernel has no ACPI, so it finds the processors in the table of the BIOS, which names one of each socket.
ALWAYS = ["-accel", "tcg,thread=multi", "-smp", "4,sockets=4,cores=1", "-display", "none", "-monitor", "none", "-serial", "stdio", "-no-reboot", "-nodefaults"]
WORDS = f"console=ttyS0 panic=-1 quiet no_timer_check memmap={RING_BYTES // MEGABYTE}M${RING_AT // MEGABYTE}M"
BOOTING = 300
DIRECTORY, FILE, DEVICE = 0o040755, 0o100755, 0o020600


class Ring(NamedTuple):
    """What the ring of a run has: its slots, and how many numbers were drawn."""
    slots: bytes
    drawn: int


class Ended(NamedTuple):
    """How a run ended: what the guest told, whether it came to its end, and the seconds from the start of the machine."""
    told: list
    is_whole: bool
    seconds: float


def entry(name, mode, content=b"", device=(0, 0)):
    """A file of an archive as the kernel unpacks it at its start (`newc`)."""
    path = name.encode() + b"\0"
    fields = (0, mode, 0, 0, 1, 0, len(content), 0, 0, *device, len(path), 0)
    head = b"070701" + b"".join(b"%08X" % field for field in fields) + path
    return head + b"\0" * (-len(head) % 4) + content + b"\0" * (-len(content) % 4)


def archive(files):
    """The compressed archive of the guest's files: init, busybox, and those that are given by their paths."""
    folders = sorted({"/".join(path.split("/")[:depth]) for path in ["bin/", "dev/", "proc/", "sys/", *files] for depth in range(1, path.count("/") + 1)})
    parts = [entry(folder, DIRECTORY) for folder in folders]
    parts += [entry("dev/console", DEVICE, device=(5, 1)), entry("dev/null", DEVICE, device=(1, 3))]
    parts += [entry(path, FILE, content) for path, content in files.items()]
    return gzip.compress(b"".join(parts) + entry("TRAILER!!!", 0), 1)


def write_guest(made, init, more):
    """Writes the archive of a guest beside its kernel: its first script, busybox, the modules, and more files by their paths."""
    busybox = shutil.which("busybox")
    if not busybox:
        raise SystemExit("conformance: busybox is not there, of which the guest is made")
    files = {"init": init.read_bytes(), "bin/busybox": Path(busybox).read_bytes()}
    files.update({name: (made / name).read_bytes() for name in ("torture.ko", "locktorture.ko")})
    (made / "initrd").write_bytes(archive({**files, **more}))


def ring_of(memory):
    """The ring in the memory of a machine, which may have stopped."""
    with mmap.mmap(memory, RING_AT + RING_BYTES, prot=mmap.PROT_READ) as whole:
        name, slots, drawn = struct.unpack_from("<QII", whole, RING_AT)
        if name != RING_NAME or slots != (RING_BYTES - RING_PAGE) // SLOT:
            raise SystemExit("conformance: the kernel has written no ring into its memory")
        first = RING_AT + RING_PAGE
        return Ring(whole[first : first + min(drawn, slots) * SLOT], drawn)


def lines_of(machine, patience):
    """What the guest says on its console, line by line, until it has said nothing of its own for so many seconds; at its start for BOOTING."""
    rest, until = b"", time.monotonic() + BOOTING
    while True:
        ready, _, _ = select.select([machine.stdout], [], [], max(0, until - time.monotonic()))
        piece = os.read(machine.stdout.fileno(), 65536) if ready else b""
        if not piece:
            return
        *lines, rest = (rest + piece).split(b"\n")
        for line in (line.decode(errors="replace").rstrip() for line in lines):
            until = time.monotonic() + patience if line.startswith("live: ") else until
            yield line


def boot(made, words, processor, size, patience, options=(), memory=None):
    """Boots a kernel, and ends its machine when the guest says `live: done`, or stands still."""
    command = [QEMU, *ALWAYS, "-m", str(size), "-cpu", processor, "-kernel", str(made / "bzImage"), "-initrd", str(made / "initrd"),
               "-append", f"{WORDS} {words}", *options]
    if memory is not None:
        command += ["-machine", "pc,memory-backend=ram", "-object", f"memory-backend-file,id=ram,size={size}M,share=on,mem-path=/proc/self/fd/{memory}"]
    begun, told = time.monotonic(), []
    shared = (memory,) if memory is not None else ()
    with subprocess.Popen(command, stdin=subprocess.DEVNULL, stdout=subprocess.PIPE, stderr=subprocess.STDOUT, pass_fds=shared) as machine:
        for line in lines_of(machine, patience):
            told.append(line)
            if line == "live: done":
                break
        machine.kill()
    return Ended(told, told[-1:] == ["live: done"], time.monotonic() - begun)
