"""Walks the page docs/LOCKDEP.md: boots the kernel with lockdep, which runs the page's commands, and makes the page's call of ./qlock here."""
import sys
from pathlib import Path

HERE = Path(__file__).resolve().parent
sys.path.insert(0, str(HERE.parent))

import machine
import setting
import walking

HEAD = ("| The page's way | Answer | Events read | Told | Locks (reader-writer) | Histories | Seconds from the boot | "
        "Seconds of the import, of a processor, million events a minute |\n|---|---|---|---|---|---|---|---|")
WRONG_HEAD = "| The page with wrong words | What is said | Seconds from the boot |\n|---|---|---|"
# The bytes of the disk, the megabytes of memory, and the seconds that a command may take.
DISK, SIZE, PATIENCE = 4 << 30, 3072, 1200
QLOCK, TOOL = [str(walking.TOP / "qlock"), "import", "lockdep"], [str(walking.TOP / "tools/audits/lockdep")]


class Walk:
    """A walk: the way of the page, and the folder of the kernel, beside which the disk is. What ./qlock is here; how the guest ended."""

    def __init__(self, way, made, folder, program):
        self.way, self.program = way, program
        self.disk, self.folder = folder / "disk", folder / "walked"
        machine.write_guest(made, HERE / "guest" / "page", {**walking.guest_files(), "page": walking.script_of(way).encode()})
        self.disk.unlink(missing_ok=True)
        with open(self.disk, "wb") as disk:
            disk.truncate(DISK)
        setting.say(f"the page, by {way.name}: booting")
        drive = ["-drive", f"file={self.disk},format=raw,if=virtio,cache=unsafe"]
        self.ended = machine.boot(made, "", "max,-hypervisor", SIZE, PATIENCE, drive)

    @property
    def failure(self):
        """What went wrong in the guest; none if all commands came to their end."""
        if not self.ended.is_whole:
            return "the guest stood still"
        if walking.FAILED not in self.ended.told:
            return None
        _, number = walking.steps(self.ended.told)
        return "the guest failed" if number is None else f"the command failed: {self.way.commands[number]}"

    def asked(self, *more):
        setting.say(f"the page, by {self.way.name}: {self.way.call}")
        return walking.asked(self.way, self.folder, self.program, *more)

    def show(self, told):
        """The seconds of each command, and what ./qlock said behind the answer."""
        seconds, _ = walking.steps(self.ended.told)
        print("".join(f"  {seconds[number]:.1f} s: {self.way.commands[number]}\n" for number in seconds), end="")
        print(f"  {told.passed:.1f} s: {self.way.call}")
        print("".join(f"    {line}\n" for line in told.lines), end="", flush=True)


def is_wrong(walk):
    """Prints how a walk of the page went: whether it went wrong."""
    if walk.failure:
        print(f"| {walk.way.name}, {walk.way.kind} | {walk.failure} | | | | | {walk.ended.seconds:.0f} | |")
        print("\n".join(f"    {line}" for line in walk.ended.told[-20:]), flush=True)
        return True
    walking.unpack(walk.disk, walk.folder)
    told, tortured = walk.asked(), walk.asked("--only", walking.TORTURED)
    fault = walking.fault(told, tortured)
    answer, own, read, locks, writers, histories = told.counts or ("none", *5 * [0])
    times = f"{walk.ended.seconds:.0f} | {told.passed:.1f}, {told.worked:.1f}, {read * 60 / 1e6 / (told.worked or 1):.1f}"
    print(f"| {walk.way.name}, {walk.way.kind} | {fault or answer} | {read} | {own} | {locks} ({writers}) | {histories} | {times} |")
    walk.show(told)
    print("".join(f"  of {walking.TORTURED} alone: {line}\n" for line in tortured.lines[:1]), flush=True)
    return bool(fault)


def is_missed(walk, said):
    """Prints what is said of the page with wrong words: whether they were not noticed."""
    found, status = walk.failure, 3
    if not found:
        walking.unpack(walk.disk, walk.folder)
        told = walk.asked()
        found, status = (told.lines or ["nothing"])[-1 if told.status else 0], told.status
    print(f"| {walk.way.name} | {found} | {walk.ended.seconds:.0f} |", flush=True)
    return status != 3 or said not in found


def page(made, folder, is_named):
    """Walks the page both ways, and with each of the wrong words; how many walks did not end as they should."""
    ways, program = walking.ways(), TOOL if is_named else QLOCK
    print(HEAD, flush=True)
    failures = sum(is_wrong(Walk(way, made, folder, program)) for way in ways)
    print("\n" + WRONG_HEAD, flush=True)
    named = {way.name: way for way in ways}
    failures += sum(is_missed(Walk(walking.changed(named[wrong.way], wrong), made, folder, program), wrong.said) for wrong in walking.WRONG)
    print()
    return failures
