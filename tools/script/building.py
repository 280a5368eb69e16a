"""`./qlock build`: proves every crate below the programs, and builds them.

The toolchain holds a crate and those below it while it works there. So one copy of the sources has one crate proved at a time, and several
are proved in lanes: copies of the sources, each with its own `out`. What one copy has proved the toolchain hands to the others. The crates
are taken by the graph of `crates.txt`, the longest chain of crates above them first. As soon as a crate is proved in a lane it is taken
over into the sources' own `out`, so that an interrupt loses only what was begun. The lanes are removed however the build ends.
"""
import argparse
import contextlib
import fcntl
import os
import shutil
import signal
import subprocess
import sys
import threading
import time
from pathlib import Path

from script.programs import CRATES, PROOFS, TOP, Failed, below, checksum, graph, is_proved, mark_of, need_rt, proved_path, say, sources_of
from script.running import Interrupted, interrupts_raise
from script.table import PROGRAMS
from script.words import Unknown

ROOM = TOP / "out" / "build"
# Seconds between two lines that say how far the build is, and those that rt gets to end what it has begun.
EVERY, GRACE = 30, 10


def command(name, line):
    """Reads the words behind `build`."""
    said = argparse.ArgumentParser(prog=f"{name} build", description="Proves every crate, and builds the programs.")
    said.add_argument("--lanes", type=int, metavar="N", help="how many crates are worked on at a time (one for each processor)")
    given = said.parse_args(line)
    if given.lanes is not None and not 1 <= given.lanes <= 64:
        raise Unknown(f"--lanes takes a number from 1 to 64: {name} build --lanes 4")
    build(PROGRAMS, given.lanes)
    return 0


def processors():
    return len(os.sched_getaffinity(0))


def is_shared():
    """Whether the toolchain can hand what one copy has proved to another: it keeps a note of it beside its kit."""
    kit = Path(os.path.realpath(shutil.which("rt"))).parent.parent
    store = kit.parent / "rattle-kept"
    return os.access(store if store.exists() else store.parent, os.W_OK) and (not store.exists() or store.stat().st_uid == os.geteuid())


def build(programs, lanes=None):
    """Proves and builds these programs, where they are not there."""
    wanted = [crate for crate in programs if not is_proved(crate)]
    if not wanted:
        say("everything is proved and built")
        return
    need_rt("the programs have to be proved and built")
    ROOM.mkdir(parents=True, exist_ok=True)
    with open(ROOM / "lock", "w") as lock:
        try:
            fcntl.flock(lock, fcntl.LOCK_EX | fcntl.LOCK_NB)
        except BlockingIOError:
            say("another build of these sources is under way; waiting for it")
            fcntl.flock(lock, fcntl.LOCK_EX)
        if all(map(is_proved, wanted)):
            return
        Build(wanted, lanes or processors()).run()
        if not all(map(is_proved, wanted)):
            raise Failed("the sources changed while they were proved; build again")


def is_program(crate):
    return (CRATES / crate / "src" / "main.rt").exists()


def words_of(crate):
    """The words with which a program is run on its small input, which shows that it was built."""
    words = CRATES / crate / "args"
    return ["--", *words.read_text().splitlines()] if words.exists() else []


def size_of(crate):
    """What a crate is reckoned to cost: the bytes of its code."""
    return sum(path.stat().st_size for path in (CRATES / crate / "src").rglob("*.rt"))


def chains(crates):
    """Of each crate the cost of the longest chain of crates that begins with it."""
    found = {}
    for crate in reversed(crates):
        above = [found[each] for each in crates if crate in graph()[each] and each in found]
        found[crate] = size_of(crate) + max(above, default=0)
    return found


class Lane:
    """A copy of the sources; or the sources themselves, where there is one lane."""

    def __init__(self, number, is_copy):
        self.top, self.is_copy = ROOM / f"lane{number}" if is_copy else TOP, is_copy

    def fill(self, build):
        """Copies the sources, unless the build is over; whether they are all there."""
        if self.is_copy:
            with build.changed:
                if build.is_over:
                    return False
                self.top.mkdir()
            for file in ("crates.txt", "HANDLES"):
                shutil.copy(TOP / file, self.top)
            # The toolchain wants the folder of each crate that the file names.
            for crate in graph():
                if build.is_over:
                    return False
                shutil.copytree(CRATES / crate, self.top / "crates" / crate, ignore=shutil.ignore_patterns("out"))
        return True

    def remove(self):
        if self.is_copy and self.top.exists():
            shutil.rmtree(self.top, ignore_errors=True)


class Build:
    def __init__(self, programs, lanes):
        self.programs = programs
        self.crates = list(dict.fromkeys(name for program in programs for name in below(program)))
        self.sums = {name: checksum(name, PROOFS) for name in self.crates}
        self.chains = chains(self.crates)
        self.count = max(1, min(lanes, len(self.crates)))
        if self.count > 1 and not is_shared():
            say("one lane only: the toolchain cannot keep here what one copy of the sources has proved for another")
            self.count = 1
        self.todo, self.done, self.taken = set(self.crates), set(), set()
        self.running, self.failed = {}, None
        self.begun, self.changed = time.monotonic(), threading.Condition()
        self.is_over, self.hands = False, []

    def run(self):
        word = "lane" if self.count == 1 else "lanes"
        say(f"proving and building {len(self.crates)} crates in {self.count} {word}: from nothing it takes some two hours of processor time")
        for old in ROOM.glob("lane*"):
            shutil.rmtree(old, ignore_errors=True)
        lanes = [Lane(number, self.count > 1) for number in range(1, self.count + 1)]
        with interrupts_raise():
            try:
                self.work(lanes)
            except Interrupted:
                say(f"interrupted after {self.seconds()} seconds; what was proved by then is kept")
                raise
            finally:
                self.stop()
                for lane in lanes:
                    lane.remove()
        if self.failed:
            raise Failed(self.failed)
        say(f"built after {self.seconds()} seconds")

    def work(self, lanes):
        self.hands = [threading.Thread(target=self.guarded, args=(self.work_in, lane), daemon=True) for lane in lanes]
        if self.count > 1:
            self.hands.append(threading.Thread(target=self.guarded, args=(self.take_over,), daemon=True))
        for hand in self.hands:
            hand.start()
        told = time.monotonic()
        while any(hand.is_alive() for hand in self.hands):
            with self.changed:
                self.changed.wait(0.5)
            if time.monotonic() - told > EVERY:
                told = time.monotonic()
                self.tell()

    def seconds(self):
        return round(time.monotonic() - self.begun)

    def tell(self):
        with self.changed:
            now = ", ".join(sorted(crate for crate, folder in self.running.values() if folder.parent != CRATES or self.count == 1))
            share = 100 * sum(map(size_of, self.done)) // sum(map(size_of, self.crates))
            say(f"{len(self.done)} of {len(self.crates)} crates, some {share} in a hundred of the work, after {self.seconds()} seconds; now {now or 'the last of them'}")

    def next_crate(self):
        """The crate with the longest chain above it, of those whose crates below are proved."""
        ready = [crate for crate in self.todo if self.done.issuperset(graph()[crate])]
        return max(ready, key=self.chains.get, default=None)

    def guarded(self, work, *given):
        """Does the work of a thread; a fault of the disk, say, ends the build."""
        try:
            work(*given)
        except OSError as error:
            with self.changed:
                self.failed = self.failed or f"{error.filename or ROOM}: {error.strerror}"
                self.is_over = True
                self.changed.notify_all()

    def work_in(self, lane):
        """Proves one crate after the other, until there is none left."""
        if not lane.fill(self):
            return
        while True:
            with self.changed:
                while not self.is_over and self.todo and not self.next_crate():
                    self.changed.wait()
                if self.is_over or not self.todo:
                    return
                crate = self.next_crate()
                self.todo.remove(crate)
            is_well = self.prove(lane, crate)
            with self.changed:
                if is_well:
                    self.done.add(crate)
                    if crate in self.programs:
                        self.keep_program(lane, crate)
                elif not self.is_over:
                    self.failed = f"{crate} could not be built; {self.log(crate)} has all of what was said"
                    self.is_over = True
                self.changed.notify_all()

    def log(self, crate, what="log"):
        return ROOM / f"{crate}.{what}"

    def prove(self, lane, crate):
        words = ["rt", "run", *words_of(crate)] if is_program(crate) else ["rt", "lib"]
        status = self.call(words, lane.top / "crates" / crate, self.log(crate), crate)
        if status and not self.is_over:
            sys.stderr.write("".join(self.log(crate).read_text(errors="replace").splitlines(True)[-20:]))
        return status == 0

    def call(self, words, folder, log, crate):
        """Runs rt in a process group of its own, which is ended where the build is."""
        given = folder / "stdin"
        with open(log, "wb") as told, open(given if is_program(crate) and given.exists() else os.devnull, "rb") as trace:
            with self.changed:
                if self.is_over:
                    return 1
                run = subprocess.Popen(words, cwd=folder, stdin=trace, stdout=told, stderr=told, start_new_session=True)
                self.running[run] = crate, folder
            status = run.wait()
            with self.changed:
                self.running.pop(run, None)
        return status

    def keep_program(self, lane, crate):
        """The program of a lane becomes that of the sources, if these are still the same."""
        path = proved_path(crate)
        made = lane.top / "crates" / crate / "out" / path.name
        if self.is_same(crate):
            path.parent.mkdir(exist_ok=True)
            if made != path:
                shutil.copy(made, path.with_name(f"{crate}.new"))
                path.with_name(f"{crate}.new").rename(path)
            mark_of(path).write_text(self.sums[crate] + "\n")

    def is_same(self, crate):
        """Whether the sources are as they were when the build began."""
        sources_of.cache_clear()
        return checksum(crate, PROOFS) == self.sums[crate]

    def take_over(self):
        """Has rt take each library that a lane has proved over into the sources' own `out`."""
        while True:
            with self.changed:
                while not self.is_over and not self.ready_to_take() and len(self.done) < len(self.crates):
                    self.changed.wait()
                ready = self.ready_to_take()
                if self.is_over or not ready:
                    return
            crate = min(ready, key=self.crates.index)
            if self.is_same(crate):
                self.call(["rt", "lib"], CRATES / crate, self.log(crate, "taken"), crate)
            self.taken.add(crate)

    def ready_to_take(self):
        return [crate for crate in self.done if crate not in self.taken and not is_program(crate)]

    def stop(self):
        """Ends what is still running."""
        with self.changed:
            self.is_over = True
            runs = list(self.running)
            self.changed.notify_all()
        for run in runs:
            end(run, signal.SIGTERM)
        until = time.monotonic() + GRACE
        for run in runs:
            with contextlib.suppress(subprocess.TimeoutExpired):
                run.wait(max(0.1, until - time.monotonic()))
            end(run, signal.SIGKILL)
        for hand in self.hands:
            # An interrupt may come before a thread is begun; it then finds that the build is over.
            with contextlib.suppress(RuntimeError):
                hand.join(GRACE)


def end(run, number):
    """Sends a signal to what a run has begun."""
    with contextlib.suppress(ProcessLookupError, PermissionError):
        os.killpg(run.pid, number)
