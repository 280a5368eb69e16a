"""Runs a program on an input, and says behind it what a person wants to know.

What the program writes goes through untouched, and its status is the status. Of an input that comes from a pipe or a terminal a copy is
kept as the program reads it, so that a refusal gets its second line, and a replay its ending, wherever the input comes from.
"""
import contextlib
import os
import signal
import stat
import subprocess
import sys
import threading

# What says more of an input is imported where it is needed, so that everything else is answered sooner.

# The most of an input that is kept.
MOST_KEPT = 64 << 20
CHUNK = 1 << 16
REFUSED = (3, 7, 8)
WRITE_FAULT = 5


class Input:
    """Standard input, of which a copy can be had once the program has ended."""

    def __init__(self):
        self.kept, self.is_cut, self.begin = bytearray(), False, None
        try:
            kind = os.fstat(0).st_mode
        except OSError:
            kind = 0
        self.is_closed = not kind
        self.is_file = stat.S_ISREG(kind)
        self.is_stream = stat.S_ISFIFO(kind) or stat.S_ISSOCK(kind) or os.isatty(0)
        if self.is_file:
            self.begin = os.lseek(0, 0, os.SEEK_CUR)

    def feed(self, pipe):
        """Hands a stream on to the program, and keeps a copy."""
        try:
            while chunk := os.read(0, CHUNK):
                if len(self.kept) < MOST_KEPT:
                    self.kept += chunk
                else:
                    self.is_cut = True
                pipe.write(chunk)
                pipe.flush()
        except OSError:
            pass
        finally:
            try:
                pipe.close()
            except OSError:
                pass

    def data(self):
        """What was read, or None where it is not there any more."""
        if self.is_stream:
            return None if self.is_cut else bytes(self.kept)
        if not self.is_file or os.fstat(0).st_size - self.begin > MOST_KEPT:
            return None
        parts, at = [], self.begin
        while part := os.pread(0, 1 << 20, at):
            parts.append(part)
            at += len(part)
        return b"".join(parts)


def open_file(path):
    """Puts a file in the place of standard input; the error is the answer of a read that fails."""
    file = os.open(path, os.O_RDONLY)
    if stat.S_ISDIR(os.fstat(file).st_mode):
        os.close(file)
        raise IsADirectoryError(21, "it is a folder", path)
    if file:
        os.dup2(file, 0)
        os.close(file)
    else:
        # Standard input was closed, and so its number was free.
        os.set_inheritable(file, True)


def ran(words, given, environment=None, output=None):
    """Runs a program on an input, and gives its status and its notes, which are written once it has ended."""
    how = {"stdin": subprocess.PIPE if given.is_stream else None, "stderr": subprocess.PIPE, "stdout": output}
    with subprocess.Popen(words, env={**os.environ, **(environment or {})}, **how) as program:
        if given.is_stream:
            threading.Thread(target=given.feed, args=(program.stdin,), daemon=True).start()
            # The thread closes it.
            program.stdin = None
        notes = forward(program.stderr)
        status = program.wait()
    if status < 0:
        die_of(-status)
    return status, notes


def die_of(number):
    """Ends as a program does that is ended by this signal."""
    signal.signal(number, signal.SIG_DFL)
    os.kill(os.getpid(), number)


def as_program(main):
    """Runs the main function of a script of `tools`. Where nobody reads its output, or it is interrupted, it ends as a program does; and
    as `qlock` does where a write fails."""
    try:
        if not sys.stdout:
            raise OSError("standard output is closed")
        status = main()
        sys.stdout.flush()
    except BrokenPipeError:
        die_of(signal.SIGPIPE)
    except KeyboardInterrupt:
        die_of(signal.SIGINT)
    except OSError as error:
        if error.filename:
            raise
        with contextlib.suppress(OSError):
            os.write(2, b"write fault\n")
        # What could not be written is not tried again.
        os._exit(WRITE_FAULT)
    sys.exit(status)


class Interrupted(BaseException):
    """A signal that ends a build, or a program's compilation."""

    def __init__(self, number):
        super().__init__(number)
        self.number = number


@contextlib.contextmanager
def interrupts_raise():
    """A signal ends what was begun inside, which catches Interrupted, and then this script."""

    def interrupt(number, _frame):
        # Others do not keep it from removing what it has begun.
        for each in before:
            signal.signal(each, lambda *_: None)
        raise Interrupted(number)

    before = {number: signal.signal(number, interrupt) for number in (signal.SIGINT, signal.SIGTERM, signal.SIGHUP)}
    try:
        yield
    except Interrupted as interrupted:
        die_of(interrupted.number)
    finally:
        for number, handler in before.items():
            signal.signal(number, handler)


def forward(stream):
    """Writes on to standard error what a program writes there, as it comes, and gives its last line."""
    last = b""
    for line in stream:
        last = line
        sys.stderr.buffer.write(line)
        sys.stderr.flush()
    return last.decode(errors="replace").strip()


def second_line(word, status, note, given):
    """Says of a refused input what was found and what was expected."""
    if status not in REFUSED:
        return
    data = given.data()
    if data is None:
        return
    import refusal

    said = refusal.told(word, note, data)
    if said:
        print(said, file=sys.stderr, flush=True)


def ending(steps, given):
    """Says how a trace ended, where not all are done. `steps` is the program that writes its acts."""
    import ending as endings

    sys.stdout.flush()
    data = given.data() if steps else None
    for line in endings.told(data.decode("ascii"), endings.steps_by(steps)) if data else ():
        print(f"qlock: {line}", file=sys.stderr)


def rest(given):
    """Says how a lawful history ends, where a lock is held or waited for."""
    from audits import standing

    sys.stdout.flush()
    data = given.data()
    for line in standing.ending(data) if data else ():
        print(f"qlock: {line}", file=sys.stderr)
