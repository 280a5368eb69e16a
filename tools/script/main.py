"""The main function of `./qlock`: from its words to its status."""
import os
import signal
import subprocess
import sys
import tempfile

from script import helping, running, table, words
from script.programs import IS_INSTALLED, TOP, Failed, is_proved, mark_of, path_of, proved_path, ready, say
from script.words import Unknown

TOOLS = TOP / "tools"


def usage(said):
    """The program's own usage line, and behind it what to type."""
    print(table.USAGE, file=sys.stderr)
    say(said)
    return 2


def say_unproved(name, crate):
    """Says on each run that the program is not proved."""
    why = "a source has changed since the program was proved" if mark_of(proved_path(crate)).exists() else "the program was compiled without proofs"
    say(f"not proved: {why}; {name} build proves it")


def programs_of(name, command, is_to_be_proved):
    """Where the programs of a command stand, by crate; says so where one is not proved."""
    if is_to_be_proved and not all(map(is_proved, command.proved)):
        from script import building

        building.build(command.proved)
    found = {crate: path_of(crate, command.quick) for crate in command.crates}
    for crate, (_, is_one) in found.items():
        if not is_one:
            say_unproved(name, crate)
            break
    return {crate: str(path) for crate, (path, _) in found.items()}


def obey(name, asked, is_to_be_proved):
    command = asked.command
    if asked.file:
        try:
            running.open_file(asked.file)
        except OSError as error:
            say(f"{asked.file}: {error.strerror}")
            return 4
    # Wrong options are refused before a program is made, and before it is said that one is not proved.
    if command.checks and not all(map(is_proved, command.crates)):
        status = subprocess.run([*helping.words_for(TOOLS / command.tool), *asked.words], env={**os.environ, "QLOCK_DRY": "1", "QLOCK_NAME": f"{name} {command.word}"}).returncode
        if status:
            return status
    programs = programs_of(name, command, is_to_be_proved)
    if command.reads and os.isatty(0):
        say(f"{command.word} reads {command.reads} from the terminal now, up to control-D; {name} {command.word} FILE reads a file")
    if command.tool:
        return by_tool(name, command, asked, programs)
    own = (command.word, *asked.words) if command.words is None else command.words
    return by_program(command, asked, [programs[command.crate], *own])


def become(line, environment=None):
    """Goes on as another program, for which a closed pipe is what it is for any."""
    signal.signal(signal.SIGPIPE, signal.SIG_DFL)
    os.execve(line[0], line, {**os.environ, **(environment or {})})


def by_tool(name, command, asked, programs):
    """A script of `tools`, which finds its name and its programs in its environment."""
    environment = {"QLOCK_NAME": f"{name} {command.word}", **{variable: programs[crate] for variable, crate in command.needs}}
    line = [*helping.words_for(TOOLS / command.tool), *asked.words]
    if not command.reads:
        become(line, environment)
    given = running.Input()
    if given.is_closed:
        say(f"{command.reads} cannot be read: standard input is closed, or a folder")
        return 4
    return ended(command, *running.ran(line, given, environment), given)


def by_program(command, asked, line):
    if not command.reads:
        become(line)
    given = running.Input()
    if not command.behind:
        return ended(command, *running.ran(line, given), given)
    with tempfile.TemporaryFile() as acts:
        status, note = running.ran(line, given, output=acts)
        if status == 0:
            acts.seek(0)
            status = subprocess.run([sys.executable, TOOLS / command.behind, *asked.words], stdin=acts).returncode
    if status < 0:
        running.die_of(-status)
    return ended(command, status, note, given)


def ended(command, status, note, given):
    """What is said behind a run: of a refusal, what was expected; of a trace, how it ended where not all are done; and of a lawful history,
    which locks are held or waited for at its end."""
    running.second_line(refusal_word(command), status, note, given)
    if command.tells_ending and status == 0:
        running.ending(ready("lk_steps"), given)
    if command.reads == "a history" and status == 0:
        running.rest(given)
    return status


def refusal_word(command):
    """Whose grammar says what is wrong with its input."""
    return {"a trace": "replay", "a run": "osq", "a job file": "ledger", "a history": "audit"}.get(command.reads, command.word)


def dispatch(name, line):
    manner = None
    if line[:1] in (["--quick"], ["--proved"]):
        manner, *line = line
    if line[:1] and line[0] in ("--help", "-h", "help"):
        return helping.page(name, " ".join(line[1:]))
    if {"--help", "-h"} & set(line[1:]):
        asked = next((word for word in (" ".join(line[:2]), line[0]) if word in (*table.BY_WORD, "--install")), None)
        if asked:
            return helping.page(name, asked)
    if line == ["--version"]:
        return helping.version()
    if line[:1] == ["--install"] or line[:1] == ["build"]:
        return make(name, line)
    return obey(name, words.read(name, line), manner == "--proved")


def make(name, line):
    """Builds, or installs."""
    if IS_INSTALLED:
        raise Failed(f"{line[0]} is done in the folder of the sources")
    from script import building, installing

    if line[0] == "--install":
        if len(line) != 2 or line[1].startswith("-"):
            raise Unknown(f"--install takes a folder: {name} --install ~/.local")
        return installing.install(line[1])
    return building.command(name, line[1:])


def main(line):
    name = "qlock" if IS_INSTALLED else line[0] if "/" in line[0] else "./qlock"
    try:
        status = dispatch(name, line[1:])
        sys.stdout.flush()
        return status
    except Unknown as unknown:
        return usage(unknown)
    except Failed as failed:
        say(failed.said)
        return failed.status
    except KeyboardInterrupt:
        running.die_of(signal.SIGINT)
    except BrokenPipeError:
        running.die_of(signal.SIGPIPE)
    except OSError as error:
        say(f"{error.filename or 'a file'}: {error.strerror}")
        return 1
