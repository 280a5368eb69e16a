"""The program that audits, and how it is asked."""
import re
import subprocess
from typing import NamedTuple

from script.programs import named

AT = re.compile(r"line (\d+)")


class Answer(NamedTuple):
    status: int
    line: str
    note: str

    @property
    def at(self):
        """The line that is refused, or breaks the history."""
        found = AT.search(self.note)
        return int(found[1]) if found else None


def program():
    """The program that audits."""
    return named("QLOCK", "lk_cli")


def audit(text):
    run = subprocess.run([program(), "audit"], input=text, capture_output=True)
    return Answer(run.returncode, run.stdout.decode().strip(), run.stderr.decode().strip())
