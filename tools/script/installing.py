"""`./qlock --install DIR`: the proved programs, this script and what it reads, and the library for C, below a folder."""
import os
import re
import shutil
from pathlib import Path

from script.building import build
from script.programs import INSTALLED, TOP, Failed, proved_path, say
from script.table import LIBRARY, PROGRAMS

# What the script reads, beside the programs.
FILES = ("qlock", "CHANGELOG.md", "tools", "docs/rows", "docs/qlock.1", "crates/lk_rows/src/parts.rt", "conformance/orders", "conformance/operations")


def copy(source, goal):
    goal.parent.mkdir(parents=True, exist_ok=True)
    if source.is_dir():
        shutil.copytree(source, goal, dirs_exist_ok=True, ignore=shutil.ignore_patterns("__pycache__", "out"))
    else:
        shutil.copy(source, goal)


def version():
    """That of the newest entry of the changelog that has one."""
    found = re.search(r"^## v?(\d+(?:\.\d+)*)", (TOP / "CHANGELOG.md").read_text(), re.MULTILINE)
    return found[1] if found else "0"


def install_library(goal):
    """The library with the toolchain's calls of the heap, the headers, the page of man, and the file of pkg-config."""
    kit = Path(os.path.realpath(shutil.which("rt"))).parent.parent
    copy(proved_path(LIBRARY), goal / "lib" / "libqlock.a")
    copy(kit / "c" / "liblibc_c.a", goal / "lib" / "libqlock_heap.a")
    for header in ("qlock.h", "qlock.hpp", "qlock_sleep.h"):
        copy(TOP / "library" / "include" / header, goal / "include" / header)
    copy(TOP / "library" / "qlock.3", goal / "share" / "man" / "man3" / "qlock.3")
    told = (TOP / "library" / "qlock.pc.in").read_text().replace("@PREFIX@", str(goal)).replace("@VERSION@", version())
    (goal / "lib" / "pkgconfig").mkdir(parents=True, exist_ok=True)
    (goal / "lib" / "pkgconfig" / "qlock.pc").write_text(told)


def install(folder):
    goal = Path(os.path.expanduser(folder)).absolute()
    inside, man, link = goal / "lib" / "qlock", goal / "share" / "man" / "man1" / "qlock.1", goal / "bin" / "qlock"
    try:
        # A folder that cannot be made is told before a build.
        link.parent.mkdir(parents=True, exist_ok=True)
        build((*PROGRAMS, LIBRARY))
        if inside.exists():
            shutil.rmtree(inside)
        for name in FILES:
            copy(TOP / name, inside / name)
        for crate in PROGRAMS:
            copy(proved_path(crate), inside / INSTALLED.relative_to(TOP) / crate)
        man.parent.mkdir(parents=True, exist_ok=True)
        man.write_text(re.sub(r"\./qlock\b", "qlock", (TOP / "docs" / "qlock.1").read_text()))
        install_library(goal)
        link.unlink(missing_ok=True)
        link.symlink_to(os.path.relpath(inside / "qlock", link.parent))
    except OSError as error:
        raise Failed(f"{error.filename or goal} could not be written: {error.strerror}") from error
    say(f"installed {link}, and behind it {inside} and {man}; and the library, which pkg-config finds by {goal / 'lib' / 'pkgconfig'}")
    return 0
