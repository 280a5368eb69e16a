"""How the library's tests are compiled and linked."""
import os
import shutil
import subprocess
import sys
from pathlib import Path

HERE = Path(__file__).resolve().parent
BUILT = HERE.parent / "crates" / "qlock_c" / "out"
WARNS = ("-Wall", "-Wextra", "-Werror", "-pedantic", "-O2")
COMPILERS = {".c": ("cc", "-std=c11"), ".cpp": ("c++", "-std=c++17")}


def archives():
    """The library, and that of the toolchain with its calls of the heap."""
    library = Path(os.environ.get("QLOCK_LIB", BUILT)) / "libqlock_c.a"
    if not library.exists():
        sys.exit(f"{library} is not there; `rt lib` in crates/qlock_c makes it")
    if not shutil.which("rt"):
        sys.exit("the toolchain's command rt is not in PATH")
    return [library, Path(os.path.realpath(shutil.which("rt"))).parent.parent / "c" / "liblibc_c.a"]


def interposer(file, sources=HERE / "interpose", more=()):
    """Compiles the shared object that puts the mutexes of pthreads over the library, and gives its path. Its heap is its own (heap.c)."""
    flags = ("-std=c11", "-D_GNU_SOURCE", *WARNS, "-fPIC", "-fvisibility=hidden", "-fexceptions", "-fno-strict-aliasing", "-shared", *more)
    links = ("-Wl,--wrap=malloc,--wrap=realloc,--wrap=free", "-Wl,--exclude-libs,ALL", "-Wl,-z,defs")
    words = ["cc", *flags, *links, f"-I{HERE / 'include'}", *sorted(sources.glob("*.c")), *archives(), "-o", file]
    subprocess.run(words, check=True)
    return file


def compiled(source, program, flags=()):
    """Compiles a program, and gives its path."""
    words = [*COMPILERS[source.suffix], *WARNS, *flags, f"-I{HERE / 'include'}", source, *archives(), "-lpthread", "-o", program]
    subprocess.run(words, check=True)
    return program
