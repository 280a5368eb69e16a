"""Programs that are linked with some dead code in front, so that their loops stand at other places in the lines of the code."""
import shutil
import subprocess
import sys
from pathlib import Path

PADS = range(16, 144, 16)


def padded(folder):
    """For each amount of dead code an object file of it. Linkers put code of this name in front of other code, and the flag R keeps it."""
    objects = []
    for pad in PADS:
        source = Path(folder) / f"pad{pad}.s"
        source.write_text(f'.section .text.unlikely.pad,"axR",@progbits\n.skip {pad}\n.section .note.GNU-stack\n')
        objects.append(str(source.with_suffix(".o")))
        subprocess.run(["cc", "-c", source, "-o", objects[-1]], check=True)
    return objects


def linked(program, folder, name):
    """A program of Rattle, linked with each amount of dead code in front."""
    rt = shutil.which("rt")
    if not rt or not Path(f"{program}.o").exists():
        sys.exit(f"needs rt in PATH, and {program}.o, which rt run and tools/unproved --object leave beside the program")
    libraries, made = Path(rt).resolve().parent.parent / "c", []
    for number, pad in enumerate(padded(folder)):
        made.append(str(Path(folder) / f"{name}{number}"))
        files = [pad, f"{program}.o", libraries / "libos_c.a", libraries / "liblibc_c.a"]
        subprocess.run(["cc", "-fuse-ld=bfd", *files, "-lm", "-lpthread", "-o", made[-1]], check=True)
    return made
