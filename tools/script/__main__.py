"""Runs `./qlock`: the words are how it was called, and what stands behind it."""
import os
import sys
from pathlib import Path

sys.dont_write_bytecode = True
if sys.version_info < (3, 10):
    sys.exit("qlock: it takes Python 3.10 or later, and python3 is " + sys.version.split()[0])
sys.path[0] = str(Path(__file__).resolve().parent.parent)
# What is closed stays closed for the programs, and what is said here goes nowhere.
for name in ("stdout", "stderr"):
    if getattr(sys, name) is None:
        setattr(sys, name, open(os.devnull, "w"))

from script import main

sys.exit(main.main(sys.argv[1:]))
