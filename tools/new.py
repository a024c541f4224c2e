#!/usr/bin/env python3
"""Starts a program on the library: tools/new.py NAME

It writes crates/NAME with the program of README.md, which runs as it is, and the program's line in crates.txt.
"""

import os
import re
import shutil
import sys

from crates import TOP, crates

FOLDER = os.path.dirname(os.path.abspath(__file__))

# Before the first program in crates.txt.
HEADING = "\n# Your own: programs on the library\n"
USES = "pauseless anyhow"

NEXT = """crates/{name} has a program that runs; its code is crates/{name}/src/main.rt. Next:

    make app NAME={name} TRY=1      runs it; proves nothing, and takes a minute or two after a change
    make check CRATE={name}         proves it; the first time with all that it depends on, in about half an hour
    make app NAME={name}            builds it as proved, optimized, and runs it

What it must print is in crates/{name}/stdout. docs/LIBRARY.md describes the library."""


def stop(why):
    sys.exit(f"make: {why}")


def main(name):
    folder = os.path.join(TOP, "crates", name)
    if not re.fullmatch(r"[a-z][a-z0-9_]*", name):
        stop("a name is lowercase letters, digits and _, a letter first")
    if name in crates() or os.path.exists(folder):
        stop(f"there is a crate '{name}' already")
    os.makedirs(os.path.join(folder, "src"))
    shutil.copy(os.path.join(FOLDER, "program", "main.rt.txt"), os.path.join(folder, "src", "main.rt"))
    shutil.copy(os.path.join(FOLDER, "program", "stdout.txt"), os.path.join(folder, "stdout"))
    with open(os.path.join(TOP, "crates.txt"), "r+", encoding="utf-8") as file:
        text = file.read()
        file.write(("" if HEADING in text else HEADING) + f"{name}: {USES}\n")
    print(NEXT.format(name=name))


if __name__ == "__main__":
    if len(sys.argv) != 2:
        sys.exit(__doc__)
    main(sys.argv[1])
