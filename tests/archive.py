#!/usr/bin/env python3
"""Builds the library for C in a copy that 'rt ci' has proved.

    tests/archive.py COPY    leaves COPY/crates/foreign/out/libforeign.a

'rt lib' would prove all libraries below once more, as those that 'rt ci' leaves have only what crates above read of
them. The kit's own words for the compiler take these as they are: the crate itself is proved as it is built.
"""

import os
import subprocess
import sys

RT = os.environ.get("RT", "rt")
NAME = "foreign"


def kit():
    """The toolchain's folder, in which the page stands that 'rt doc' names."""
    told = subprocess.run([RT, "doc"], stdout=subprocess.PIPE, text=True, check=True)
    return os.path.dirname(told.stdout.strip())


def main():
    if len(sys.argv) != 2:
        sys.exit(__doc__)
    root = os.path.abspath(sys.argv[1])
    sys.path.insert(0, os.path.join(kit(), "bin"))
    import rtlib

    crate = next(it for it in rtlib.crates_below(root) if it.name == NAME)
    os.chdir(crate.folder)
    os.makedirs("out", exist_ok=True)
    return crate.compile([], f"out/lib{NAME}.a")


if __name__ == "__main__":
    sys.exit(main())
