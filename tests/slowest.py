#!/usr/bin/env python3
"""Prints the functions that took a check of a crate the most time: tests/slowest.py FOLDER [COUNT]

FOLDER is crates/NAME/out/incremental after 'rm -rf' of it and a new 'rt check'. A check writes a file for each part of
each function's proof, one after another, so the time between two files is that of the later one. The seconds of each
function are summed, and the COUNT largest are printed, 30 by default. They are wall-clock times: other work on the
machine counts too, and of parallel provers each file has only its part.
"""

import os
import re
import sys
from collections import defaultdict

# A file's name is that of its module, with the function's name and then, from here on, the part of its proof.
PART = re.compile(r"\.(?:Lts|Proof|Layout|Reads|Kinds|Code|Goals|Given|Tie|Named|Met|Statement|Instances|TheInside"
                  r"|TheLaws|TheLink|Symbol|Key|Answers|Invariants)(?:-[\d-]+)?(?:\..*)?$")


def files_of(folder):
    """The time of each file below a folder, and the function that it belongs to, in the order of the times."""
    found = []
    for at, _, names in os.walk(folder):
        for name in names:
            module = re.sub(r"\.(decls\.)?oantt$", "", name)
            found.append((os.stat(os.path.join(at, name)).st_mtime, PART.sub("", module)))
    return sorted(found)


def main(folder, count="30"):
    files = files_of(folder)
    if not files:
        sys.exit(f"{folder}: nothing is kept there")
    seconds = defaultdict(float)
    for (before, _), (time, function) in zip(files, files[1:]):
        seconds[function] += time - before
    for function, took in sorted(seconds.items(), key=lambda it: -it[1])[:int(count)]:
        print(f"{took:8.2f} {function}")
    print(f"{sum(seconds.values()):8.2f} all")


if __name__ == "__main__":
    main(*sys.argv[1:])
