#!/usr/bin/env python3
"""Times calls for many data words of an object, by the library for C.

How many gigabytes a second each call of bench/data.c moves, alongside one call a word.
"""

import subprocess
import tempfile

from measuring import built_over, measure


def data(programs):
    """The most gigabytes a second that each call moves."""
    with tempfile.TemporaryDirectory() as folder:
        program = built_over(programs["foreign"], "data", folder)
        run = subprocess.run([program], stdout=subprocess.PIPE, text=True, check=True)
    rows = []
    for line in run.stdout.splitlines():
        call, rate = line.rsplit(" ", 1)
        name, *from_where = call.split(",")
        rows.append([f"`{name}`{''.join(',' + each for each in from_where)}", rate])
    return ["Call", "GB/s"], rows


if __name__ == "__main__":
    measure(__doc__, {"data": data})
