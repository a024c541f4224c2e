#!/usr/bin/env python3
"""Counts the instructions of calls of the library for C.

bench/c_calls.c makes each call in a loop. A figure is what one call takes on average, from its first instruction to its
return, without new buffers and what these collect.
"""

import tempfile

from callgraph import profile
from lisp import calls_of
from measuring import built_over, measure

TURNS = 20_000

# The calls, and what those are made with that take several fields, data or registers.
CALLS = {"load": "", "loads": ", two of an object", "store": "", "get": "", "set": "", "get_many": ", two data",
         "set_many": ", two data", "look": "", "same": "", "is_null": "", "copy": "", "clear": "", "load_global": "",
         "store_global": "", "make": ", two references and two data",
         "make_with": ", likewise, all given"}

# What a call may take.
AIMS = {"load": 73, "store": 59, "get": 50, "set": 48, "look": 43, "same": 57, "copy": 25, "clear": 20, "is_null": 21,
        "make": 131, "make_with": 131}


def counted(programs):
    """Instructions of each call."""
    with tempfile.TemporaryDirectory() as folder:
        found = profile([built_over(programs["foreign"], "c_calls", folder), str(TURNS)])
    costs, rows = calls_of(found), []
    for name, how in CALLS.items():
        each, aim = costs[f"pauseless_{name}"] / found.calls[f"pauseless_{name}"], AIMS.get(name)
        rows.append([f"`{name}`{how}", f"{each:.1f}", f"at most {aim}" if aim else "",
                     ("yes" if each <= aim else "**no**") if aim else ""])
    return ["Call", "instructions", "aim", "met"], rows


if __name__ == "__main__":
    measure(__doc__, {"c-calls-instructions": counted})
