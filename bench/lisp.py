#!/usr/bin/env python3
"""Times the Lisp of examples/lisp on this heap and on the collector of Boehm, Demers and Weiser, bdwgc.

Each program of one thread runs in 64 MiB, in 4 MiB, on bdwgc with the memory that it takes, and on this heap in as much
memory, ten times (on bdwgc the Lisp has no threads). The figures are the shortest time of a processor, and on bdwgc the
memory for objects as the Lisp reports it. If libgc isn't there, a line says so, and what is compared with it isn't
measured.

`valgrind` also counts the instructions of each program in 4 MiB: what a program takes, and how much of it are calls of
the library, new buffers, collections, and the Lisp itself; and of one program how often each call of the library is
made, and what it takes on average, without the new buffers that it takes and what these collect.
"""

import contextlib
import os
import re
import subprocess
import sys
import tempfile

from callgraph import profile
from measuring import measure, spent

FOLDER = os.path.join(os.path.dirname(os.path.abspath(__file__)), "..", "examples", "lisp")
SOURCES = [os.path.join(FOLDER, name) for name in ("main.c", "machine.c", "compile.c", "text.c")]
PROGRAMS = ["loop", "queens", "sort", "tree", "words"]
RUNS = 10

# The program whose calls of the library are counted.
CALLING = "sort"

# Words of a page, and the pages of 4 MiB.
WORDS = 512
SMALL = 1_024

# What a call of the library does besides its own work: it takes a new buffer, for which it may collect.
REFILL, COLLECT = "collecting::rooms::refill", "collecting::counting::collect_counted"


def build(output, memory, words):
    """Builds the Lisp on one memory, and gives whether that went well."""
    include = os.path.join(FOLDER, "..", "..", "include")
    command = [os.environ.get("CC", "cc"), "-std=c11", "-O2", "-pthread", f"-I{include}", *SOURCES]
    command += [os.path.join(FOLDER, memory), *words, "-o", output]
    return subprocess.run(command, stderr=subprocess.DEVNULL, check=False).returncode == 0


@contextlib.contextmanager
def lisps(library):
    """The Lisp on this heap, and on bdwgc if libgc is there."""
    with tempfile.TemporaryDirectory() as kept:
        ours, other = os.path.join(kept, "lisp"), os.path.join(kept, "lisp_gc")
        if not build(ours, "memory.c", [library]):
            sys.exit("the Lisp can't be built")
        if not build(other, "memory_gc.c", ["-lgc"]):
            print("bdwgc: libgc isn't there")
            other = None
        yield ours, other


def path_of(program):
    return os.path.join(FOLDER, "programs", f"{program}.lisp")


def best(command):
    """The shortest time of a processor of some runs, and the most MiB for objects, as the Lisp reports them."""
    times, sizes = [], []
    for _ in range(RUNS):
        before = spent()
        ran = subprocess.run(command, stdout=subprocess.DEVNULL, stderr=subprocess.PIPE, text=True, check=True)
        times.append(spent() - before)
        sizes.append(int(re.search(r"(\d+) bytes for objects", ran.stderr)[1]) / 2 ** 20)
    return min(times), max(sizes)


def in_frames(lisp, frames, name):
    """The command that runs a program in a heap of some pages."""
    return [lisp, "-s", "-w", str(WORDS), "-f", str(frames), path_of(name)]


def times(programs):
    """The time of each program in milliseconds, on both heaps."""
    rows = []
    with lisps(programs["foreign"]) as (ours, other):
        for name in PROGRAMS if other else []:
            large, small = (best(command)[0] for command in ([ours, "-s", path_of(name)], in_frames(ours, SMALL, name)))
            there, size = best([other, "-s", path_of(name)])
            same = best(in_frames(ours, max(1, int(size * 2 ** 20) // (8 * WORDS)), name))[0]
            rows.append([f"`{name}`", *(f"{1e3 * time:.1f}" for time in (large, small, there)), f"{size:.2f}",
                         f"{1e3 * same:.1f}", f"{small / there:.1f}", f"{same / there:.1f}"])
    return ["Program", "in 64 MiB, ms", "in 4 MiB, ms", "on bdwgc, ms", "MiB on bdwgc", "in as much, ms",
            "4 MiB over bdwgc", "as much over bdwgc"], rows


def refills_of(found, call):
    """What new buffers take that a call of the library makes."""
    return sum(cost for (caller, called), cost in found.by_caller.items()
               if caller == call and called.startswith(REFILL))


def calls_of(found):
    """What each call of the library takes in all, without new buffers."""
    return {call: found.taken[call] - refills_of(found, call) for call in found.calls if call.startswith("pauseless_")}


def profiled(lisp, name):
    """Where the instructions of a program go, in 4 MiB."""
    return profile(in_frames(lisp, SMALL, name))


def counted(programs):
    """What each program takes, by parts."""
    rows = []
    with lisps(programs["foreign"]) as (ours, other):
        for name in PROGRAMS if other else []:
            found = profiled(ours, name)
            calls, collections = sum(calls_of(found).values()), found.taken[COLLECT]
            refills = sum(refills_of(found, call) for call in calls_of(found))
            parts = calls, refills - collections, collections, found.total - calls - refills
            there = profile([other, "-s", path_of(name)]).total
            rows.append([f"`{name}`", f"{found.total / 1e6:,.1f}", *(f"{part / found.total:.0%}" for part in parts),
                         f"{there / 1e6:,.1f}", f"{found.total / there:.1f}"])
    return ["Program", "millions of instructions", "calls", "new buffers", "collections", "the Lisp",
            "millions on bdwgc", "over bdwgc"], rows


def counted_calls(programs):
    """What each call of the library takes, the dearest in all first."""
    with lisps(programs["foreign"]) as (ours, _):
        found = profiled(ours, CALLING)
    rows = [[f"`{call[10:]}`", f"{found.calls[call]:,}", f"{cost / found.calls[call]:,.1f}",
             f"{cost / found.total:.1%}"]
            for call, cost in sorted(calls_of(found).items(), key=lambda it: -it[1]) if found.calls[call] > 1]
    return ["Call", "calls", "instructions each", "of all"], rows


if __name__ == "__main__":
    measure(__doc__, {"lisp-calls-instructions": counted_calls, "lisp-instructions": counted, "lisp": times})
