#!/usr/bin/env python3
"""Times marks that scan on threads, and first collections whose marks do.

The works are those of the crate `bench_collections`. A figure is the median of several marks, or of first collections
of as many heaps, by a clock: the best of several runs, which take turns. 'over one thread' is how many times faster it
is than the same by a drain of one thread. If other programs use the processors too, `chrt -f 20` before the command
keeps them away from threads.

waves: a mark of objects that stay where they are, which are a graph without order, a forest of trees of 1,023 objects,
a tree, or a list; and the first collection of a graph after each of whose objects a garbage one was made.
markers: a mark by one thread and by four, compared with bdwgc by one marker and by four, of which the program of
`bench/boehm.c` times complete collections, as bdwgc leaves sweeping to later allocations. Of bdwgc as it is, and set to
expect references to where objects begin alone, the lower figure is kept.
"""

import subprocess
import tempfile

from boehm import built
from measuring import figure, lines, measure

# The work, its shape, its objects, and the words of an object.
WORKS = [("waves", "graph", 131_072, 3), ("waves", "graph", 262_144, 3), ("waves", "graph", 1_048_576, 3),
         ("waves", "forest", 1_048_576, 3), ("waves", "tree", 1_048_576, 3), ("waves", "list", 1_000_000, 2),
         ("firsts", "sparse", 1_048_576, 3)]

# How a work and its shape are called.
NAMES = {"waves": "mark", "firsts": "first collection", "sparse": "half-dead graph"}

# Numbers of threads; with 0 one thread drains as without waves.
THREADS = [0, 2, 4]

# What is compared with bdwgc: a shape, its objects and their words; and by how many threads.
COMPARED = [("graph", 1_048_576, 3), ("forest", 1_048_576, 3), ("tree", 1_048_576, 3)]
MARKERS = [1, 4]

# Marks or heaps of a run, and runs.
TIMES = {"waves": 7, "firsts": 3}
RUNS = 3


def took(bench, work, threads):
    """Nanoseconds of a mark or a collection."""
    turn, shape, count, words = work
    rows = lines(bench, (f"{turn}-{shape}", count, words, threads, TIMES[turn]))
    return next(iter(rows.values()))[1]


def waves(programs):
    """A row for each work."""
    bench = programs.bench("collections")
    best = {}
    for _ in range(RUNS):
        for work in WORKS:
            for threads in THREADS:
                key = work, threads
                best[key] = min(took(bench, work, threads), best.get(key, float("inf")))
    rows = []
    for work in WORKS:
        turn, shape, count, _ = work
        each = [best[work, threads] for threads in THREADS]
        rows.append([f"{NAMES[turn]}, {NAMES.get(shape, shape)}", f"{count:,}", f"{each[0] / count:.0f}",
                     *(figure(it / 1e6, 1) for it in each), *(figure(each[0] / it) for it in each[1:])])
    head = ["What", "Objects", "one thread, ns an object", "one thread, ms"]
    head += [f"{threads} threads, ms" for threads in THREADS[1:]]
    return head + [f"{threads} over one thread" for threads in THREADS[1:]], rows


def collected(program, shape, markers):
    """Nanoseconds of a collection by bdwgc."""
    name, count, words = shape
    command = [*program, "timed", f"waves-{name}", str(count), str(words), str(markers), str(TIMES["waves"])]
    run = subprocess.run(command, stdout=subprocess.PIPE, text=True, check=True)
    return int(run.stdout.split()[-2])


def compared(ours, other):
    """For each shape and number of threads the times of both sides, which take turns."""
    best = {}
    for _ in range(RUNS):
        for shape in COMPARED:
            for threads in MARKERS:
                # With 0 threads one drains without waves.
                mark = took(ours, ("waves", *shape), threads if threads > 1 else 0)
                collection = min(collected(program, shape, threads) for program in ([other], [other, "exact"]))
                for key, time in (((shape, threads, "ours"), mark), ((shape, threads, "bdwgc"), collection)):
                    best[key] = min(time, best.get(key, float("inf")))
    return best


def markers(programs):
    """A row for each shape."""
    with tempfile.TemporaryDirectory() as folder:
        other = built(folder)
        best = other and compared(programs.bench("collections"), other)
    if not best:
        return None
    rows = []
    for shape in COMPARED:
        times = [[best[shape, threads, side] for side in ("ours", "bdwgc")] for threads in MARKERS]
        one, four = (mark / collection for mark, collection in times)
        rows.append([f"mark, {shape[0]}", f"{shape[1]:,}", *(figure(it / 1e6, 1) for both in times for it in both),
                     figure(one, 2), figure(four, 2), figure(four / one, 2)])
    head = ["What", "Objects"]
    for threads in MARKERS:
        head += [f"{threads} thread{'s' * (threads > 1)}, ms", f"bdwgc, {threads} marker{'s' * (threads > 1)}, ms"]
    return head + ["1 over bdwgc", "4 over bdwgc", "these, four over one"], rows


if __name__ == "__main__":
    measure(__doc__, {"waves": waves, "markers": markers})
