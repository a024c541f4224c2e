#!/usr/bin/env python3
"""Compares collections with the collector of Boehm, Demers and Weiser, bdwgc.

The works are those of the crate `bench_collections`; `bench/boehm.c` has the same on bdwgc, with one marker, and is
built here. If libgc isn't there, a line says so, and nothing is measured. The figures are nanoseconds of a processor,
or instructions, which `valgrind` counts, for one object that lives or that is made. Each is the difference of two runs,
the best of several, which differ in one loop alone; the runs of both sides take turns. A '-' is a difference that isn't
robust: half of the runs gives another one, as other work on the machine took more than what was measured. bdwgc runs as
it is, and set to expect references to where objects begin alone; the lower figure is kept.

'mark' is a mark drained by one call, 'collect' a complete collection, both of objects that stay where they are. bdwgc
has complete collections alone, and leaves what is dead to be swept by whoever makes objects. If half of the objects are
dead the first collection moves what lives, and the second corrects the references to it.
"""

import math
import os
import shutil
import subprocess
import tempfile

from measuring import counted, differences, figure, measure, timed

# What is marked and collected: its shape, its objects, and the words of one.
SHAPES = [("list", 100_000, 2), ("list", 50_000, 8), ("list", 10_000, 64),
          ("tree", 131_071, 3), ("graph", 131_072, 3),
          ("half", 100_000, 2), ("half", 50_000, 8), ("half", 10_000, 64)]

# What is made: whether it is kept, how many objects, and the words of one.
MADE = [("keep", 1_000_000, 2), ("keep", 400_000, 8), ("keep", 50_000, 64),
        ("drop", 5_000_000, 2), ("drop", 5_000_000, 8), ("drop", 1_000_000, 64)]

# Collections before those that are measured, about how many objects these find, and how many of them are counted.
SETTLED = 3
FOUND = 4_000_000
COUNTED = 2

# Half-dead heaps that are made and collected, and runs.
HEAPS = 10
RUNS = 9

# How many times fewer objects are made and kept if instructions are counted.
FEWER = 10


def built(folder):
    """The program on bdwgc in a folder; none, if there is no libgc or no compiler."""
    compiler = os.environ.get("CC", "cc")
    if shutil.which(compiler) is None:
        print("bdwgc: there is no C compiler")
        return None
    program = os.path.join(folder, "boehm")
    source = os.path.join(os.path.dirname(os.path.abspath(__file__)), "boehm.c")
    command = [compiler, "-std=c11", "-O2", source, "-lgc", "-o", program]
    if subprocess.run(command, stderr=subprocess.DEVNULL, check=False).returncode != 0:
        print("bdwgc: libgc isn't there")
        return None
    return program


class Bench:
    """This heap's bench and bdwgc's program, and how their runs are measured."""

    def __init__(self, ours, other, instructions):
        self.ours, self.instructions = ours, instructions
        self.others = [[other], [other, "exact"]]
        self.forms, self.objects = {}, {}

    def add(self, key, program, name, numbers, changes, objects):
        """A form: two runs of a work, which differ in their last number, and how many objects are between these."""
        self.forms[key] = [[*program, name, *numbers, change] for change in changes]
        self.objects[key] = objects

    def add_others(self, key, name, numbers, changes, objects):
        """The same on bdwgc, as it is and as it expects references to where objects begin alone."""
        for place, program in enumerate(self.others):
            self.add((key, "bdwgc", place), program, name, numbers, changes, objects)

    def measured(self):
        """What each form costs for each of its objects; of bdwgc's two the lesser."""
        how, runs, scale = (counted, 1, 1) if self.instructions else (timed, RUNS, 1e9)
        took = differences(how, runs, self.forms)
        each = {form: took[form] / self.objects[form] * scale for form in self.forms}
        for key in {form[0] for form in each}:
            both = [each.pop((key, "bdwgc", place)) for place in range(len(self.others))]
            each[key, "bdwgc"] = min((it for it in both if not math.isnan(it)), default=math.nan)
        return each

    def table(self, head, ours, keys):
        """A row for each key: what it is, this heap's figures, and bdwgc's with the ratios."""
        digits, each, rows = 0 if self.instructions else 1, self.measured(), []
        for key in keys:
            shape, count, words = key
            rows.append([shape, str(words), f"{count:,}",
                         *(figure(each[key, name], digits) for name in [*ours, "bdwgc"]),
                         *(figure(each[key, name] / each[key, "bdwgc"]) for name in ours)])
        return [head, "Words", "Objects", *ours, "bdwgc", *(f"{name} over bdwgc" for name in ours)], rows


def add_settled(bench, key, ours):
    """Collections of what stays where it is, on both sides."""
    shape, count, words = key
    times = COUNTED if bench.instructions else FOUND // count
    numbers, changes = (count, words, 1), (SETTLED, SETTLED + times)
    for name in ours:
        bench.add((key, name), bench.ours, f"{name}-{shape}", numbers, changes, count * times)
    bench.add_others(key, f"collect-{shape}", numbers, changes, count * times)


def collections(bench):
    """Marks and collections of what stays where it is."""
    ours = ["mark", "collect"]
    for key in SHAPES:
        add_settled(bench, key, ours)
    return bench.table("Shape", ours, SHAPES)


def halves(bench):
    """The first and the second collection of heaps that are half dead, compared with any collection of bdwgc's."""
    ours, keys = ["first", "second"], [key for key in SHAPES if key[0] == "half"]
    heaps = 1 if bench.instructions else HEAPS
    for key in keys:
        shape, count, words = key
        for turn, name in enumerate(ours):
            changes = (turn, turn + 1)
            bench.add((key, name), bench.ours, f"collect-{shape}", (count, words, heaps), changes, count * heaps)
        add_settled(bench, key, [])
    return bench.table("Collected", ours, keys)


def making(bench):
    """Objects that are made one after another, kept in a list or not at all."""
    keys = [(name, count // FEWER if bench.instructions and name == "keep" else count, words)
            for name, count, words in MADE]
    for key in keys:
        name, made, words = key
        bench.add((key, "make"), bench.ours, name, (words,), (0, made), made)
        bench.add_others(key, name, (words,), (0, made), made)
    return bench.table("Made", ["make"], keys)


def by(work, instructions):
    """A table of a work, in time or in instructions."""
    def table(programs):
        with tempfile.TemporaryDirectory() as folder:
            other = built(folder)
            return work(Bench(programs.bench("collections"), other, instructions)) if other else None
    return table


if __name__ == "__main__":
    WORKS = {"collections": collections, "half-dead": halves, "making": making}
    measure(__doc__, {f"{name}-instructions": by(work, True) for name, work in WORKS.items()}
            | {name: by(work, False) for name, work in WORKS.items()})
