#!/usr/bin/env python3
"""Times the parts of collections in parts.

The works are those of the crate `bench_collections`, which reads a clock itself. Pages of a heap are filled with
objects, of which each second one lives, in a list. Then the heap is collected three times in parts, each of which is
timed alone, and once by one call. The longest part of each kind is the least of some runs, since a run in which the
program was put aside shows a longer one.

pauses: all pages are emptied that a collection may empty.
few-pauses: each collection empties 128 pages at most, and there are as many as it takes.
"""

from measuring import lines, measure

RUNS = 5
BUDGETS = [100, 1_000]

# Heaps: words of a page, frames, words of an object, pages that are filled. Objects have one reference and data.
HEAPS = [(512, 256, 16, 200), (512, 4_096, 16, 3_200), (4_096, 256, 16, 200), (4_096, 4_096, 16, 3_200),
         (32_768, 256, 16, 200), (32_768, 4_096, 16, 3_200), (32_768, 4_096, 2, 800), (32_768, 4_096, 1_024, 3_200)]

# Heaps whose objects have references alone.
WIDE = [(32_768, 4_096, 1_024, 3_200), (32_768, 4_096, 17, 800)]

# Heaps of which few pages are emptied at once, and the budget then.
LARGE = [heap for heap in HEAPS if heap[1] > 256]
BUDGET = 100

# The works, by what their objects have.
WORKS = {"data": ("parts", HEAPS), "references": ("wide", WIDE)}

# The kinds of parts, in the order of a collection, and a collection by one call.
KINDS = ["begin", "scan", "end", "measure", "prepare", "protect", "empty", "last", "whole"]


def least(bench, work, words):
    """Of each kind of part how often it was done, its least median, and the least of its longest times."""
    found = {}
    for _ in range(RUNS):
        for name, (count, median, longest) in lines(bench, [work, *words]).items():
            _, lower, shorter = found.get(name, (count, median, longest))
            found[name] = (count, min(median, lower), min(longest, shorter))
    return found


def micros(nanos):
    """Nanoseconds as microseconds, to three digits or to the whole."""
    return f"{nanos / 1e3:,.0f}" if nanos >= 100_000 else f"{nanos / 1e3:.3g}"


def pauses(programs):
    """The longest part of each kind in microseconds, for each heap and budget."""
    rows = []
    for objects, (work, heaps) in WORKS.items():
        for words, frames, size, pages in heaps:
            for budget in BUDGETS:
                found = least(programs.bench("collections"), work, (words, frames, size, pages, budget))
                cells = [micros(found[kind][2]) if kind in found else "" for kind in KINDS]
                rows.append([objects, *(f"{number:,}" for number in (frames, words, size, pages, budget)), *cells])
    return ["Objects of", "Frames", "Words a page", "Words an object", "Pages filled", "Budget", *KINDS[:-1],
            "by one call"], rows


def few_pauses(programs):
    """The same if each collection empties few pages, and how many collections there were."""
    rows = []
    for words, frames, size, pages in LARGE:
        found = least(programs.bench("collections"), "few", (words, frames, size, pages, BUDGET))
        cells = [micros(found[kind][2]) if kind in found else "" for kind in KINDS[:-1]]
        rows.append([*(f"{number:,}" for number in (frames, words, size, pages, found["begin"][0])), *cells])
    return ["Frames", "Words a page", "Words an object", "Pages filled", "Collections", *KINDS[:-1]], rows


if __name__ == "__main__":
    measure(__doc__, {"pauses": pauses, "few-pauses": few_pauses})
