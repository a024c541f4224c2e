#!/usr/bin/env python3
"""Times heaps near the limits of the library, by the library for C.

What a register costs in a collection; what an object costs by the number of frames; and large heaps that are filled,
collected in parts and verified, as far as the machine has memory for them. Figures are the least of some runs, but for
what a large heap takes. bench/large.c says what each work is.
"""

import subprocess
import tempfile

from measuring import built_over, measure

RUNS = 5

REGISTERS = [16, 1_000, 10_000, 65_535]

# Frames of pages of 16 words.
FRAMES = [4_096, 65_536, 1_048_575]

# Frames of pages of 32,768 words, which are 256 KiB.
HEAPS = [4_096, 16_384, 32_768]

BUDGET = 1_000


def numbers(program, *words):
    """The numbers that a run prints."""
    run = subprocess.run([program, *map(str, words)], stdout=subprocess.PIPE, text=True, check=True)
    return [float(number) for number in run.stdout.split()]


def least(program, *words):
    """Of several runs the least of each number."""
    return [min(column) for column in zip(*(numbers(program, *words) for _ in range(RUNS)))]


def free_mib():
    """The MiB that the machine has left."""
    with open("/proc/meminfo", encoding="ascii") as file:
        return next(int(line.split()[1]) // 1024 for line in file if line.startswith("MemAvailable:"))


def heap_row(program, frames):
    """The row of a large heap; none, if the machine has too little memory for it."""
    size = frames // 4
    if free_mib() < size * 5 // 4:
        return None
    made, objects, each, parts, longest, all_parts, resident = numbers(program, "heap", frames, 32_768, BUDGET)
    verified = f"{numbers(program, 'verify', frames, 32_768)[0]:,.0f}" if free_mib() > size * 5 // 2 else "-"
    return [f"{size:,} MiB", f"{objects:,.0f}", f"{made:,.0f}", f"{each:.0f}", f"{parts:,.0f}", f"{longest:.2f}",
            f"{all_parts:,.0f}", verified, f"{resident:,.0f}"]


def registers(program):
    rows = [[f"{count:,}", *(f"{micros:,.0f}" for micros in least(program, "registers", count))]
            for count in REGISTERS]
    return ["Registers", "longest part if each names an object, us", "if all are null, us"], rows


def objects(program):
    rows = [[f"{count:,}", f"{least(program, 'objects', count, 16)[0]:.1f}"] for count in FRAMES]
    return ["Frames of 16 words", "an object, ns"], rows


def heaps(program):
    rows = [heap_row(program, frames) for frames in HEAPS]
    return ["Heap", "Objects of 64 words", "made in ms", "an object, ns", "parts", "the longest, ms", "all, ms",
            "verified in ms", "resident MiB"], [row for row in rows if row]


def over_library(work):
    """A table by a work of the program in C."""
    def table(programs):
        with tempfile.TemporaryDirectory() as folder:
            return work(built_over(programs["foreign"], "large", folder))
    return table


if __name__ == "__main__":
    measure(__doc__, {"registers": over_library(registers), "frames": over_library(objects),
                      "large-heaps": over_library(heaps)})
