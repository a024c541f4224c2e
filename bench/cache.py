#!/usr/bin/env python3
"""Times a cache under load, by the library for C.

For several numbers of frames, as a multiple of the live pages: what an operation takes, which replaces an entry, with
complete collections and with collections in parts by several budgets; the longest operation; and how many complete
collections, or collections in parts, there were for 1,000 operations. If one with a budget was complete, it fails.
bench/cache.c says what the cache is. Figures are the least of some runs.
"""

import subprocess
import sys
import tempfile

from measuring import built_over, measure

RUNS = 3

OPERATIONS = 200_000

FRAMES = [92, 108, 124, 144, 180, 248]

# Each with the share of the frames that the policy keeps free.
BUDGETS = [(0, 16), (10, 4), (100, 4), (1_000, 4), (10_000, 4)]


def least(program, *words):
    """Of several runs the least of each number."""
    runs = [subprocess.run([program, *map(str, words)], stdout=subprocess.PIPE, text=True, check=True).stdout.split()
            for _ in range(RUNS)]
    return [min(map(float, column)) for column in zip(*runs)]


def cell(program, frames, budget, share):
    """What a cache takes in this number of frames."""
    live, operation, longest, whole, ended, _, _, refused = least(program, frames, frames // share, budget, OPERATIONS)
    if refused:
        return live, "refused"
    if budget and whole:
        sys.exit(f"cache.py: {whole:.0f} collections by one call with {frames} frames and a budget of {budget}")
    return live, f"{operation:,.0f} ns, {longest:.1f} ms, {(whole or ended) / (2 * OPERATIONS / 1_000):.2f}"


def cache(programs):
    rows = []
    with tempfile.TemporaryDirectory() as folder:
        program = built_over(programs["foreign"], "cache", folder)
        for frames in FRAMES:
            cells = [cell(program, frames, budget, share) for budget, share in BUDGETS]
            rows.append([f"{frames / cells[0][0]:.2f}", *(text for _, text in cells)])
    heads = [f"budget {budget:,}" if budget else "complete" for budget, _ in BUDGETS]
    return ["Frames over live pages", *heads], rows


if __name__ == "__main__":
    measure(__doc__, {"cache": cache})
