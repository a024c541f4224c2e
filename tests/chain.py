#!/usr/bin/env python3
"""Prints what the time of the complete test command is made of: tests/chain.py TABLE [--output FILE] [PROCESSORS..]

TABLE is a file with the lines 'crate proof tests edits' that tests/measured.py writes, and that `make test` prints
near its end. Of the seconds that crates.txt and the table have this prints the sum, the longest chain of proofs that
wait for one another, and how long each number of processors (by default 2 and 4) would take if no proof or test ran on
several. With FILE, what 'rt ci' or `make test` printed, it also prints each check of more than 120 seconds, with the
number of functions that it proved, and the seconds for each of them. Work at the top of the repository.
"""

import argparse
import heapq
import re
import sys

# A check that takes more seconds than this is printed.
LONG = 120


def seconds_of(path):
    """For each crate the seconds of its proof, of its tests, and of its mutants."""
    with open(path, encoding="utf-8") as file:
        rows = re.findall(r"^(\w+)\s+(\d+)\s+(\d+)\s+(\d+)$", file.read(), re.M)
    return {name: tuple(map(int, numbers)) for name, *numbers in rows if name != "all"}


def below_of(path="crates.txt"):
    """For each crate those of the repository that it depends on directly."""
    with open(path, encoding="utf-8") as file:
        lines = [line.partition("#")[0].partition(":") for line in file]
    below = {name.split()[0]: others.split() for name, colon, others in lines if colon}
    return {name: [it for it in others if it in below] for name, others in below.items()}


def chain_of(below, proofs):
    """The crates of the longest chain of proofs, lowest first."""
    longest = {}

    def chain(name):
        if name not in longest:
            longest[name] = max((chain(it) for it in below[name]), key=lambda it: it[0], default=(0, ()))
            took, names = longest[name]
            longest[name] = took + proofs.get(name, 0), (*names, name)
        return longest[name]

    return max(map(chain, below), key=lambda it: it[0])


def span_of(below, seconds, processors):
    """How long N processors take for the work, if that with the longest chain above it goes first."""
    above = {name: [it for it in below if name in below[it]] for name in below}
    urgency = {}

    def urgent(name):
        if name not in urgency:
            urgency[name] = seconds.get(name, (0, 0, 0))[0] + max(map(urgent, above[name]), default=0)
        return urgency[name]

    waiting = {name: len(others) for name, others in below.items()}
    ready = [(-urgent(name), name, "proof") for name in below if not waiting[name]]
    heapq.heapify(ready)
    running, now = [], 0
    while ready or running:
        while ready and len(running) < processors:
            _, name, kind = heapq.heappop(ready)
            proof, tests, edits = seconds.get(name, (0, 0, 0))
            heapq.heappush(running, (now + (proof if kind == "proof" else tests + edits), name, kind))
        now, name, kind = heapq.heappop(running)
        if kind == "proof":
            heapq.heappush(ready, (0, name, "tests"))
            for it in above[name]:
                waiting[it] -= 1
                if not waiting[it]:
                    heapq.heappush(ready, (-urgent(it), it, "proof"))
    return now


def functions_of(path):
    """How many functions each check proved, by its crate and whether it was the check of its tests."""
    counts, check = {}, None
    with open(path, encoding="utf-8", errors="replace") as file:
        for line in file:
            if begins := re.fullmatch(r"== (\w+)(: its tests)?\n", line):
                check = begins[1], bool(begins[2])
            elif proved := re.match(r"logic=proved.* functions=(\d+)", line):
                counts[check] = int(proved[1])
    return counts


def print_long(seconds, counts):
    """Prints the longest checks first, with their functions."""
    checks = [(took, name, kind) for name, row in seconds.items() for kind, took in zip((False, True), row)]
    for took, name, is_tests in sorted((it for it in checks if it[0] > LONG), reverse=True):
        what = f"{name}: its tests" if is_tests else name
        count = counts.get((name, is_tests))
        print(f"{took:6} {what}" + (f", {count} functions, {took / count:.1f} each" if count else ""))


def main():
    parser = argparse.ArgumentParser(usage=__doc__)
    parser.add_argument("table")
    parser.add_argument("--output")
    parser.add_argument("processors", nargs="*", type=int, default=[2, 4])
    asked = parser.parse_intermixed_args()
    seconds, below = seconds_of(asked.table), below_of()
    kinds = [sum(column) for column in zip(*seconds.values())]
    print(f"{sum(kinds):,} seconds: proofs {kinds[0]:,}, tests {kinds[1]:,}, mutants {kinds[2]:,}")
    took, names = chain_of(below, {name: row[0] for name, row in seconds.items()})
    print(f"the longest chain of proofs: {took:,}: " + ", ".join(f"{it} {seconds.get(it, (0,))[0]}" for it in names))
    for count in asked.processors:
        print(f"on {count} processors: {span_of(below, seconds, count):,}")
    if asked.output:
        print_long(seconds, functions_of(asked.output))
    return 0


if __name__ == "__main__":
    sys.exit(main())
