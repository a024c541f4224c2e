#!/usr/bin/env python3
"""Runs a program on changed scripts for so many seconds: tests/fuzz.py PROGRAM SECONDS [SEED]

The scripts of examples/ and tests/ are changed at random, in bytes, in words, in numbers, in lines and by lines of
other scripts. Each is run in one of the program's modes, in at most 2 GiB of address space and a minute. It has to end
with status 0 and nothing on standard error; with status 2, no output, and one fault that SCRIPT.md names, in a line
of the script or behind its end; or with status 3 and want of memory. Where a script is run, 'check' prints the same,
and how many verifications there were; that is tried of some. A script that ends otherwise is written to fuzzed/.
The seed is printed, and a run with the same seed tries the same scripts. The last line is 'N passed, M failed'.
"""

import collections
import glob
import os
import random
import re
import resource
import subprocess
import sys
import tempfile
import time

from cuts import KINDS, fault_of, read

SEEDS = ("examples/*", "examples/threads/*", "tests/scripts/*", "tests/threads/*")
MODES = ("run", "run", "check", "threads")
NUMBERS = [b"%d" % number for power in (0, 4, 8, 15, 16, 20, 31, 32, 40, 63, 64) for number in
           (2 ** power - 1, 2 ** power, 2 ** power + 1)] + [b"01", b"-1", b"100000", b"200000", b"1000000"]
SPACE = 2 << 30
SECONDS = 60


class Changes:
    """Scripts that are changed at random."""

    def __init__(self, chance):
        self.chance = chance
        self.seeds = [read(path) for it in SEEDS for path in sorted(glob.glob(f"{it}.script"))]
        self.seeds = [seed for seed in self.seeds if len(seed) < 20_000]
        self.words = sorted({word for seed in self.seeds for word in seed.split()})

    def byte(self, text):
        at = self.chance.randrange(len(text) + 1)
        new = bytes([self.chance.randrange(256)])
        return self.chance.choice([text[:at] + new + text[at:], text[:at] + new + text[at + 1:],
                                   text[:at] + text[at + 1:]])

    def parts(self, text, pattern, new):
        """One of the parts that have a pattern gets another one in its place."""
        found = list(re.finditer(pattern, text))
        if not found:
            return text
        part = self.chance.choice(found)
        return text[:part.start()] + new + text[part.end():]

    def word(self, text):
        return self.parts(text, rb"[^ \n]+", self.chance.choice(self.words))

    def number(self, text):
        return self.parts(text, rb"\d+", self.chance.choice(NUMBERS + [b"%d" % self.chance.randrange(20)] * 20))

    def line(self, text):
        lines = text.split(b"\n")
        at = self.chance.randrange(len(lines))
        other = self.chance.choice(self.chance.choice(self.seeds).split(b"\n"))
        lines[at:at + 1] = self.chance.choice([[], [lines[at]] * 2, [lines[at], other], [other]])
        return b"\n".join(lines)

    def splice(self, text):
        """The beginning of one script and the end of another, without its first lines."""
        other = self.chance.choice(self.seeds).split(b"\n")
        lines = text.split(b"\n")
        at, behind = self.chance.randrange(len(lines) + 1), self.chance.randrange(len(other) + 1)
        return b"\n".join(lines[:at] + other[behind:])

    def next(self):
        text = self.chance.choice(self.seeds)
        for _ in range(self.chance.choice([1, 1, 2, 3, 5, 8])):
            text = self.chance.choice([self.byte, self.word, self.number, self.number, self.line, self.splice])(text)
        return text


def limit():
    resource.setrlimit(resource.RLIMIT_AS, (SPACE, SPACE))


def end_of(program, mode, path):
    """How a run ends: its status, its output and its errors."""
    done = subprocess.run([program, mode, path], capture_output=True, timeout=SECONDS, preexec_fn=limit, check=False)
    return done.returncode, done.stdout, done.stderr.decode("ascii", "replace")


def kind_of(end, text):
    """What a run came to: 'run', 'memory' or a kind of fault. Another end is an error."""
    if end[0] == 3 and end[2] == "pauseless: out of memory\n":
        return "memory"
    if end == (2, b"", "pauseless: script too long\n"):
        return "too long"
    fault = fault_of(end)
    if fault is None:
        return "run"
    if not 1 <= fault[0] <= text.count(b"\n") + 1:
        raise ValueError(f"a fault in line {fault[0]}")
    return fault[2]


def is_small(text):
    """Whether a check of a script takes no long time: small pages and frames, and few commands."""
    head = re.search(rb"^heap words (\d+) frames (\d+) ", text, re.M)
    return bool(head) and len(head[1] + head[2]) < 8 and int(head[1]) * int(head[2]) < 10_000 and b"times" not in text


def try_one(program, mode, path, text, whether):
    """One script. What it came to; an error where that isn't as it has to be."""
    end = end_of(program, mode, path)
    kind = kind_of(end, text)
    if whether and mode == "run" and kind == "run" and is_small(text):
        checked = end_of(program, "check", path)
        if checked[0] != 0 or not re.fullmatch(re.escape(end[1]) + rb"verified \d+\n", checked[1]):
            raise ValueError(f"check: status {checked[0]}, {checked[2]!r}")
    return kind


def keep(text):
    """Writes a script into a folder, and gives its name there."""
    os.makedirs("fuzzed", exist_ok=True)
    name = f"fuzzed/{abs(hash(text)):x}.script"
    with open(name, "wb") as file:
        file.write(text)
    return name


def main(program, seconds, seed=None):
    seed = int(seed) if seed else random.SystemRandom().randrange(2 ** 32)
    print(f"seed {seed}")
    changes, counts, failed = Changes(random.Random(seed)), collections.Counter(), 0
    until = time.monotonic() + float(seconds)
    with tempfile.TemporaryDirectory(prefix="fuzz-") as folder:
        path = f"{folder}/script"
        while time.monotonic() < until:
            text, mode = changes.next(), changes.chance.choice(MODES)
            if mode == "check" and not is_small(text):
                mode = "run"
            with open(path, "wb") as file:
                file.write(text)
            try:
                counts[try_one(os.path.abspath(program), mode, path, text, changes.chance.random() < 0.25)] += 1
            except (ValueError, subprocess.TimeoutExpired) as error:
                print(f"failed: {mode} {keep(text)}: {error}")
                failed += 1
    for kind in ("run", "memory", "too long") + KINDS:
        print(f"{kind}: {counts[kind]}")
    print(f"{sum(counts.values())} passed, {failed} failed")
    return 1 if failed else 0


if __name__ == "__main__":
    sys.exit(main(*sys.argv[1:]))
