#!/usr/bin/env python3
"""Times loops over the library's calls, and counts their instructions.

The program is that of the crate `bench_calls`. Each figure is the difference of two
runs, the best of several, of which one leaves the calls out; the runs take
turns, so that a slow moment doesn't fall on one alone. A '-' is a difference
that isn't robust: half of the runs gives another one.

Copies: pages of 4,096 words are filled with objects that live, and protected;
then each object is copied by a step of its own, or those of a page by one step.
For comparison as many words are copied from one list to another, a slice of a page
at a time; where instructions are counted a slice of an object's words at a time,
which is a call of `memcpy` each.

Drains: a list, or trees, are marked some times, and one worker drains each
mark: by steps, each of one reference, or by a call that scans complete objects.
A figure includes the mark's start, one crossing and the mark's end.

Verifications: half the frames of a heap are filled with objects of 4 words
that live, and the heap is verified some times.

Steps: loops of steps, each of one mix (crates/bench_calls/src/mixes.rt), by each
form of calls, and by `bench/plain.rs`, a heap written by hand in plain Rust,
which `rustc` compiles. If there is no `rustc`, a line says so, and no steps are
measured.

`valgrind` counts the instructions of drains, and also of copies and steps.
"""

import os
import shutil
import subprocess
import sys
import tempfile

from measuring import counted, differences, figure, measure, timed

RUNS = 15
PAGES = 2_048
WORDS = 4_096
SIZES = [2, 8, 64, 511]

# Pages whose copies are counted, and the words of their objects.
COUNTED_PAGES = 16
COUNTED_SIZES = [2, 8, 64]

# Drains: what is marked, with its objects, and the marks that are counted.
SHAPES = {("list", 1_000): 1_000, ("list", 10_000): 10_000, ("list", 90_000): 90_000,
          ("trees", 1): 16_383, ("trees", 8): 131_064}
MARKS = 2

# Verifications: words of a page, frames, and how often such a heap is verified.
HEAPS = [(16, 16, 2_000), (16, 256, 200), (16, 4_096, 10), (4_096, 16, 20), (4_096, 256, 2), (4_096, 4_096, 1)]
VERIFICATION_RUNS = 5

# Mixes, with the steps of a turn.
MIXES = {"data": 2, "build": 3, "walk": 4, "registers": 4, "globals": 4}
STEP_RUNS = 15

# Forms of calls, with the turns that are timed. A history has at most 1,000,000 entries.
TURNS = {"plain": 5_000_000, "call": 3_000_000, "step": 2_000_000, "act": 200_000}

# Turns that are counted, and turns before the count.
COUNTED = 40_000
UNCOUNTED = 2_000


def copies(programs):
    """Times copies of objects, compared with copies of slices."""
    program = programs["bench_calls"]
    forms = {(name, size): [[program, name, size, PAGES, copied] for copied in (0, PAGES)]
             for name in ("copies", "pages") for size in SIZES}
    forms["slices"] = [[program, "slices", WORDS, PAGES, copied] for copied in (0, PAGES)]
    took = differences(timed, RUNS, forms)
    a_word = took["slices"] / (PAGES * WORDS) * 1e9
    rows = []
    for size in SIZES:
        objects = WORDS // size * PAGES
        paged, each = (took[name, size] / objects * 1e9 for name in ("pages", "copies"))
        rows.append([str(size), figure(paged), figure(each), figure(a_word * size), figure(paged / size / a_word),
                     figure(each / size / a_word)])
    return ["Words an object", "by `CopyPage`, ns", "by steps of `Copy`, ns", "a slice, ns", "`CopyPage` over a slice",
            "steps over a slice"], rows


def counted_copies(programs):
    """Counts instructions of copies by the page and of steps, compared with `memcpy` of each object's words."""
    program = programs["bench_calls"]
    forms = {(name, size): [[program, name, size, COUNTED_PAGES, copied] for copied in (0, COUNTED_PAGES)]
             for name in ("pages", "copies", "slices") for size in COUNTED_SIZES}
    took, rows = differences(counted, 1, forms), []
    for size in COUNTED_SIZES:
        objects = WORDS // size * COUNTED_PAGES
        paged, each, plain = (took[name, size] / objects for name in ("pages", "copies", "slices"))
        rows.append([str(size), figure(paged, 0), figure(each, 0), figure(plain, 0), figure(paged / plain)])
    return ["Words an object", "by `CopyPage`", "by steps of `Copy`", "`memcpy`", "`CopyPage` over `memcpy`"], rows


def counted_drains(programs):
    """Instructions for each object of marks of lists and of trees, by steps and by a call."""
    program = programs["bench_calls"]
    forms = {(form, *shape): [[program, f"{form}-{shape[0]}", shape[1], marks] for marks in (1, 1 + MARKS)]
             for form in ("scan", "drain") for shape in SHAPES}
    took, rows = differences(counted, 1, forms), []
    for (shape, count), objects in SHAPES.items():
        steps, call = (took[form, shape, count] / (MARKS * objects) for form in ("scan", "drain"))
        rows.append([shape, f"{objects:,}", figure(steps, 0), figure(call, 0), figure(steps / call)])
    return ["Marked", "Objects", "by steps", "by a call", "steps over call"], rows


def verifications(programs):
    """Times verifications of heaps of several sizes."""
    program = programs["bench_calls"]
    forms = {(words, frames, times): [[program, "verified", words, frames, count] for count in (0, times)]
             for words, frames, times in HEAPS}
    took, rows, few = differences(timed, VERIFICATION_RUNS, forms), [], {}
    for words, frames, times in HEAPS:
        each = took[words, frames, times] / times
        a_word = each / (words * frames)
        ratio = a_word / few.setdefault(words, a_word)
        rows.append([f"{words:,}", f"{frames:,}", figure(each * 1e3, 3), figure(a_word * 1e9), figure(ratio, 2)])
    return ["Words a page", "Frames", "a verification, ms", "a word, ns", f"over {HEAPS[0][1]} frames"], rows


def compiled_plain(folder):
    """The plain heap as a program in a folder; none, if there is no compiler."""
    compiler = shutil.which("rustc")
    if compiler is None:
        print("steps: there is no rustc")
        return None
    plain = os.path.join(folder, "plain")
    source = os.path.join(os.path.dirname(os.path.abspath(__file__)), "plain.rs")
    subprocess.run([compiler, "--edition", "2021", "-C", "opt-level=3", "-o", plain, source], check=True)
    return plain


def mix_commands(program, plain):
    """For each mix by each form of calls, the words of a command but for its count."""
    return {(mix, form): [plain, mix] if form == "plain" else [program, f"{form}-{mix}"]
            for mix in MIXES for form in TURNS}


def check_agreement(commands):
    """All forms of a mix must give the same number."""
    for mix in MIXES:
        numbers = {subprocess.run(command + ["3000"], capture_output=True, text=True, check=True).stdout.strip()
                   for (named, _), command in commands.items() if named == mix}
        if len(numbers) != 1:
            sys.exit(f"the forms of the mix {mix} give different numbers: {', '.join(sorted(numbers))}")


def times_a_step(commands):
    """Nanoseconds a step, of each mix by each form."""
    forms = {key: [command + [turns] for turns in (0, TURNS[key[1]])] for key, command in commands.items()}
    took = differences(timed, STEP_RUNS, forms)
    return {(mix, form): took[mix, form] / (TURNS[form] * MIXES[mix]) * 1e9 for mix, form in commands}


def instructions_a_step(commands):
    """Instructions a step, of each mix by each form."""
    forms = {key: [command + [turns] for turns in (UNCOUNTED, UNCOUNTED + COUNTED)]
             for key, command in commands.items()}
    took = differences(counted, 1, forms)
    return {(mix, form): took[mix, form] / (COUNTED * MIXES[mix]) for mix, form in commands}


def steps_by(program, each_of):
    """The steps of each mix by each form of calls, and over the plain heap."""
    with tempfile.TemporaryDirectory() as folder:
        plain = compiled_plain(folder)
        if plain is None:
            return None
        commands = mix_commands(program, plain)
        check_agreement(commands)
        each = each_of(commands)
    over = [form for form in TURNS if form != "plain"]
    rows = [[mix, *(figure(each[mix, form]) for form in TURNS),
             *(figure(each[mix, form] / each[mix, "plain"]) for form in over)] for mix in MIXES]
    return ["Mix", *TURNS, *(f"{form} over plain" for form in over)], rows


def steps(programs):
    """Nanoseconds a step."""
    return steps_by(programs["bench_calls"], times_a_step)


def counted_steps(programs):
    """Instructions a step."""
    return steps_by(programs["bench_calls"], instructions_a_step)


if __name__ == "__main__":
    measure(__doc__, {"steps-instructions": counted_steps, "drains-instructions": counted_drains,
                      "copies-instructions": counted_copies, "steps": steps, "copies": copies,
                      "verifications": verifications})
