"""What the parts of `make bench` do alike: they choose tables, find programs, measure runs, and keep results."""

import argparse
import math
import os
import re
import resource
import shutil
import subprocess
import sys

import results

UNPROVED = os.path.join(results.TOP, "target", "unproved")

# Programs that a proved build leaves at the top of the repository: the one that runs scripts, and the library for C.
AT_TOP = {"report": "pauseless", "foreign": "libpauseless.a"}

# How the name of a table ends whose instructions are counted.
COUNTS = "instructions"


class Programs:
    """The programs that are measured, by their crates: proved ones, or optimized ones without a proof."""

    def __init__(self, are_proved):
        self.are_proved = are_proved

    def __getitem__(self, crate):
        if self.are_proved:
            path = os.path.join(results.TOP, AT_TOP.get(crate, f"crates/{crate}/out/{crate}"))
        else:
            path = os.path.join(UNPROVED, "libpauseless-unchecked.a" if crate == "foreign" else f"{crate}-unchecked")
        if not os.path.exists(path):
            sys.exit(f"{os.path.normpath(path)} isn't there: run 'make bench{'' if self.are_proved else ' TRY=1'}'")
        return os.path.abspath(path)

    def bench(self, name):
        """The words of a command that begin the works of a bench."""
        return [self["benches"], name]


def measure(what, tables):
    """Measures the tables of a part, prints them and keeps them in the results file.

    `tables` has for each name a function of `Programs`. It returns the columns and the rows; or no row or None, if
    something that it needs isn't there, which it has printed. Then the file keeps the table that it has."""
    parser = argparse.ArgumentParser(description=what, formatter_class=argparse.RawDescriptionHelpFormatter)
    parser.add_argument("--unproved", action="store_true", help="measure the programs of 'make bench TRY=1'")
    parser.add_argument("--only", choices=tables, help="measure one table alone")
    parser.add_argument("--instructions", action="store_true", help="only count instructions")
    parser.add_argument("--times", action="store_true", help="only measure times")
    words = parser.parse_args()
    programs = Programs(not words.unproved)
    for name, function in tables.items():
        if words.only not in (None, name) or (words.times if name.endswith(COUNTS) else words.instructions):
            continue
        if name.endswith(COUNTS) and shutil.which("valgrind") is None:
            print(f"{name}: there is no valgrind, which counts instructions\n")
            continue
        load = os.getloadavg()[0]
        measured = function(programs)
        if measured and measured[1]:
            command = f"python3 bench/{os.path.basename(sys.argv[0])}{' --unproved' * words.unproved} --only {name}"
            results.keep(name, *measured, results.facts(command, programs.are_proved, load))
            print(f"{name}:\n\n{results.markdown(*measured)}", flush=True)


def built_over(library, name, folder):
    """Builds the program in C of this name over the library for C, in a folder, and gives its path."""
    here = os.path.dirname(os.path.abspath(__file__))
    program = os.path.join(folder, name)
    subprocess.run([os.environ.get("CC", "cc"), "-std=c11", "-O2", "-I", os.path.join(here, "..", "include"),
                    os.path.join(here, f"{name}.c"), library, "-o", program], check=True)
    return program


def lines(bench, words):
    """What a timed work of a bench prints: for each name its count, its median and its longest time."""
    command = [*bench, "timed", *map(str, words)]
    run = subprocess.run(command, stdout=subprocess.PIPE, text=True, check=True)
    rows = {}
    for line in run.stdout.splitlines():
        name, count, median, longest = line.rsplit(" ", 3)
        rows[name] = (int(count), int(median), int(longest))
    return rows


def spent():
    """Seconds of a processor that ended runs have spent."""
    usage = resource.getrusage(resource.RUSAGE_CHILDREN)
    return usage.ru_utime + usage.ru_stime


def timed(command, status=0):
    """Seconds of a processor that one run spends; ends the bench if the run has another exit status."""
    before = spent()
    ended = subprocess.run(command, stdout=subprocess.DEVNULL, stderr=subprocess.DEVNULL, check=False).returncode
    if ended != status:
        sys.exit(f"{' '.join(command)}: ended with status {ended}, not {status}")
    return spent() - before


def counted(command, status=0, out="/dev/null"):
    """Instructions that one run takes."""
    tool = ["valgrind", "--tool=callgrind", f"--callgrind-out-file={out}"]
    run = subprocess.run(tool + command, stdout=subprocess.DEVNULL, stderr=subprocess.PIPE, text=True, check=False)
    if run.returncode != status:
        sys.exit(f"{' '.join(command)}: ended with status {run.returncode}, not {status}:\n{run.stderr}")
    return int(re.search(r"Collected : (\d+)", run.stderr)[1])


def difference(pairs):
    """How much more the second run of a pair takes than the first, by the least of each; NaN, if that isn't robust.

    It is robust if the pairs with even and with odd numbers, each taken alone, give a difference above zero, and the
    same one but for a fifth: else other work on the machine was as large as what was measured."""
    every, *halves = (min(second for _, second in some) - min(first for first, _ in some)
                      for some in (pairs, pairs[::2], pairs[1::2] or pairs))
    return every if 0 < max(halves) <= 1.2 * min(halves) else math.nan


def differences(measured, runs, forms):
    """For each form the difference of its two commands, by a measure of a run. The forms take turns."""
    took = {form: [] for form in forms}
    for _ in range(runs):
        for form, commands in forms.items():
            took[form].append(tuple(measured([str(word) for word in command]) for command in commands))
    return {form: difference(pairs) for form, pairs in took.items()}


def figure(number, digits=1):
    """A number as a table has it; '-' for one that isn't robust."""
    return "-" if math.isnan(number) else f"{number:,.{digits}f}"
