#!/usr/bin/env python3
"""Times threads that make, share and read back lists, and the same on the JVM's ZGC.

It runs the work `lists` of the crate `bench_portions`; `bench/Lists.java` has the same, and is compiled
here. If Java, its compiler or its ZGC isn't there, a line says so, and nothing is measured. Our heap has 32 MiB, the
JVM's as many or 128. The runs of all take turns. Objects a second are the best of several runs, the longest wait and
the longest stop the least of them, since a run in which a thread was put aside shows longer ones.

A wait of ours is from asking for the heap to having it, and a stop is what another thread waited for a portion to end.
A wait of ZGC's is an allocation stall, and a stop a safepoint of all threads, as its log has them. The JVM first does a
tenth of the work without being timed, so that its compiler has done its own.
"""

import functools
import os
import re
import shutil
import subprocess
import tempfile

from measuring import lines, measure

RUNS = 5
THREADS = [1, 2, 4]

# Lists that all threads make together, of 1,000 objects each.
LISTS = 10_000

# Of our heap: rests that `open` is given, words of a page, and the collector's budget.
SHAPE = (20, 8_192, 8_000)

JVM = ["java", "-XX:+UseZGC"]
SIZES = [32, 128]


def compiled(folder):
    """Compiles the Java program into a folder. Returns whether it can be run there; else a line says why not."""
    for program in ("java", "javac"):
        if shutil.which(program) is None:
            print(f"ZGC: there is no {program}")
            return False
    source = os.path.join(os.path.dirname(os.path.abspath(__file__)), "Lists.java")
    steps = {"Lists.java can't be compiled": ["javac", "-d", folder, source],
             "this Java has no ZGC": [*JVM, f"-Xmx{SIZES[0]}m", "-cp", folder, "Lists", "1", "1"]}
    for what, command in steps.items():
        if subprocess.run(command, stdout=subprocess.DEVNULL, stderr=subprocess.DEVNULL, check=False).returncode:
            print(f"ZGC: {what}")
            return False
    return True


def ours(bench, threads):
    """A run of ours: objects a second, collections, and the longest wait and stop in nanoseconds."""
    rows = lines(bench, ("lists", threads, LISTS // threads, *SHAPE))
    count, nanos, _ = rows["lists"]
    wait, hold = (rows[kind][2] if kind in rows else 0 for kind in ("wait", "hold"))
    return 1e9 * count / nanos, rows["collections"][0], wait, hold


def zgc(folder, size, threads):
    """The same of the JVM with a heap of some MiB."""
    log = os.path.join(folder, "log")
    command = [*JVM, f"-Xmx{size}m", f"-Xlog:gc,safepoint:file={log}", "-cp", folder, "Lists"]
    command += [str(threads), str(LISTS // threads)]
    run = subprocess.run(command, stdout=subprocess.PIPE, text=True, check=True)
    _, count, nanos = run.stdout.split()
    with open(log, encoding="utf-8") as file:
        text = file.read()
    stops = [int(it) for it in re.findall(r"Safepoint .* Total: +(\d+) ns", text)]
    stalls = [1e6 * float(it) for it in re.findall(r"Allocation Stall .* ([\d.]+)ms", text)]
    collections = len(set(re.findall(r"(GC\(\d+\)) .*Garbage Collection", text)))
    return 1e9 * int(count) / int(nanos), collections, max(stalls, default=0), max(stops, default=0)


def compared(bench, folder):
    """Runs of both."""
    names = {"a `SharedHeap`, 32 MiB": functools.partial(ours, bench)}
    names |= {f"ZGC, {size} MiB": functools.partial(zgc, folder, size) for size in SIZES}
    found = {(name, threads): [] for name in names for threads in THREADS}
    for _ in range(RUNS):
        for (name, threads), runs in found.items():
            runs.append(names[name](threads))
    rows = []
    for (name, threads), runs in found.items():
        speeds, collections, waits, stops = zip(*runs)
        rows.append([name, str(threads), f"{1e3 * LISTS / max(speeds):.2f}", f"{max(speeds) / 1e6:.1f}",
                     str(max(collections)), f"{min(waits) / 1e6:.2f}", f"{min(stops) / 1e6:.2f}"])
    return ["Heap", "Threads", "seconds", "million objects a second", "collections", "longest wait, ms",
            "longest stop, ms"], rows


def lists(programs):
    with tempfile.TemporaryDirectory() as folder:
        return compared(programs.bench("portions"), folder) if compiled(folder) else None


if __name__ == "__main__":
    measure(__doc__, {"lists": lists})
