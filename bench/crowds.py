#!/usr/bin/env python3
"""Times threads that share a heap or a book.

The works are those of the crates `bench_sharing` and `bench_portions`, which read a clock
themselves. Forms take turns, so that a slow moment doesn't fall on one alone. Figures of one thread are the best
of several runs, those of several threads the median: the best would be of a run in which they hardly met. If other
programs use the processors too, `chrt -f 20` before the command keeps them away from threads.

thread-steps: a register is copied, some 900,000 times, by the calls of a book without seats, by a seat without a lock,
and by seats of 1 to 8 threads under the lock; loads and reads and writes of data, forty times as many, by portions of
as many threads on a heap that they share, and on plain heaps under a plain lock that is taken for each 60 of them; and
threads that add to a number under a lock.

turns: how long a thread waits for its turn at a shared heap alongside a collector, and how long others wait for a
portion to end, by the number of rests that `open` was given; and the same for a plain lock. The longest is the least of
some runs, since a run in which a thread was put aside shows a longer one.

views: looks at a list of 1,000 cells by threads that read one heap at the same time, 2,000 looks a view, the best of
several runs.

apart: the same steps without sharing, each thread on a heap of its own or on a plain one, the best of several runs.

holds: each step of a heap of the largest size is timed alone, as a hold of the lock is one step, one look, or a portion
of a drain. The longest of each kind is the least of some runs; a row has all kinds that stay below 20 microseconds.

cycles: a cycle of one worker or of four, on one list or on eight, alongside two threads that load references, or that
have ended. The mark is from its start to its end; the cycle ends when the last page is released.
"""

import statistics

from measuring import lines, measure

RUNS = 7
STEPS = 896_000
THREADS = [1, 2, 4, 8]

# Steps of all threads together in portions.
SHARED_STEPS = 40 * STEPS

# Steps of all threads together whose waits are timed, and rests that `open` is given. The runs are short, as the system
# puts threads aside that have kept all processors to themselves for most of a second.
TIMED_STEPS = 10 * STEPS
RESTS = [20, 80]

# Threads that read one heap by views, and the looks of each.
VIEWERS = [1, 2, 4]
LOOKS = 20_000_000

# Threads that each have a heap of their own, and the steps of each.
APART = [1, 2, 4]
APART_STEPS = 10 * STEPS

# Heaps whose steps are timed: words of a page, frames, words of an object, pages full of them, objects of a list.
HEAPS = {"a word each": (32_768, 4_096, 1, 28, 5_000),
         "66 words each": (32_768, 4_096, 66, 1_800, 5_000),
         "2,047 words each": (32_768, 4_096, 2_047, 4_000, 5_000)}
HOLD_RUNS = 3

# Cycles: lists, pairs of objects of each, and loads of each thread alongside.
CYCLES = {"one list": (1, 30_720), "eight lists": (8, 3_840)}
LOADS = {"two threads": 30_000, "nobody": 1}
WORKERS = [1, 4]
CYCLE_RUNS = 5


def thread_steps(programs):
    """Steps by each form of calls."""
    sharing, portions = programs.bench("sharing"), programs.bench("portions")
    forms = {form: (sharing, form, STEPS) for form in ("act", "any", "seat")}
    for threads in THREADS:
        forms["steps", threads] = (sharing, "steps", threads, STEPS // threads)
        forms["counter", threads] = (sharing, "counter", threads, STEPS // threads)
        for name in ("portions", "locked"):
            forms[name, threads] = (portions, name, threads, SHARED_STEPS // threads)
    took = {form: [] for form in forms}
    for _ in range(RUNS):
        for form, (bench, *words) in forms.items():
            count, nanos, _ = lines(bench, words)[words[0]]
            took[form].append(nanos / count)
    names = {"act": "`Book::act`, its kind known", "any": "`Book::act`", "seat": "`Seat::act`"}
    names |= {("steps", threads): "`Shared::step`" for threads in THREADS}
    names |= {("portions", threads): "portions of a `SharedHeap`" for threads in THREADS}
    names |= {("locked", threads): "plain heaps under a lock" for threads in THREADS}
    names |= {("counter", threads): "a number under a lock" for threads in THREADS}
    rows = []
    for form, name in names.items():
        threads = form[1] if isinstance(form, tuple) else 1
        each = min(took[form]) if threads == 1 else statistics.median(took[form])
        rows.append([name, str(threads), f"{each:.1f}", f"{1e3 / each:,.1f}"])
    return ["Form", "Threads", "a step, ns", "million steps a second"], rows


def turns(programs):
    """Waits for a turn, and holds."""
    forms = {("portions", rests, threads): ("turns", threads, TIMED_STEPS // threads, rests)
             for rests in RESTS for threads in THREADS}
    forms |= {("a plain lock", "", threads): ("locked-turns", threads, TIMED_STEPS // threads) for threads in THREADS}
    found = {form: [] for form in forms}
    for _ in range(RUNS):
        for form, words in forms.items():
            found[form].append(lines(programs.bench("portions"), words))
    rows = []
    for (name, rests, threads), runs in found.items():
        wait, hold = (min(run[kind][2] if kind in run else 0 for run in runs) / 1e6 for kind in ("wait", "hold"))
        median = min(run["wait"][1] for run in runs) / 1e3
        steps = max(run[form][0] / run[form][1] for run in runs for form in ("turns", "locked") if form in run)
        rows.append([name, str(rests), str(threads), f"{wait:.2f}", f"{hold:.2f}", f"{median:.1f}",
                     f"{1e3 * steps:,.1f}"])
    return ["Form", "Rests", "Threads", "longest wait, ms", "longest hold, ms", "median wait, us",
            "million steps a second"], rows


def best_rates(bench, forms):
    """Of each form, which has a name and a number of threads, the most millions a second of several runs."""
    best = dict.fromkeys(forms, 0)
    for _ in range(RUNS):
        for form, words in forms.items():
            count, nanos, _ = lines(bench, words)[words[0]]
            best[form] = max(best[form], 1e3 * count / nanos)
    return [[name, str(threads), f"{rate:,.1f}", f"{rate / best[name, 1]:.2f}"]
            for (name, threads), rate in best.items()]


def views(programs):
    """Threads that read one heap at the same time."""
    forms = {("views of a `SharedHeap`", threads): ("views", threads, LOOKS) for threads in VIEWERS}
    rates = best_rates(programs.bench("portions"), forms)
    return ["Form", "Threads", "million looks a second", "over one thread"], rates


def apart(programs):
    """Threads that each have a heap of their own."""
    names = {"apart": "a heap for each thread", "plain": "a plain heap for each thread"}
    forms = {(names[name], threads): (name, threads, APART_STEPS) for name in names for threads in APART}
    rates = best_rates(programs.bench("portions"), forms)
    return ["Form", "Threads", "million steps a second", "over one thread"], rates


def held(bench, words):
    """The longest time of each kind of step on a heap, in microseconds: the least of some runs."""
    found = {}
    for _ in range(HOLD_RUNS):
        for name, (_, _, longest) in lines(bench, ("holds", *words)).items():
            found[name] = min(longest / 1e3, found.get(name, longest / 1e3))
    return found


def holds(programs):
    """Steps of each kind on large heaps."""
    found = {heap: held(programs.bench("sharing"), words) for heap, words in HEAPS.items()}
    names = dict.fromkeys(name for times in found.values() for name in times)
    long = [name for name in names if max(times.get(name, 0) for times in found.values()) >= 20]
    rows = [[name, *(f"{times[name]:,.0f}" if name in times else "" for times in found.values())] for name in long]
    others = [max((time for name, time in times.items() if name not in long), default=0) for times in found.values()]
    rows.append([f"each of {len(names) - len(long)} others", *(f"{time:,.0f}" for time in others)])
    return ["Step or look, us", *(f"objects of {heap}" for heap in HEAPS)], rows


def cycles(programs):
    """Cycles of one worker and of four."""
    forms = {(shape, others, workers): ("cycle", workers, *CYCLES[shape], LOADS[others])
             for shape in CYCLES for others in LOADS for workers in WORKERS}
    took = {(form, part): [] for form in forms for part in ("mark", "cycle")}
    for _ in range(CYCLE_RUNS):
        for form, words in forms.items():
            rows = lines(programs.bench("sharing"), words)
            for part in ("mark", "cycle"):
                took[form, part].append(rows[part][1] / 1e6)
    rows = []
    for shape in CYCLES:
        for others in LOADS:
            for part in ("mark", "cycle"):
                one, four = (statistics.median(took[(shape, others, workers), part]) for workers in WORKERS)
                rows.append([shape, others, part, f"{one:.1f}", f"{four:.1f}", f"{four / one:.2f}"])
    return ["Objects in", "Alongside", "Part", "one worker, ms", "four workers, ms", "four over one"], rows


if __name__ == "__main__":
    measure(__doc__, {"thread-steps": thread_steps, "turns": turns, "views": views, "apart": apart, "holds": holds,
                      "cycles": cycles})
