#!/usr/bin/env python3
"""Times the program on generated scripts.

Each script has one mix of commands, 50,000 or 200,000 of them, in pages of 16 or of 4,096 words, and is timed in four
forms, each the best of several runs with its output thrown away:

  head     the heap line and the layout lines alone: what it costs to start
  faulty   the complete script with a fault in its last line; the program reads all of a script before its first step,
           so this one only reads
  full     the complete script on a heap whose history holds one step: after the first accepted step each command is
           refused at once, so this one reads, refuses and prints
  whole    the script itself

From these come nanoseconds of a processor for each of 200,000 commands:

  read     (faulty - head) / commands
  print    (full - faulty) / commands, with the refusal itself
  step     (whole - full) / commands, an estimate: a refusal's text has another length than the answer's, so it can be
           below zero
  all      (whole - head) / commands; and this over the same for 50,000 commands

Heaps: one script of takes, objects, reads and gives runs on heaps of few and of many pages. A command's cost must not
grow with the heap. Once all frames are used up a take is refused, after it has looked for a page and a frame in vain.

Marks: lists are marked and drained by one command, on heaps of several sizes, and the instructions for each object are
the difference to the same script without the drain. And marks of nothing, with some frames in use.
"""

import os
import tempfile

from measuring import counted, figure, measure, timed

RUNS = 5
COMMANDS = [50_000, 200_000]
WORDS = [16, 4096]

# Marks: words of a page, configured pages, threads, and objects of two words in a list.
MARKS = [(16, 4_096, 2, 1_000), (16, 4_096, 2, 10_000), (16, 65_535, 2, 28_000), (4_096, 1_000, 2, 1_000),
         (4_096, 1_000, 2, 10_000), (4_096, 65_535, 2, 40_000), (4_096, 1_000, 64, 40_000)]

# Marks of nothing: frames of 4,096 words in use, and the marks.
EMPTY_FRAMES = [16, 256, 4_096]
EMPTY_MARKS = 1_000

# Heaps of several sizes, all with pages of the same size.
PAGES = [16, 1_024, 65_535]
MOST_FRAMES = 4_096
HEAP_WORDS = 16
HEAP_COMMANDS = 200_000
HEAP_BODY = ["t0 take 4", "t0 new r0 0", "t0 datum r0 1", "t0 give"]


class Mix:
    """Commands that are done once, and commands that are repeated. `layout` is the layout line."""

    def __init__(self, layout, start, body):
        self.layout, self.start, self.body = layout, start, body

    def head(self, words, more=""):
        return [f"heap words {words} frames 1 pages 1 threads 1 workers 1 registers 4 globals 0{more}", self.layout]

    def commands(self, words, count):
        lines = [line.format(words=words) for line in self.start]
        return (lines + repeated(self.body, count - len(lines)))[:count]


def repeated(body, count):
    """The body over and over, up to `count` commands."""
    return (body * (count // len(body) + 1))[:count]


OBJECT = ["t0 take {words}", "t0 new r0 0"]
MIXES = {
    "datum": Mix("layout 0 2", OBJECT, ["t0 datum r0 1"]),
    "set and datum": Mix("layout 0 2", OBJECT, ["t0 set r0 1 1234567890", "t0 datum r0 1"]),
    "registers": Mix("layout 0 2", OBJECT, ["t0 mov r1 r0", "t0 same r0 r1", "t0 null r1", "t0 clear r1"]),
    # Objects of one word until the page is full, then refusals.
    "new": Mix("layout 0 0", ["t0 take {words}"], ["t0 new r0 0"]),
    # Buffers of one word until the page is full, then refusals.
    "take and give": Mix("layout 0 0", [], ["t0 take 1", "t0 give"]),
}


def best(program, scripts):
    """The least time of each of some scripts, which take turns; each has its lines and its exit status."""
    took = dict.fromkeys(scripts, float("inf"))
    with tempfile.TemporaryDirectory() as folder:
        paths = {form: written(folder, number, lines) for number, (form, (lines, _)) in enumerate(scripts.items())}
        for _ in range(RUNS):
            for form, (_, status) in scripts.items():
                took[form] = min(took[form], timed([program, "run", paths[form]], status))
    return took


def written(folder, name, lines):
    path = os.path.join(folder, f"{name}.script")
    with open(path, "w", encoding="ascii") as script:
        script.write("\n".join(lines) + "\n")
    return path


def parts_of(program, mix, words, count):
    """Nanoseconds a command: read, print, step, all."""
    commands = mix.commands(words, count)
    took = best(program, {
        "head": (mix.head(words), 0),
        "faulty": (mix.head(words) + commands[:-1] + ["fault"], 2),
        "full": (mix.head(words, " history 1") + commands, 0),
        "whole": (mix.head(words) + commands, 0),
    })
    pairs = ("faulty", "head"), ("full", "faulty"), ("whole", "full"), ("whole", "head")
    return [(took[more] - took[less]) / count * 1e9 for more, less in pairs]


def scripts(programs):
    """Nanoseconds a command of each mix."""
    rows = []
    for name, mix in MIXES.items():
        for words in WORDS:
            few, many = (parts_of(programs["report"], mix, words, count) for count in COMMANDS)
            rows.append([name, f"{words:,}", *(figure(cost, 0) for cost in many), figure(many[-1] / few[-1], 2)])
    return ["Mix", "Words a page", "read", "print", "step", "all", f"over {COMMANDS[0]:,} commands"], rows


def heaps(programs):
    """Nanoseconds a command of one script, for each number of pages."""
    commands = repeated(HEAP_BODY, HEAP_COMMANDS)
    forms = {}
    for pages in PAGES:
        head = [f"heap words {HEAP_WORDS} frames {min(pages, MOST_FRAMES)} pages {pages} threads 1"
                " workers 1 registers 4 globals 0", "layout 0 2"]
        forms |= {("head", pages): (head, 0), ("whole", pages): (head + commands, 0)}
    took = best(programs["report"], forms)
    costs = {pages: (took["whole", pages] - took["head", pages]) / HEAP_COMMANDS * 1e9 for pages in PAGES}
    return ["Pages", "Frames", "a command, ns", f"over {PAGES[0]} pages"], [
        [f"{pages:,}", f"{min(pages, MOST_FRAMES):,}", figure(cost, 0), figure(cost / costs[PAGES[0]], 2)]
        for pages, cost in costs.items()]


def mark_script(words, pages, threads, objects):
    """A list of objects, and a mark that all threads have crossed."""
    frames = min(pages, MOST_FRAMES)
    head = [f"heap words {words} frames {frames} pages {pages} threads {threads} workers 1"
            " registers 4 globals 1", "layout 1 0"]
    each = words // 2
    lines = []
    for number in range(objects):
        first, rest = ("r0", "r1") if number % 2 else ("r1", "r0")
        lines += [f"t0 take {words}"] if number % each == 0 else []
        lines += [f"t0 new {first} 0", f"t0 store {first} 0 {rest}"]
        lines += ["t0 give"] if number % each == each - 1 else []
    return head + lines + [f"t0 clear {rest}", "w0 mark"] + [f"t{number} cross" for number in range(threads)]


def counted_marks(programs):
    """Instructions for each object that a drain finds."""
    rows = []
    with tempfile.TemporaryDirectory() as folder:
        for words, pages, threads, objects in MARKS:
            script = mark_script(words, pages, threads, objects)
            less, more = (counted([programs["report"], "run", written(folder, "mark", lines)])
                          for lines in (script, script + ["w0 drain"]))
            cost = (more - less) / objects
            rows.append([f"{words:,}", f"{pages:,}", str(threads), f"{objects:,}", figure(cost, 0)])
    return ["Words a page", "Pages", "Threads", "Objects", "instructions an object"], rows


def empty_marks(programs):
    """Microseconds for a mark that finds nothing, with some frames in use."""
    rows = []
    for frames in EMPTY_FRAMES:
        head = [f"heap words 4096 frames {frames} pages {frames} threads 1 workers 1 registers 1 globals 0",
                "layout 0 0", f"times {frames}", "t0 take 4096", "t0 give", "end"]
        marks = [f"times {EMPTY_MARKS}", "w0 mark", "t0 cross", "w0 endmark", "end"]
        took = best(programs["report"], {"head": (head, 0), "whole": (head + marks, 0)})
        rows.append([f"{frames:,}", figure((took["whole"] - took["head"]) / EMPTY_MARKS * 1e6)])
    return ["Pages of 4,096 words in use", "a mark of nothing, us"], rows


if __name__ == "__main__":
    measure(__doc__, {"script-marks-instructions": counted_marks, "scripts": scripts, "heaps": heaps,
                      "empty-marks": empty_marks})
