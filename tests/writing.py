"""Scripts that are written with their outputs, and commands that look random."""

import os
import sys
from collections import Counter

from heap_model import OF_WORKERS, Heap, thing_of


class Numbers:
    """Numbers that look random and are the same in each run."""

    def __init__(self, seed):
        self.state = seed

    def below(self, limit):
        self.state = (self.state * 6364136223846793005 + 1442695040888963407) % 2 ** 64
        return (self.state >> 33) % limit

    def one_of(self, choices):
        return choices[self.below(len(choices))]

    def shuffled(self, choices):
        left = list(choices)
        return [left.pop(self.below(len(left))) for _ in range(len(left))]


class Writing:
    """A script that is written, and its output beside it."""

    def __init__(self, words, frames, pages, threads, workers, registers, globals_, layouts, births, history):
        self.heap = Heap(words, frames, pages, threads, workers, registers, globals_, layouts, births, history)
        self.script = [f"heap words {words} frames {frames} pages {pages} threads {threads} workers {workers}"
                       f" registers {registers} globals {globals_} births {births} history {history}"]
        self.script += [f"layout {refs} {nums}" for refs, nums in layouts]
        self.output = []
        self.accepted = 0
        self.told = Counter()

    # Which operands of a command are registers.
    REGISTERS = {"new": [0], "load": [0, 1], "loadg": [0], "get": [0, 1], "getg": [0], "store": [0, 2],
                 "storeg": [1], "datum": [0], "set": [0], "same": [0, 1], "null": [0], "mov": [0, 1],
                 "clear": [0], "scrub": [0]}

    def line(self, number, name, operands):
        registers = self.REGISTERS.get(name, [])
        words = [f"r{n}" if i in registers else str(n) for i, n in enumerate(operands)]
        if name == "pick":
            words = ["{}.{}".format(*operands)]
        if name == "crossfor":
            words = [f"t{operands[0]}"]
        return " ".join([self.actor(number, name), name] + words)

    @staticmethod
    def actor(number, name):
        return f"{'w' if name in OF_WORKERS else 't'}{number}"

    def do(self, number, name, operands):
        text = self.heap.command(number, name, operands)
        self.accepted += "refused" not in text
        self.told.update(told.replace("refused ", "").split(" ")[0] for told in text.split(", "))
        self.output.append(f"{len(self.output) + 1} {self.actor(number, name)} {text}")

    def say(self, number, name, *operands):
        self.script.append(self.line(number, name, operands))
        self.do(number, name, operands)

    def block(self, times, commands):
        self.script.append(f"times {times}")
        self.script += [self.line(*command) for command in commands]
        self.script.append("end")
        for _ in range(times):
            for command in commands:
                self.do(*command)

    def demand(self, name, floors, **found):
        """Ends with the numbers where one is below its floor: of those that were found, those of the heap, or how
        often an answer or a refusal was told."""
        moved = self.heap.pages.moved
        retired = sum(retired for _, retired in self.heap.cycles)
        pages = sum("copied all" in line and not line.endswith(" 0") for line in self.output)
        found = self.told | Counter(
            found, accepted=self.accepted, cycles=len(self.heap.cycles), moved_objects=sum(moved.values()),
            moved_by_threads=moved["threads"], moved_by_marks=moved["marks"], moved_pages=pages,
            retired_pages=retired)
        if any(found[what] < floor for what, floor in floors.items()):
            sys.exit(f"{name}: " + ", ".join(f"{found[what]} {what}" for what in floors))

    def write(self, folder, name):
        for end, lines in ((".script", self.script), (".expected", self.output + self.heap.report())):
            with open(os.path.join(folder, name + end), "w", encoding="ascii") as file:
                file.write("\n".join(lines) + "\n")


# How often each command comes, among others.
OFTEN = {"take": 1, "give": 1, "new": 30, "datum": 10, "set": 12, "store": 12, "storeg": 5, "get": 12, "getg": 8,
         "load": 3, "loadg": 3, "trap": 1, "heal": 1, "finish": 1, "same": 5, "null": 5, "mov": 5, "clear": 1,
         "scrub": 2, "cross": 1, "park": 1, "unpark": 1}


def random_name(heap, thread, numbers, names):
    """A command. What the thread has to do before all else often comes first."""
    name = numbers.one_of(names)
    if numbers.below(4) == 0:
        return name
    if thread.parked:
        return "unpark"
    if thread.barrier is not None:
        return numbers.one_of(["trap", "heal", "finish"])
    if any(heap.obstacle(thread, word) == "Stale" for word in thread.registers) and numbers.below(2) == 0:
        return "scrub"
    if name == "new" and thread.buffer is None:
        return "take"
    if name == "new" and thread.buffer[2] - thread.buffer[1] < 4:
        return "give"
    return name


class Operands:
    """Operands that mostly name something."""

    def __init__(self, heap, thread, numbers):
        self.heap = heap
        self.thread = thread
        self.numbers = numbers

    def mostly(self):
        return self.numbers.below(8) > 0

    def register(self):
        full = [i for i, word in enumerate(self.thread.registers) if word is not None]
        if full and self.mostly():
            return self.numbers.one_of(full)
        return self.target()

    def target(self):
        return self.numbers.below(len(self.thread.registers))

    # An object's register, and the number of one of its references or data.
    def field(self, part):
        register = self.register()
        thing = thing_of(self.thread.registers[register])
        if thing is not None and getattr(thing, part) and self.mostly():
            return register, self.numbers.below(len(getattr(thing, part)))
        return register, self.numbers.below(13)

    def any_global(self):
        return self.numbers.below(len(self.heap.globals) + self.numbers.below(2))

    def of(self, name):
        if name == "take":
            return (self.numbers.below(20 if self.mostly() else self.heap.pages.words + 3),)
        if name == "new":
            layout = self.numbers.below(len(self.heap.layouts) + self.numbers.below(2))
            return self.target(), layout
        if name in ("load", "get"):
            return (self.target(),) + self.field("refs")
        if name in ("loadg", "getg"):
            return self.target(), self.any_global()
        if name == "store":
            return self.field("refs") + (self.register(),)
        if name == "storeg":
            return self.any_global(), self.register()
        if name == "datum":
            return self.field("data")
        if name == "set":
            return self.field("data") + (self.numbers.below(2 ** 31),)
        if name == "mov":
            return self.target(), self.register()
        registers = {"same": 2, "null": 1, "clear": 1, "scrub": 1}
        return tuple(self.register() for _ in range(registers.get(name, 0)))
