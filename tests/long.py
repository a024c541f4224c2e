#!/usr/bin/env python3
"""Writes long scripts, and what the program has to print for each.

    python3 tests/long.py FOLDER

For each script NAME.script in the folder NAME.expected is its output, worked
out by the model of the heap in heap_model.py. A script that meets less than it
is made for is a failure: the numbers are printed, and the status is 1.
"""

import sys

from heap_model import thing_of
from writing import OFTEN, Numbers, Operands, Writing, random_name


def many_pages():
    """Eight threads on a thousand pages, which are all used up, and births too."""
    layouts = [(0, 2), (1, 1), (3, 0), (2, 9), (0, 0), (12, 12)]
    writing = Writing(64, 1_000, 1_200, 8, 1, 6, 16, layouts, 12_000, 1_000_000)
    numbers = Numbers(1)
    names = [name for name, often in OFTEN.items() for _ in range(often)]
    while len(writing.output) < 199_000:
        number = numbers.below(len(writing.heap.threads))
        thread = writing.heap.threads[number]
        name = random_name(writing.heap, thread, numbers, names)
        writing.say(number, name, *Operands(writing.heap, thread, numbers).of(name))
    writing.demand("many_pages", {"accepted": 100_000, "pages": 1_000, "birth": 12_000},
                   pages=len(writing.heap.pages.used))
    return writing


def full_history():
    """A history of 150,000 entries, the last of which begins a load; all that comes after it is refused."""
    writing = Writing(16, 1, 1, 2, 1, 2, 1, [(1, 1)], 2 ** 32, 150_000)
    writing.say(0, "take", 16)
    writing.say(0, "new", 0, 0)
    writing.say(0, "storeg", 0, 0)
    writing.say(0, "store", 0, 0, 0)
    writing.say(1, "take", 1)
    writing.block(40_000, [(0, "get", (1, 0, 0)), (1, "getg", (0, 0))])
    writing.block(9_000, [(1, "trap", ()), (0, "set", (0, 0, 7)), (0, "null", (1,))])
    if writing.heap.history != 150_000 or "refused HistoryFull" not in writing.output[-1]:
        sys.exit(f"full_history: {writing.heap.history} entries")
    return writing


def next_of_mark(heap, numbers):
    """The next command of an endless cycle of marks, and its actor; a scan or a pick is any worker's."""
    worker = numbers.below(len(heap.workers))
    if heap.phase == "idle":
        return worker, "mark", ()
    if heap.phase == "mark-crossing":
        return next_of_crossing(heap, numbers, worker, ("scan", ()))
    loading = [number for number, thread in enumerate(heap.threads) if thread.barrier is not None]
    if heap.workers[worker] is not None:
        return worker, "scan", ()
    if True in heap.todo_globals:
        todo = [number for number, todo in enumerate(heap.todo_globals) if todo]
        return worker, "scang", (numbers.one_of(todo) if numbers.below(2) == 0 else numbers.below(len(heap.globals)),)
    if heap.todo_things:
        place, thing = numbers.one_of(list(heap.todo_things.items()))
        holders = [number for number, scan in enumerate(heap.workers) if scan is not None and scan[0] is thing]
        return (holders[0], "scan", ()) if holders and numbers.below(4) > 0 else (worker, "pick", place)
    if loading and numbers.below(4) > 0:
        return end_of_load(heap, numbers.one_of(loading), "finish")
    return worker, "endmark", ()


def next_of_crossing(heap, numbers, worker, early):
    """The next command at a checkpoint, and its actor; at times one of a worker that comes too early."""
    behind = [number for number, thread in enumerate(heap.threads) if not thread.crossed]
    parked = [number for number in behind if heap.threads[number].parked]
    if parked:
        return worker, "crossfor", (numbers.one_of(parked),)
    if numbers.below(4) == 0:
        return worker, *early
    return end_of_load(heap, numbers.one_of(behind), "cross")


def end_of_load(heap, number, otherwise):
    """What a thread with an open barrier does next to end its load; another command where it has none."""
    thread = heap.threads[number]
    if thread.barrier is None:
        return number, otherwise, ()
    if heap.is_due(thread, thread.barrier.now):
        return number, "trap", ()
    return number, "finish" if thread.barrier.healed else "heal", ()


def many_marks():
    """64 threads and 16 workers: what lives is marked again and again, while the threads go on."""
    layouts = [(0, 2), (1, 1), (3, 0), (2, 9)]
    writing = Writing(64, 1_000, 2_000, 64, 16, 4, 16, layouts, 20_000, 1_000_000)
    heap = writing.heap
    numbers = Numbers(3)
    names = [name for name, often in OFTEN.items() for _ in range(often)]
    while len(writing.output) < 60_000:
        number = numbers.below(len(heap.threads))
        thread = heap.threads[number]
        if numbers.below(2) == 0:
            actor, name, operands = next_of_mark(heap, numbers)
            writing.say(actor, name, *operands)
        else:
            name = random_name(heap, thread, numbers, names)
            writing.say(number, name, *Operands(heap, thread, numbers).of(name))
    writing.demand("many_marks", {"accepted": 25_000, "cycles": 30})
    return writing


def pages_to_protect(heap, numbers):
    """Closed pages: mostly those on which the least lives, else any. At times any numbers, also one twice."""
    if numbers.below(2) == 0:
        pages = tuple(numbers.below(heap.pages.count + 2) for _ in range(1 + numbers.below(3)))
        return pages if numbers.below(4) > 0 else pages + pages[:1]
    closed = numbers.shuffled(number for number, page in heap.pages.used.items() if page.state == "closed")
    if numbers.below(4) > 0:
        closed.sort(key=lambda number: sum(thing.size() for thing in heap.pages.used[number].live))
    return tuple(closed[:1 + numbers.below(40)])


def next_of_copies(heap, numbers):
    """The next command that copies or gives memory up, or the next mark's start. At times one that comes too early
    or too late."""
    emptied = [number for number, page in heap.pages.used.items() if page.state == "from"]
    if not emptied:
        return "mark", ()
    number = numbers.one_of(emptied)
    live = heap.pages.used[number].live
    left = [entry for entry, thing in enumerate(live) if thing.planned is not None]
    if numbers.below(8) == 0:
        any_entry = (number, numbers.below(len(live) + 2))
        return numbers.one_of([("mark", ()), ("release", (number,)), ("copy", any_entry), ("copyall", (number,))])
    return ("copy", (number, numbers.one_of(left))) if left else ("release", (number,))


def any_of_workers(heap, numbers):
    """A worker's command of any kind, which is mostly refused."""
    page = numbers.below(heap.pages.count + 2)
    return numbers.one_of([
        ("mark", ()), ("endmark", ()), ("pick", (page, numbers.below(heap.pages.words))), ("scan", ()),
        ("scang", (numbers.below(len(heap.globals) + 1),)), ("crossfor", (numbers.below(len(heap.threads)),)),
        ("protect", (page,)), ("copy", (page, numbers.below(4))), ("copyall", (page,)), ("release", (page,))])


def next_of_moves(heap, numbers):
    """The next command of an endless cycle of marks and moves, and its actor."""
    worker = numbers.below(len(heap.workers))
    if numbers.below(32) == 0:
        return worker, *any_of_workers(heap, numbers)
    if heap.phase == "idle" and numbers.below(16) > 0:
        pages = pages_to_protect(heap, numbers)
        return (worker, "protect", pages) if pages else (worker, "mark", ())
    if heap.phase == "protect-crossing":
        return next_of_crossing(heap, numbers, worker, next_of_copies(heap, numbers))
    if heap.phase == "relocating" or numbers.below(128) == 0:
        return worker, *next_of_copies(heap, numbers)
    if heap.phase == "scanning" and numbers.below(32) == 0:
        return worker, numbers.one_of(["drain", "endmark"]), ()
    return next_of_mark(heap, numbers)


# The refusals that a heap may come to whose births and history don't end.
REFUSALS = ("BadIndex", "Parked", "NotParked", "Busy", "NotBusy", "Null", "Stall", "Stale", "NoRoom", "HasBuffer",
            "NoFrames", "NoPages", "Phase", "AlreadyCrossed", "NotCrossed", "NotTodo", "Taken", "TodoLeft", "Pending",
            "Unripe", "Uncopied", "Copied", "Lent")


def many_moves():
    """64 threads and 16 workers in whole cycles: what lives moves from page to page, copied by workers, by the
    threads that come upon it and by marks that begin early, while the threads go on, faster than those who copy. The
    last free frames are mostly left to the moves."""
    layouts = [(0, 2), (3, 0), (2, 1), (1, 4), (5, 0)]
    writing = Writing(64, 54, 58, 64, 16, 6, 16, layouts, 2 ** 32, 1_000_000)
    heap = writing.heap
    numbers = Numbers(5)
    often_here = dict(OFTEN, give=12, new=70, store=40, storeg=8, clear=0, scrub=6)
    names = [name for name, often in often_here.items() for _ in range(often)]
    while len(writing.output) < 60_000:
        number = numbers.below(len(heap.threads))
        thread = heap.threads[number]
        if numbers.below(6 if heap.phase == "relocating" else 2) == 0:
            actor, name, operands = next_of_moves(heap, numbers)
            writing.say(actor, name, *operands)
        else:
            name = random_name(heap, thread, numbers, names)
            if name == "take" and len(heap.pages.free) < 3 and numbers.below(16) > 0:
                name = "getg"
            writing.say(number, name, *Operands(heap, thread, numbers).of(name))
    writing.demand("many_moves", dict(
        dict.fromkeys(REFUSALS, 5), accepted=30_000, cycles=50, moved_objects=2_000, moved_by_threads=500,
        moved_by_marks=1_000, moved_pages=20, retired_pages=400))
    return writing


class Fragmenting:
    """Cycles of a small heap. In each there are new objects among garbage, some that lived are dropped, and all
    that lives moves. A global names an object of layout 0, and that one another. Each thread makes its objects in
    its registers 0 and 1, and reads into 2 and 3."""

    LAYOUTS = [(1, 2), (0, 3), (2, 1), (1, 6)]

    def __init__(self):
        self.writing = Writing(32, 16, 20, 3, 2, 4, 16, self.LAYOUTS, 2 ** 32, 1_000_000)
        self.heap = self.writing.heap
        self.numbers = Numbers(7)
        self.made = 0
        self.came_back = 0
        self.reading = 0

    def say(self, *command):
        self.writing.say(*command)

    def any_thread(self):
        return self.numbers.below(len(self.heap.threads))

    def any_worker(self):
        return self.numbers.below(len(self.heap.workers))

    def make(self, thread, register, layout):
        """A new object with data that no other has."""
        self.say(thread, "new", register, layout)
        self.made += 1
        for index in range(self.LAYOUTS[layout][1]):
            self.say(thread, "set", register, index, 10 * self.made + index)

    def fill_page(self):
        """A page of garbage, with two objects that live somewhere in it."""
        thread = self.any_thread()
        self.say(thread, "take", 32)
        for _ in range(self.numbers.below(4)):
            self.say(thread, "new", 0, 1)
        self.make(thread, 1, 1 + self.numbers.below(3))
        self.say(thread, "new", 0, 1)
        self.make(thread, 0, 0)
        self.say(thread, "store", 0, 0, 1)
        self.say(thread, "storeg", self.numbers.below(len(self.heap.globals)), 0)
        while self.heap.threads[thread].buffer[2] - self.heap.threads[thread].buffer[1] >= 4:
            self.say(thread, "new", 0, 1)
        self.say(thread, "give")

    def drop(self):
        """What a global names is dropped; of what another names, the object behind it."""
        thread = self.any_thread()
        self.say(thread, "clear", 1)
        self.say(thread, "storeg", self.numbers.below(len(self.heap.globals)), 1)
        self.say(thread, "getg", 2, self.numbers.below(len(self.heap.globals)))
        self.say(thread, "store", 2, 0, 1)

    def read(self, number):
        """All data of what a global names, and of the object behind it."""
        thread = self.any_thread()
        for register, load in (2, ("getg", 2, number)), (3, ("get", 3, 2, 0)):
            self.say(thread, *load)
            thing = thing_of(self.heap.threads[thread].registers[register])
            if thing is None:
                return
            for index in range(len(thing.data)):
                self.say(thread, "datum", register, index)

    def at_point(self, point):
        """Here a cycle may read: each at one of five points, and each tenth all that there is."""
        if self.reading != point:
            return
        globals_ = range(len(self.heap.globals))
        for number in globals_ if len(self.heap.cycles) % 10 == 0 else self.numbers.shuffled(globals_)[:3]:
            self.read(number)

    def cross(self):
        for thread in self.numbers.shuffled(range(len(self.heap.threads))):
            self.say(thread, "cross")

    def mark(self):
        self.say(self.any_worker(), "mark")
        self.at_point(0)
        self.cross()
        self.at_point(1)
        self.say(self.any_worker(), "drain")
        self.say(self.any_worker(), "endmark")

    def copy(self, number, entry):
        """A worker copies an object, where no thread comes before it, or all that is left of its page. At times what
        can't be yet is asked for."""
        if self.numbers.below(16) == 0:
            self.read(self.numbers.below(len(self.heap.globals)))
        if self.numbers.below(16) == 0:
            self.say(self.any_thread(), "scrub", self.numbers.below(4))
        self.say(self.any_worker(), *self.numbers.one_of([("copy", number, entry)] * 7 + [("copyall", number)]))
        if self.numbers.below(8) == 0:
            self.say(self.any_worker(), "release", number)

    def move(self):
        """All pages are emptied, and each gives its frame back early or late; one at times only as the next mark
        ends, and then no worker has copied anything of it or one has copied all. Until then the targets alone have
        frames, and that page."""
        pages = self.heap.pages
        self.say(self.any_worker(), "protect", *self.numbers.shuffled(pages.used))
        targets = int(self.writing.output[-1].split(" ")[-1])
        self.at_point(2)
        self.cross()
        emptied = self.numbers.shuffled(number for number, page in pages.used.items() if page.state == "from")
        passed_over = self.numbers.below(4) == 0
        copied = emptied[passed_over:]
        entries = [(number, entry) for number in copied for entry in range(len(pages.used[number].live))]
        for entry in self.numbers.shuffled(entries):
            self.copy(*entry)
        self.at_point(3)
        left = self.numbers.shuffled(number for number in copied if pages.state(number) == "from")
        kept = self.numbers.below(2) if left and not passed_over else 0
        for number in left[kept:]:
            self.say(self.any_worker(), "release", number)
        last = next(line for line in reversed(self.writing.output) if "released" in line)
        self.came_back += last.endswith(f" free {pages.frames - targets - kept - passed_over}")
        self.at_point(4)


def fragmentation():
    """A heap of 16 frames is fragmented and emptied a thousand times; each time as many frames come back as have
    to."""
    fragmenting = Fragmenting()
    for _ in range(1_000):
        for _ in range(3):
            fragmenting.fill_page()
        fragmenting.drop()
        fragmenting.reading = fragmenting.numbers.below(5)
        fragmenting.mark()
        fragmenting.move()
    fragmenting.writing.demand("fragmentation", {
        "accepted": 100_000, "cycles": 1_000, "frames_came_back": 1_000, "moved_objects": 20_000,
        "moved_by_threads": 500, "moved_by_marks": 200, "moved_pages": 1_000, "retired_pages": 6_000, "datum": 15_000,
        "Copied": 500, "Uncopied": 500},
        frames_came_back=fragmenting.came_back)
    return fragmenting.writing


def long_list():
    """A list of 90,090 objects is marked as a whole by one command. When half of it is cut off, the next mark
    finds the other half to live."""
    writing = Writing(4_096, 70, 140, 2, 1, 3, 1, [(1, 1)], 2 ** 32, 1_000_000)
    for page in range(66):
        writing.say(0, "take", 4_096)
        writing.block(682, [(0, "new", (1, 0)), (0, "store", (1, 0, 0)), (0, "new", (0, 0)), (0, "store", (0, 0, 1))])
        writing.say(0, "new", 1, 0)
        writing.say(0, "store", 1, 0, 0)
        writing.say(0, "mov", 0, 1)
        writing.say(0, "give")
        if page == 32:
            writing.say(0, "storeg", 0, 0)
    writing.say(0, "clear", 1)
    for number in range(2):
        writing.say(0, "mark")
        writing.say(0, "cross")
        writing.say(1, "cross")
        writing.say(0, "drain")
        writing.say(0, "endmark")
        writing.say(0, "clear", 0)
    if writing.heap.cycles != [(90_090, 0), (45_045, 0)]:
        sys.exit(f"long_list: {writing.heap.cycles}")
    return writing


def smallest_heap():
    """The smallest heap in which an object can move, for 10,000 cycles: it goes to and fro between two pages."""
    writing = Writing(16, 2, 2, 1, 1, 2, 1, [(1, 1)], 2 ** 32, 1_000_000)
    for command in ("take", 16), ("new", 0, 0), ("set", 0, 0, 7), ("storeg", 0, 0), ("clear", 0), ("give",):
        writing.say(0, *command)
    mark = [(0, "mark", ()), (0, "cross", ()), (0, "drain", ()), (0, "endmark", ())]
    turn = []
    for page in (1, 2):
        turn += mark + [(0, "protect", (page,)), (0, "cross", ()), (0, "copy", (page, 0)), (0, "release", (page,))]
        turn += [(0, "getg", (1, 0)), (0, "datum", (1, 0)), (0, "clear", (1,))]
    writing.block(5_000, turn)
    writing.demand("smallest_heap", {
        "accepted": 110_006, "cycles": 10_000, "moved_objects": 10_000, "retired_pages": 9_999, "datum": 10_000})
    return writing


def all_pages():
    """As many frames as a heap may have are used, and one more is asked for. Their pages give them up, but not their
    numbers: so all page numbers are used while a frame is free, and one more is asked for. A mark frees them."""
    writing = Writing(16, 4_096, 8_191, 1, 1, 1, 0, [(0, 1)], 2 ** 32, 1_000_000)

    def take(times):
        writing.block(times, [(0, "take", (16,)), (0, "new", (0, 0)), (0, "give", ())])
        writing.say(0, "take", 16)

    def mark():
        writing.say(0, "clear", 0)
        for command in (0, "mark"), (0, "cross"), (0, "drain"), (0, "endmark"):
            writing.say(*command)

    take(4_096)
    mark()
    writing.say(0, "protect", *range(1, 4_097))
    writing.say(0, "cross")
    for page in range(1, 4_097):
        writing.say(0, "release", page)
    take(4_095)
    mark()
    writing.say(0, "take", 16)
    writing.demand("all_pages", {"birth": 8_191, "NoFrames": 1, "NoPages": 1, "retired_pages": 4_096})
    return writing


def all_births():
    """As many objects are born as may be, and one more is asked for, by each thread."""
    writing = Writing(4_096, 40, 80, 2, 1, 1, 0, [(0, 0)], 150_000, 1_000_000)
    for _ in range(36):
        writing.block(1, [(0, "take", (4_096,))])
        writing.block(4_096, [(0, "new", (0, 0))])
        writing.say(0, "give")
    writing.say(0, "take", 4_096)
    writing.say(1, "take", 2)
    writing.block(150_000 - 36 * 4_096 - 1, [(0, "new", (0, 0))])
    writing.say(1, "new", 0, 0)
    writing.say(0, "new", 0, 0)
    writing.say(1, "new", 0, 0)
    writing.demand("all_births", {"birth": 150_000, "Births": 2})
    return writing


def main():
    for script in (many_pages, full_history, many_marks, long_list, many_moves, fragmentation, smallest_heap, all_pages,
                   all_births):
        script().write(sys.argv[1], script.__name__)


if __name__ == "__main__":
    main()
