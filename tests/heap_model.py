"""A model of the heap, by the rules in docs/STEPS.md and docs/SCRIPT.md, that has
nothing in common with the program: objects are Python objects here, a word is an
object with its NMT bit and a place of it, and there are no rows, no memory and no
copies. moving_model.py has the pages.
"""

from moving_model import Pages, Refused, Thing, Word, refuse_if


class Barrier:
    """A load that hasn't ended: the target register, the list that was loaded from and the index there, the
    word that was loaded, the word as it is by now, and whether it was written back."""

    def __init__(self, target, holder, index):
        self.target = target
        self.holder = holder
        self.index = index
        self.loaded = holder[index]
        self.now = self.loaded
        self.healed = False


class Thread:
    def __init__(self, registers):
        self.registers = [None] * registers
        self.buffer = None
        self.crossed = True
        self.parked = False
        self.barrier = None
        self.tally = dict.fromkeys(["loads", "gc", "nmt", "healed", "changed"], 0)


def text_of(word):
    return "-" if word is None else str(word)


def thing_of(word):
    return None if word is None else word.thing


# The commands of workers; all others are those of threads.
OF_WORKERS = ("mark", "endmark", "pick", "scan", "scang", "crossfor", "drain", "protect", "copy",
              "copyall", "release")

# The phase behind each checkpoint.
BEHIND = {"mark-crossing": "scanning", "protect-crossing": "relocating"}


class Heap:
    """A heap, with its history's length."""

    def __init__(self, words, frames, pages, threads, workers, registers, globals_, layouts, births, history):
        self.layouts = layouts
        self.most_births = births
        self.most_history = history
        self.pages = Pages(words, frames, pages)
        self.threads = [Thread(registers) for _ in range(threads)]
        self.workers = [None] * workers
        self.globals = [None] * globals_
        self.todo_globals = [False] * globals_
        self.todo_things = {}
        self.phase = "idle"
        self.nmt = 0
        self.cycles = []
        self.births = 0
        self.history = 0

    # One step of an actor, by the name of its command. It gives the answer's
    # text, or raises Refused and has changed nothing.
    def step(self, number, name, operands):
        refuse_if(self.history == self.most_history, "HistoryFull")
        refuse_if(not self.are_there(name, operands), "BadIndex")
        if name in OF_WORKERS:
            answer = getattr(self, "do_" + name)(number, *operands)
            self.history += 1
            return answer
        thread = self.threads[number]
        refuse_if(thread.parked and name != "unpark", "Parked")
        refuse_if(thread.barrier is not None and name not in ("trap", "heal", "finish"), "Busy")
        answer = getattr(self, "do_" + name)(thread, *operands)
        self.history += 1
        return answer

    # Whether the numbers name something; registers always do, in a script.
    def are_there(self, name, operands):
        if name == "take":
            return 1 <= operands[0] <= self.pages.words
        if name == "new":
            return operands[1] < len(self.layouts)
        if name == "loadg":
            return operands[1] < len(self.globals)
        if name in ("storeg", "scang"):
            return operands[0] < len(self.globals)
        if name in ("pick", "copy", "copyall", "release"):
            return 1 <= operands[0] <= self.pages.count
        if name == "protect":
            return len(set(operands)) == len(operands) and 1 <= min(operands) <= max(operands) <= self.pages.count
        return True

    def do_take(self, thread, size):
        refuse_if(thread.buffer is not None, "HasBuffer")
        page, offset = self.pages.lend(size)
        thread.buffer = (page, offset, offset + size)
        return f"lent {page}.{offset}"

    def do_give(self, thread):
        refuse_if(thread.buffer is None, "NoRoom")
        thread.buffer = None
        return "ok"

    def do_new(self, thread, target, layout):
        refs, nums = self.layouts[layout]
        size = 1 + refs + nums
        refuse_if(thread.buffer is None, "NoRoom")
        page, offset, end = thread.buffer
        refuse_if(end - offset < size, "NoRoom")
        refuse_if(self.births == self.most_births, "Births")
        thread.buffer = (page, offset + size, end)
        thing = Thing((page, offset), refs, nums)
        thing.marked = self.phase in ("mark-crossing", "scanning")
        if self.phase == "mark-crossing":
            self.todo_things[thing.place] = thing
        self.pages.put(thing)
        thread.registers[target] = Word(thing, self.nmt, thing.place)
        self.births += 1
        return f"birth {self.births - 1}"

    # Why a thread may not use a word: the page that it names is being emptied, or was. None where it may.
    def obstacle(self, thread, word):
        if word is None or not self.pages.used[word.place[0]].is_protected():
            return None
        if self.phase != "protect-crossing":
            return "Stale"
        return "Stall" if thread.crossed else None

    # The object in a register that the thread may use, or None where the register is null.
    def used_or_null(self, thread, register):
        word = thread.registers[register]
        obstacle = self.obstacle(thread, word)
        refuse_if(obstacle is not None, obstacle)
        return thing_of(word)

    def used(self, thread, register):
        refuse_if(thread.registers[register] is None, "Null")
        return self.used_or_null(thread, register)

    def do_load(self, thread, target, register, index):
        thing = self.used(thread, register)
        refuse_if(index >= len(thing.refs), "BadIndex")
        thread.barrier = Barrier(target, thing.refs, index)
        thread.tally["loads"] += 1
        return "loaded"

    def do_loadg(self, thread, target, number):
        thread.barrier = Barrier(target, self.globals, number)
        thread.tally["loads"] += 1
        return "loaded"

    # A word that a thread has loaded has still to be marked.
    def is_unmarked(self, thread, word):
        seen = self.phase == "scanning" or self.phase == "mark-crossing" and thread.crossed
        return seen and word is not None and word.nmt != self.nmt

    # A trap is due for a word that a thread has loaded.
    def is_due(self, thread, word):
        return self.obstacle(thread, word) is not None or self.is_unmarked(thread, word)

    # The word that marking leaves; its object is marked, and copied first where it wasn't.
    def mark_word(self, word):
        if word is None:
            return None
        thing = word.thing
        self.copy_first(thing, "marks")
        if not thing.marked:
            thing.marked = True
            self.todo_things[thing.place] = thing
        return Word(thing, self.nmt, thing.place)

    def copy_first(self, thing, mover):
        if thing.planned is not None:
            self.pages.copy(thing, mover)

    # The word that a thread has instead of one that it may not use; its object is copied where it wasn't.
    def moved_word(self, word):
        refuse_if(self.phase == "protect-crossing", "Stall")
        self.copy_first(word.thing, "threads")
        return word._replace(place=word.thing.place)

    def do_trap(self, thread):
        refuse_if(thread.barrier is None, "NotBusy")
        barrier = thread.barrier
        if self.obstacle(thread, barrier.now) is not None:
            barrier.now = self.moved_word(barrier.now)
            thread.tally["gc"] += 1
            return "moved"
        if self.is_unmarked(thread, barrier.now):
            barrier.now = self.mark_word(barrier.now)
            thread.tally["nmt"] += 1
            return "marked"
        return "clear"

    def do_heal(self, thread):
        refuse_if(thread.barrier is None, "NotBusy")
        barrier = thread.barrier
        refuse_if(self.is_due(thread, barrier.now), "Busy")
        barrier.healed = True
        if barrier.holder[barrier.index] != barrier.loaded:
            thread.tally["changed"] += 1
            return "changed"
        barrier.holder[barrier.index] = barrier.now
        thread.tally["healed"] += 1
        return "healed"

    def do_finish(self, thread):
        refuse_if(thread.barrier is None, "NotBusy")
        barrier = thread.barrier
        refuse_if(self.is_due(thread, barrier.now), "Busy")
        refuse_if(barrier.now != barrier.loaded and not barrier.healed, "Busy")
        thread.registers[barrier.target] = barrier.now
        thread.barrier = None
        return "ok"

    def do_store(self, thread, register, index, source):
        thing = self.used(thread, register)
        refuse_if(index >= len(thing.refs), "BadIndex")
        self.used_or_null(thread, source)
        thing.refs[index] = thread.registers[source]
        return "ok"

    def do_storeg(self, thread, number, source):
        self.used_or_null(thread, source)
        self.globals[number] = thread.registers[source]
        return "ok"

    def do_datum(self, thread, register, index):
        thing = self.used(thread, register)
        refuse_if(index >= len(thing.data), "BadIndex")
        return f"datum {thing.data[index]}"

    def do_set(self, thread, register, index, value):
        thing = self.used(thread, register)
        refuse_if(index >= len(thing.data), "BadIndex")
        thing.data[index] = value
        return "ok"

    def do_same(self, thread, left, right):
        same = self.used_or_null(thread, left) is self.used_or_null(thread, right)
        return "true" if same else "false"

    def do_null(self, thread, register):
        return "true" if thread.registers[register] is None else "false"

    def do_mov(self, thread, target, source):
        thread.registers[target] = thread.registers[source]
        return "ok"

    def do_clear(self, thread, target):
        thread.registers[target] = None
        return "ok"

    def do_cross(self, thread):
        refuse_if(self.phase not in BEHIND, "Phase")
        refuse_if(thread.crossed, "AlreadyCrossed")
        if self.phase == "mark-crossing":
            thread.registers = [self.mark_word(word) for word in thread.registers]
        thread.crossed = True
        if all(other.crossed for other in self.threads):
            self.phase = BEHIND[self.phase]
        return "ok"

    def do_scrub(self, thread, register):
        word = thread.registers[register]
        refuse_if(word is None, "Null")
        if self.obstacle(thread, word) is None:
            return "clean"
        thread.registers[register] = self.moved_word(word)
        return "moved"

    def do_park(self, thread):
        thread.parked = True
        return "ok"

    def do_unpark(self, thread):
        refuse_if(not thread.parked, "NotParked")
        thread.parked = False
        return "ok"

    def do_mark(self, worker):
        refuse_if(self.phase not in ("idle", "relocating"), "Phase")
        self.nmt = 1 - self.nmt
        self.todo_globals = [True] * len(self.globals)
        self.open_checkpoint("mark-crossing")
        return "ok"

    def open_checkpoint(self, phase):
        self.phase = phase
        for thread in self.threads:
            thread.crossed = False

    def refuse_uncrossed(self):
        for number, thread in enumerate(self.threads):
            refuse_if(not thread.crossed, f"NotCrossed {number}")

    def refuse_unless_scanning(self):
        refuse_if(self.phase not in ("mark-crossing", "scanning"), "Phase")
        self.refuse_uncrossed()

    def do_pick(self, worker, page, offset):
        self.refuse_unless_scanning()
        refuse_if((page, offset) not in self.todo_things, "NotTodo")
        thing = self.todo_things[page, offset]
        taken = any(scan is not None and scan[0] is thing for scan in self.workers)
        refuse_if(self.workers[worker] is not None or taken, "Taken")
        self.workers[worker] = (thing, 0)
        return "ok"

    def do_scan(self, worker):
        self.refuse_unless_scanning()
        refuse_if(self.workers[worker] is None, "NotTodo")
        thing, index = self.workers[worker]
        if index == len(thing.refs):
            del self.todo_things[thing.place]
            self.workers[worker] = None
            return "done"
        thing.refs[index] = self.mark_word(thing.refs[index])
        self.workers[worker] = (thing, index + 1)
        return "scanned"

    def do_scang(self, worker, number):
        self.refuse_unless_scanning()
        refuse_if(not self.todo_globals[number], "NotTodo")
        self.globals[number] = self.mark_word(self.globals[number])
        self.todo_globals[number] = False
        return "ok"

    def do_crossfor(self, worker, number):
        refuse_if(not self.threads[number].parked, "NotParked")
        return self.do_cross(self.threads[number])

    def do_endmark(self, worker):
        self.refuse_unless_scanning()
        refuse_if(any(self.todo_globals) or self.todo_things, "TodoLeft")
        for number, thread in enumerate(self.threads):
            refuse_if(thread.barrier is not None, f"Pending {number}")
        self.phase = "idle"
        self.cycles.append(self.pages.end_mark(self.lent_pages()))
        return "ended live {} retired {}".format(*self.cycles[-1])

    # The pages with a lent buffer.
    def lent_pages(self):
        return {thread.buffer[0] for thread in self.threads if thread.buffer is not None}

    def do_protect(self, worker, *numbers):
        refuse_if(self.phase != "idle", "Phase")
        objects, targets = self.pages.protect(numbers, self.lent_pages())
        self.open_checkpoint("protect-crossing")
        return f"protected objects {objects} targets {targets}"

    def do_copy(self, worker, page, entry):
        self.refuse_moving()
        return "copied {}.{}".format(*self.pages.copy_entry(page, entry))

    def do_copyall(self, worker, page):
        self.refuse_moving()
        return f"copied all {self.pages.copy_page(page)}"

    # Nothing moves while the collector is idle, or while threads cross the checkpoint of protected pages.
    def refuse_moving(self):
        refuse_if(self.phase == "idle", "Phase")
        if self.phase == "protect-crossing":
            self.refuse_uncrossed()

    def do_release(self, worker, page):
        self.refuse_moving()
        return f"released free {self.pages.release(page)}"

    # The lowest object that is todo and that no worker has; None where there is none.
    def next_todo(self):
        taken = [scan[0].place for scan in self.workers if scan is not None]
        return min((place for place in self.todo_things if place not in taken), default=None)

    # What a worker does next that drains the mark; None where nothing is left.
    def next_of_drain(self, worker):
        if self.workers[worker] is not None:
            return "scan", ()
        if True in self.todo_globals:
            return "scang", (self.todo_globals.index(True),)
        place = self.next_todo()
        return None if place is None else ("pick", place)

    # The text of 'drain'.
    def drain(self, worker):
        accepted = 0
        try:
            while True:
                found = self.next_of_drain(worker)
                if found is None:
                    return f"drained {accepted}"
                self.step(worker, *found)
                accepted += 1
        except Refused as refused:
            return f"refused {refused}"

    # The texts of a command: one, or those of a whole load.
    def command(self, number, name, operands):
        if name == "drain":
            return self.drain(number)
        texts = []
        todo = [(name if name not in ("get", "getg") else "load" + name[3:], operands)]
        try:
            while todo:
                step, given = todo.pop()
                texts.append(self.step(number, step, given))
                if name in ("get", "getg") and step != "finish":
                    todo.append((self.next_of_load(step, texts), ()))
        except Refused as refused:
            texts.append(f"refused {refused}")
        return ", ".join(texts)

    # The step of a load behind one: Trap until it is clear, Heal where one was due, Finish.
    @staticmethod
    def next_of_load(step, texts):
        if step == "heal":
            return "finish"
        if step != "trap" or texts[-1] != "clear":
            return "trap"
        return "finish" if texts == ["loaded", "clear"] else "heal"

    def report(self):
        used = f"frames {self.pages.frames - len(self.pages.free)}/{self.pages.frames}"
        lines = [f"phase {self.phase} nmt {self.nmt} births {self.births} {used}"]
        lines += [f"page {number} {page}" for number, page in sorted(self.pages.used.items())]
        for number, thread in enumerate(self.threads):
            state = "parked" if thread.parked else "running" if thread.barrier is None else "loading"
            buffer = "-" if thread.buffer is None else "{}.{}-{}".format(*thread.buffer)
            registers = "".join(f" r{i} {text_of(word)}" for i, word in enumerate(thread.registers))
            lines.append(f"thread {number} {state} buffer {buffer}{registers}")
        lines += [f"global {i} {text_of(word)}" for i, word in enumerate(self.globals)]
        lines += ["cycle {} live {} retired {}".format(k + 1, *cycle) for k, cycle in enumerate(self.cycles)]
        for number, thread in enumerate(self.threads):
            lines.append(f"barrier {number} " + " ".join(f"{name} {count}" for name, count in thread.tally.items()))
        return lines
