#!/usr/bin/env python3
"""Compares the states that the program 'script_states' writes with those of the model in heap_model.py, which has
nothing in common with the program, and makes films and plots of them:

    python3 tests/filmed.py STATES PAUSELESS FOLDER SCRIPT..

STATES and PAUSELESS are the two programs, FOLDER is where films and plots are written. Of each script all lines are
compared, but for what an object holds that has been copied away, of which the model has one copy alone; its answers
and its last state with what 'run' prints. The last line is 'N passed, M failed'.
"""

import os
import subprocess
import sys

from heap_model import OF_WORKERS, Heap, Refused, text_of

sys.path.insert(0, os.path.join(os.path.dirname(os.path.abspath(__file__)), "..", "film"))
from film import page_of as film_of
from plot import page_of as plot_of, read as read_counts
from states import Film

# Which operands of a step are registers.
REGISTERS = {"new": [0], "load": [0, 1], "loadg": [0], "store": [0, 2], "storeg": [1], "datum": [0], "set": [0],
             "same": [0, 1], "null": [0], "mov": [0, 1], "clear": [0], "scrub": [0]}


def operand_of(word):
    """A number, a register's, a thread's or a worker's number, or a place."""
    if "." in word:
        return [int(part) for part in word.split(".")]
    return [int(word.lstrip("rtw"))]


class Script:
    """The heap of the model that a script begins with, and its commands as texts, with blocks written out."""

    def __init__(self, text):
        lines = [line for line in text.split("\n") if line and not line.startswith("#")]
        words = lines[0].split(" ")
        self.sizes = dict(zip(words[1::2], map(int, words[2::2])))
        self.layouts = [tuple(map(int, line.split(" ")[1:])) for line in lines[1:] if line.startswith("layout ")]
        self.commands, block = [], None
        for line in lines[1 + len(self.layouts):]:
            if line.startswith("times "):
                block = (int(line.split(" ")[1]), [])
            elif line == "end":
                self.commands += block[0] * block[1]
                block = None
            else:
                (self.commands if block is None else block[1]).append(line)

    def heap(self):
        sizes = self.sizes
        return Heap(sizes["words"], sizes["frames"], sizes["pages"], sizes["threads"], sizes["workers"],
                    sizes["registers"], sizes["globals"], self.layouts, sizes.get("births", 2 ** 32),
                    sizes.get("history", 1_000_000))


class Told(Heap):
    """The model's heap, which tells each of its steps."""

    def __init__(self, heap, tell):
        self.__dict__ = heap.__dict__
        self.tell = tell

    def step(self, number, name, operands):
        try:
            answer = super().step(number, name, operands)
        except Refused as refused:
            self.tell(number, name, operands, f"refused {refused}")
            raise
        if name == "new":
            thing = self.threads[number].registers[operands[0]].thing
            thing.birth, thing.layout = self.births - 1, operands[1]
        self.tell(number, name, operands, answer)
        return answer


def lines_of_object(heap, number, offset):
    """The line of an object as far as the model knows it, and whether it knows what it holds."""
    page, thing = heap.pages.used[number], heap.pages.used[number].things[offset]
    is_here = thing.place == (number, offset)
    live = int(any(found is thing for found in page.live))
    mark, todo = int(is_here and thing.marked), int((number, offset) in heap.todo_things)
    line = f"object {number}.{offset} birth {thing.birth} layout {thing.layout} live {live} mark {mark} todo {todo}"
    refs = "".join(f" {text_of(word)}" for word in thing.refs)
    return (f"{line} refs{refs} data" + "".join(f" {datum}" for datum in thing.data)) if is_here else f"{line} refs .."


def lines_of_pages(heap):
    for number, page in sorted(heap.pages.used.items()):
        if page.frame is not None:
            yield from (lines_of_object(heap, number, offset) for offset in sorted(page.things))
        if not page.is_protected():
            continue
        offsets = {id(thing): offset for offset, thing in page.things.items()}
        for entry, thing in enumerate(page.live):
            place = thing.place if thing.planned is None else thing.planned
            yield "entry {} {} from {}.{} to {}.{} {}".format(
                number, entry, number, offsets[id(thing)], *place, "copied" if thing.planned is None else "planned")


def place_of(heap, barrier):
    """Where a load has its word from: a global, or a reference of the object whose list it is."""
    if barrier.holder is heap.globals:
        return f"global {barrier.index}"
    for number, page in sorted(heap.pages.used.items()):
        for offset, thing in page.things.items():
            if thing.refs is barrier.holder and thing.place == (number, offset):
                return f"field {number}.{offset}.{barrier.index}"
    return "nowhere"


def lines_of_threads(heap):
    for number, thread in enumerate(heap.threads):
        yield f"crossed {number} {int(thread.crossed)}"
        barrier = thread.barrier
        if barrier is not None:
            yield (f"load {number} r{barrier.target} {place_of(heap, barrier)} raw {text_of(barrier.loaded)}"
                   f" now {text_of(barrier.now)} healed {int(barrier.healed)}")


def lines_of_workers(heap):
    for number, scan in enumerate(heap.workers):
        place = None if scan is None else "{}.{}".format(*scan[0].place)
        yield f"worker {number} " + ("-" if scan is None else f"{place} next {scan[1]}")
    yield from (f"todo {number}" for number, todo in enumerate(heap.todo_globals) if todo)


def state_of(heap):
    return [*heap.report(), *lines_of_pages(heap), *lines_of_threads(heap), *lines_of_workers(heap)]


def first_lines(script):
    names = ["words", "frames", "pages", "threads", "workers", "registers", "globals"]
    yield "heap " + " ".join(f"{name} {script.sizes[name]}" for name in names)
    yield from (f"layout {refs} {nums}" for refs, nums in script.layouts)


def text_of_step(number, name, operands):
    """A step as a script has it."""
    registers = REGISTERS.get(name, [])
    words = [f"r{operand}" if index in registers else str(operand) for index, operand in enumerate(operands)]
    if name == "pick":
        words = [".".join(words)]
    if name == "crossfor":
        words = ["t" + words[0]]
    return " ".join([f"{'w' if name in OF_WORKERS else 't'}{number}", name] + words)


def worked_out(script):
    """The lines that the program is to write for a script, and what 'run' is to print."""
    lines, output = list(first_lines(script)), []

    def tell(number, name, operands, reply):
        lines.append(f"step {text_of_step(number, name, operands)}")
        lines.append(f"reply {reply}")
        lines.extend(state_of(heap))

    heap = Told(script.heap(), tell)
    lines += state_of(heap)
    for number, text in enumerate(script.commands, 1):
        actor, name, *operands = text.split(" ")
        lines.append(f"command {number} {text}")
        said = heap.command(int(actor[1:]), name, tuple(part for word in operands for part in operand_of(word)))
        lines.append(f"answer {number} {actor} {said}")
        output.append(f"{number} {actor} {said}")
    return lines, output + heap.report()


def live_words(film, state):
    """How many words the objects have that the last mark has found: those of pages that have given their memory up are
    where their side arrays lead."""
    sizes = {f"{page['number']}.{thing['offset']}": 1 + sum(film.layouts[thing["layout"]])
             for page in state["pages"] for thing in page["objects"]}
    found = [f"{page['number']}.{thing['offset']}" for page in state["pages"] for thing in page["objects"]
             if "live" in thing["bits"]]
    moved = [entry["to"] for page in state["pages"] if page["frame"] is None for entry in page["entries"]]
    return sum(sizes[place] for place in found + moved)


def counts_of(lines):
    """The lines of counts that stand for the states in these lines, where each command has one."""
    film, done = Film(lines), {}
    for shot in film.shots:
        done[shot["command"]["number"] if shot["command"] else 0] = shot["state"]
    for number, state in sorted(done.items()):
        pages = state["pages"]
        states = " ".join(f"{name} {sum(page['state'] == name for page in pages)}"
                          for name in ("open", "closed", "from", "gone"))
        lent = sum(page["top"] for page in pages if page["frame"] is not None)
        yield (f"counts {number} phase {state['phase']} nmt {state['nmt']} births {state['births']}"
               f" frames {state['used']}/{state['frames']} {states} lent {lent} live {live_words(film, state)}")


def are_alike(wanted, got):
    """Whether a line is as it was worked out, as far as it was."""
    return got.startswith(wanted[:-len("..")]) if wanted.endswith(" refs ..") else got == wanted


def first_difference(what, wanted, got):
    """The first line that differs, as a text; none where none does."""
    for number, (left, right) in enumerate(zip(wanted, got), 1):
        if not are_alike(left, right):
            return f"{what}, line {number}: wanted '{left}', got '{right}'"
    return None if len(wanted) == len(got) else f"{what}: wanted {len(wanted)} lines, got {len(got)}"


def ran(*words):
    """The lines that a program has written; where it failed, its errors behind them."""
    done = subprocess.run(words, capture_output=True, check=False, text=True)
    failure = [] if done.returncode == 0 else [f"status {done.returncode}: {done.stderr}"]
    return done.stdout.splitlines() + failure


def told_by(lines):
    """What 'run' has to print, as states have it: the answers, and the report of the last state."""
    answers = [line.removeprefix("answer ") for line in lines if line.startswith("answer ")]
    last = max(number for number, line in enumerate(lines) if line.startswith("phase "))
    names = ("phase", "page", "thread", "global", "cycle", "barrier")
    return answers + [line for line in lines[last:] if line.split(" ")[0] in names]


def pages_of(folder, name, lines, counts):
    """Writes the film and the plot of a script. What is wrong with them, as a text; none where nothing is."""
    film = Film(lines)
    pages = {"film": film_of(name, film), "plot": plot_of(name, *read_counts(counts))}
    for kind, page in pages.items():
        with open(os.path.join(folder, f"{name}.{kind}.html"), "w", encoding="utf-8") as file:
            file.write(page)
        if "http:" in page.replace("http://www.w3.org/2000/svg", "") or "https:" in page or " src=" in page:
            return f"the {kind} names something outside"
    steps = sum(line.startswith("step ") for line in lines)
    if pages["film"].count('"sentence":"') < steps + 1:
        return "the film lacks sentences"
    return None


def fault_of(programs, folder, path):
    """What is wrong with a script's states, its film or its plot; none where nothing is."""
    states, pauseless = programs
    with open(path, encoding="utf-8") as file:
        script = Script(file.read())
    wanted, output = worked_out(script)
    lines, counts = ran(states, path), ran(states, path, "1")
    head = 1 + len(script.layouts)
    return (first_difference("states", wanted, lines) or first_difference("the model's output", output, told_by(lines))
            or first_difference("run", ran(pauseless, "run", path), told_by(lines))
            or first_difference("counts", [*wanted[:head], *counts_of(lines)], counts)
            or pages_of(folder, path.removesuffix(".script").replace("/", "_"), lines, counts))


def main(states, pauseless, folder, paths):
    failed = 0
    for path in paths:
        fault = fault_of((states, pauseless), folder, path)
        if fault is not None:
            print(f"failed: {path}: {fault}")
            failed += 1
    print(f"{len(paths) - failed} passed, {failed} failed")
    sys.exit(0 if failed == 0 else 1)


if __name__ == "__main__":
    main(sys.argv[1], sys.argv[2], sys.argv[3], sys.argv[4:])
