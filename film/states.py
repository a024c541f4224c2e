"""Reads the output of the program 'script_states'; docs/FILM.md describes the lines."""

import re


class Fault(Exception):
    """The text isn't one of states."""


def pairs_of(words):
    """Names and what stands behind each, as in 'nmt 0 births 1'."""
    return dict(zip(words[::2], words[1::2]))


class State:
    """A state of the heap: plain lists and dictionaries, as the page of the film has them."""

    def __init__(self):
        self.value = {"pages": [], "threads": [], "globals": [], "workers": [], "cycles": []}

    def page(self, number):
        return next(page for page in self.value["pages"] if page["number"] == number)

    def read_phase(self, words):
        found = pairs_of(["phase"] + words)
        used, frames = found["frames"].split("/")
        self.value.update(phase=found["phase"], nmt=int(found["nmt"]), births=int(found["births"]),
                          used=int(used), frames=int(frames))

    def read_page(self, words):
        found = pairs_of(words[2:])
        frame = None if found["frame"] == "-" else int(found["frame"])
        self.value["pages"].append({"number": int(words[0]), "state": words[1], "frame": frame,
                                    "top": int(found["top"]), "objects": [], "entries": []})

    def read_thread(self, words):
        found = pairs_of(words[2:])
        buffer = re.fullmatch(r"(\d+)\.(\d+)-(\d+)", found.pop("buffer"))
        self.value["threads"].append({
            "state": words[1], "registers": list(found.values()), "crossed": True, "load": None,
            "buffer": [int(number) for number in buffer.groups()] if buffer else None})

    def read_global(self, words):
        self.value["globals"].append({"word": words[1], "todo": False})

    def read_cycle(self, words):
        found = pairs_of(words[1:])
        self.value["cycles"].append([int(found["live"]), int(found["retired"])])

    def read_barrier(self, words):
        found = pairs_of(words[1:])
        self.value["threads"][int(words[0])]["tally"] = {name: int(count) for name, count in found.items()}

    def read_object(self, words):
        page, offset = words[0].split(".")
        refs, data = words.index("refs"), words.index("data")
        found = pairs_of(words[1:refs])
        self.page(int(page))["objects"].append({
            "offset": int(offset), "birth": int(found["birth"]), "layout": int(found["layout"]),
            "bits": [name for name in ("live", "mark", "todo") if found[name] == "1"],
            "refs": words[refs + 1:data], "data": words[data + 1:]})

    def read_entry(self, words):
        offset = int(words[3].split(".")[1])
        self.page(int(words[0]))["entries"].append({"offset": offset, "to": words[5], "copied": words[6] == "copied"})

    def read_crossed(self, words):
        self.value["threads"][int(words[0])]["crossed"] = words[1] == "1"

    def read_load(self, words):
        found = pairs_of(words[2:])
        place = "global " + found["global"] if "global" in found else "field " + found["field"]
        self.value["threads"][int(words[0])]["load"] = {
            "target": words[1], "place": place, "raw": found["raw"], "now": found["now"],
            "healed": found["healed"] == "1"}

    def read_worker(self, words):
        scan = None if words[1] == "-" else {"object": words[1], "next": int(words[3])}
        self.value["workers"].append(scan)

    def read_todo(self, words):
        self.value["globals"][int(words[0])]["todo"] = True

    def read(self, line):
        word, *words = line.split(" ")
        reader = getattr(self, "read_" + word, None)
        if reader is None:
            raise Fault(f"unknown line: {line}")
        reader(words)


class Film:
    """The sizes of a heap, its layouts as pairs of references and data, and the shots: the first state, and then one
    for each step, with the command and the step that led there and what these answered."""

    def __init__(self, lines):
        self.sizes = {}
        self.layouts = []
        self.shots = []
        self.command = None
        self.state = None
        for line in lines:
            self.read(line.rstrip("\n"))
        if not self.shots:
            raise Fault("no state")

    def begin(self, step):
        self.state = State()
        self.shots.append({"command": self.command, "step": step, "reply": None, "state": self.state.value})

    def read(self, line):
        word, _, rest = line.partition(" ")
        if word == "heap":
            self.sizes = {name: int(number) for name, number in pairs_of(rest.split(" ")).items()}
        elif word == "layout":
            self.layouts.append([int(number) for number in rest.split(" ")])
        elif word == "command":
            number, _, text = rest.partition(" ")
            self.command = {"number": int(number), "text": text, "answer": None}
        elif word == "step":
            self.begin(rest)
        elif word == "reply":
            self.shots[-1]["reply"] = rest
        elif word == "answer":
            self.end_command(rest)
        else:
            if not self.shots:
                self.begin(None)
            self.state.read(line)

    def end_command(self, answer):
        """A command ends. One without a step, as a drain that finds nothing, has the state before it."""
        self.command["answer"] = answer.split(" ", 2)[2]
        if self.shots[-1]["command"] is not self.command:
            self.shots.append({"command": self.command, "step": None, "reply": None, "state": self.shots[-1]["state"]})
