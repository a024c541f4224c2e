#!/usr/bin/env python3
"""Makes one HTML file of the states of a heap: python3 film/film.py TITLE < STATES > FILE

The states are the output of the program 'script_states', which docs/FILM.md describes. The file is self-contained.
"""

import json
import os
import sys

from sentences import sentence
from states import Fault, Film

FOLDER = os.path.dirname(os.path.abspath(__file__))
SCRIPTS = ("heap.js", "side.js", "lines.js", "film.js")
FIRST = "The heap as it is made: all pages are unused, all frames are free, and no mark runs."


def part(name):
    with open(os.path.join(FOLDER, name), encoding="utf-8") as file:
        return file.read()


def shots_of(film):
    """The shots as the page has them: each with the number of its command, from 1, and of its state; and the states, of
    which one that is as the one before isn't there twice."""
    shots, states, before = [], [], film.shots[0]["state"]
    for shot in film.shots:
        if not states or shot["state"] != states[-1]:
            states.append(shot["state"])
        command = shot["command"]
        text = FIRST if command is None else sentence(shot["step"], shot["reply"], before, shot["state"])
        shots.append({"command": command and command["number"], "step": shot["step"], "reply": shot["reply"],
                      "sentence": text, "state": len(states) - 1})
        before = shot["state"]
    return shots, states


def commands_of(film):
    """The commands of the shots, each once and in order."""
    found = {shot["command"]["number"]: shot["command"] for shot in film.shots if shot["command"] is not None}
    return [found[number] for number in sorted(found)]


def data_of(film):
    """What the page draws, as a text that may stand in a script of it."""
    shots, states = shots_of(film)
    data = {"sizes": film.sizes, "layouts": film.layouts, "commands": commands_of(film), "shots": shots,
            "states": states}
    return json.dumps(data, separators=(",", ":"), sort_keys=True).replace("<", "\\u003c")


def page_of(title, film):
    """The whole page."""
    page = part("film.html").replace("STYLE\n", part("film.css"))
    page = page.replace("TITLE", title.replace("&", "&amp;").replace("<", "&lt;"))
    page = page.replace("SCRIPT\n", "\n".join(part(name) for name in SCRIPTS))
    return page.replace("DATA;", data_of(film) + ";")


def main(title):
    try:
        film = Film(sys.stdin)
    except (Fault, KeyError, ValueError, IndexError) as fault:
        sys.exit(f"film.py: these are no states: {fault}")
    sys.stdout.write(page_of(title, film))


if __name__ == "__main__":
    if len(sys.argv) != 2:
        sys.exit("usage: python3 film/film.py TITLE < STATES > FILE")
    main(sys.argv[1])
