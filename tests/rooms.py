#!/usr/bin/env python3
"""Draws the module groups of crates.txt and writes the tables of crates: python3 tests/rooms.py draw|check.

A line '# NAME: WORDS' of crates.txt begins a group, a room, of the crates after it; those after another heading, as a
user's own, are in none. 'draw' writes docs/rooms.svg, and in docs/ARCHITECTURE.md the table below each
heading '### NAME' but those of tests and benches: a row for each crate, with the first sentence of its root file.
'check' reports whether both are what would be written, and whether each crate depends on crates above it alone; its
last line is 'N passed, M failed'.
"""

import itertools
import os
import re
import sys

from tried import report

PICTURE = "docs/rooms.svg"
PAGE = "docs/ARCHITECTURE.md"

# The rooms without a table.
UNLISTED = ("Tests", "Benches")

# The place of a room in the picture: its left edge, its row from the top, and its width, of 12.
PLACES = {
    "Tests": (0, 0, 8), "Benches": (8, 0, 4),
    "Scripts": (0, 1, 7), "Library": (7, 1, 5),
    "Sharing": (0, 2, 6), "Verifier": (6, 2, 6),
    "Heap and steps": (0, 3, 12),
    "Words and pages": (0, 4, 7), "Theory": (7, 4, 5),
    "Definitions": (0, 5, 12),
}
COLUMN, GAP, MARGIN = 75, 24, 8
# A room's height without the names of its crates, and that of a line of names.
HEAD, LINE = 62, 17
STYLE = """
  text { font-family: sans-serif; fill: #1b2733; }
  .name { font-size: 17px; font-weight: bold; }
  .words { font-size: 12px; fill: #5a6b7b; }
  .crate { font-size: 13px; font-family: monospace; }
  .room { fill: #f3f7fb; stroke: #4a7ba6; stroke-width: 1.5; }
  .arrow { stroke: #4a7ba6; stroke-width: 1.5; marker-end: url(#head); }
"""


def rooms():
    """The rooms in order: the words of each, and its crates with what they depend on."""
    found, room = {}, None
    with open("crates.txt", encoding="utf-8") as lines:
        for line in lines:
            heading = re.fullmatch(r"# ([\w ]+): (.*)\n", line)
            crate = re.fullmatch(r"(\w+)(?: staticlib)?:(.*)\n", line)
            if heading:
                room = heading[1] if heading[1] in PLACES else None
                if room:
                    found[room] = (heading[2], {})
            elif crate and room:
                found[room][1][crate[1]] = crate[2].split()
    return found


def room_of(found):
    """The room of each crate."""
    return {crate: room for room, (_, crates) in found.items() for crate in crates}


def is_near(upper, lower):
    """Whether two rooms are in one row of the picture, or in rows next to each other."""
    return PLACES[lower][1] - PLACES[upper][1] <= 1


def below(found):
    """The rooms that each room depends on. One that is far from it is left out if another of them depends on it."""
    of = room_of(found)
    direct = {room: {of[it] for on in crates.values() for it in on if it in of} - {room}
              for room, (_, crates) in found.items()}
    every = {}
    for room in found:
        every[room] = set().union(direct[room], *(every[it] for it in direct[room]))
    return {room: [it for it in found if it in direct[room]
                   and (is_near(room, it) or not any(it in every[other] for other in direct[room]))] for room in found}


def rows_of(crates, width):
    """The names of crates, in lines that a box of a width holds."""
    lines = [[]]
    for crate in crates:
        if len("  ".join(lines[-1] + [crate])) * 7.9 > width - 24:
            lines.append([])
        lines[-1].append(crate)
    return ["  ".join(line) for line in lines]


def heights(found):
    """The height of each row of the picture: that of the room in it which has the most lines of names."""
    tallest = {}
    for room, (_, crates) in found.items():
        _, row, width = PLACES[room]
        lines = len(rows_of(crates, width * COLUMN - GAP))
        tallest[row] = max(tallest.get(row, 0), HEAD + lines * LINE)
    return [tallest[row] for row in sorted(tallest)]


def box(room, tall):
    """Left, top, width and height of a room's box, by the heights of the rows."""
    left, row, width = PLACES[room]
    return (MARGIN + left * COLUMN + GAP // 2, MARGIN + sum(tall[:row]) + row * GAP, width * COLUMN - GAP, tall[row])


def drawn_room(room, words, crates, tall):
    """The box of a room, with its name and its crates."""
    left, top, width, height = box(room, tall)
    yield f'<rect class="room" x="{left}" y="{top}" width="{width}" height="{height}" rx="8"/>'
    yield f'<text class="name" x="{left + 12}" y="{top + 24}">{room}</text>'
    yield f'<text class="words" x="{left + 12}" y="{top + 42}">{words}</text>'
    for number, line in enumerate(rows_of(crates, width)):
        yield f'<text class="crate" x="{left + 12}" y="{top + HEAD + LINE * number}" xml:space="preserve">{line}</text>'


def drawn_arrow(upper, lower, tall):
    """The arrow from a room to one that it depends on: down, or to the side if both are in one row."""
    left, top, width, height = box(upper, tall)
    to_left, to_top, to_width, _ = box(lower, tall)
    if top == to_top:
        y = top + height // 2
        ends = (left, y, to_left + to_width + 2, y) if to_left < left else (left + width, y, to_left - 2, y)
    else:
        x = (max(left, to_left) + min(left + width, to_left + to_width)) // 2
        ends = (x, top + height, x, to_top - 2)
    return '<line class="arrow" x1="{}" y1="{}" x2="{}" y2="{}"/>'.format(*ends)


def picture(found):
    """The picture, as text."""
    tall = heights(found)
    width = 2 * MARGIN + 12 * COLUMN
    height = 2 * MARGIN + sum(tall) + (len(tall) - 1) * GAP
    parts = [f'<svg xmlns="http://www.w3.org/2000/svg" viewBox="0 0 {width} {height}" role="img">',
             "<title>The module groups: an arrow goes to a group that this one depends on</title>",
             f"<style>{STYLE}</style>",
             '<defs><marker id="head" viewBox="0 0 8 8" refX="7" refY="4" markerWidth="7" markerHeight="7" '
             'orient="auto"><path d="M0,0 L8,4 L0,8 z" fill="#4a7ba6"/></marker></defs>',
             f'<rect width="{width}" height="{height}" fill="#ffffff"/>']
    for upper, rooms_below in below(found).items():
        parts += [drawn_arrow(upper, lower, tall) for lower in rooms_below]
    for room, (words, crates) in found.items():
        parts += drawn_room(room, words, crates, tall)
    return "\n".join(parts) + "\n</svg>\n"


def order_faults(found):
    """The crates that depend on one which isn't above them."""
    above, every = set(), room_of(found)
    for _, crates in found.values():
        for crate, on in crates.items():
            yield from (f"{crate} depends on {it}" for it in on if it in every and it not in above)
            above.add(crate)


def sentence(crate):
    """The first sentence of a crate's root file, without where its subject comes from, and without a full stop."""
    folder = os.path.join("crates", crate, "src")
    root = next(it for it in (os.path.join(folder, name) for name in ("lib.rt", "main.rt")) if os.path.exists(it))
    with open(root, encoding="utf-8") as lines:
        text = [line[3:].strip() for line in itertools.takewhile(lambda line: re.match(r"//! *\S", line), lines)]
    text = re.sub(r" \((ours|the paper)[^)]*\)", "", " ".join(text))
    return re.split(r"\.(?: |$)", text)[0]


def table(crates):
    return "".join(["| Crate | Description |\n|---|---|\n", *(f"| `{crate}` | {sentence(crate)} |\n" for crate in crates)])


def page_of(found, page):
    """The page with the table of each room as it has to be; none of those in UNLISTED."""
    for room, (_, crates) in found.items():
        below_heading = rf"(### {room}\n(?:(?!#|\|).*\n)*)(?:\|.*\n)*"
        rows = "" if room in UNLISTED else table(crates)
        page = re.sub(below_heading, lambda it, rows=rows: it[1] + rows, page)
    return page


def read(path):
    """What a file holds; nothing, where there is none."""
    if not os.path.exists(path):
        return ""
    with open(path, encoding="utf-8") as file:
        return file.read()


def check(found):
    """Whether the picture and the page are up to date, and the crates in order."""
    tried = {
        f"{PICTURE} is what is drawn": read(PICTURE) == picture(found),
        "each crate depends on crates above it alone": not list(order_faults(found)),
        f"{PAGE} has a heading for each room": all(f"\n### {room}\n" in read(PAGE) for room in found),
        f"{PAGE} has the tables that are written": read(PAGE) == page_of(found, read(PAGE)),
    }
    return report(tried)


def main():
    os.chdir(os.path.join(os.path.dirname(os.path.abspath(__file__)), ".."))
    found = rooms()
    if sys.argv[1:] == ["draw"]:
        page = page_of(found, read(PAGE))
        for path, text in (PICTURE, picture(found)), (PAGE, page):
            with open(path, "w", encoding="utf-8") as file:
                file.write(text)
    elif sys.argv[1:] == ["check"]:
        sys.exit(0 if check(found) else 1)
    else:
        sys.exit("python3 tests/rooms.py draw|check")


if __name__ == "__main__":
    main()
