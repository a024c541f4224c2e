#!/usr/bin/env python3
"""Makes one HTML file of a long run's counts: python3 film/plot.py TITLE < COUNTS > FILE

The counts are the output of the program 'script_states' with a number of commands; docs/FILM.md describes it. The file
is self-contained.
"""

import os
import sys

from states import Fault, pairs_of

FOLDER = os.path.dirname(os.path.abspath(__file__))
PHASES = {"idle": "#8c99a5", "mark-crossing": "#6aa7d8", "scanning": "#1f5f99", "protect-crossing": "#e39a52",
          "relocating": "#c25e00"}
STATES = {"open": "#2b8a57", "closed": "#5b6b7c", "from": "#c25e00"}
LENT, LIVE, GONE = "#6b4fb3", "#0e7490", "#a3324a"


def read_sizes(words):
    return {name: int(number) for name, number in pairs_of(words).items()}


def read_counts(words):
    """The counts of one line, by their names; 'at' is the number of commands that were done."""
    found = pairs_of(["at"] + words)
    phase = found.pop("phase")
    found["frames"] = found["frames"].split("/")[0]
    return {"phase": phase, **{name: int(number) for name, number in found.items()}}


def read(lines):
    """The sizes of the heap, and the counts in order."""
    sizes, counts = None, []
    for line in lines:
        word, *words = line.split()
        if word == "heap":
            sizes = read_sizes(words)
        elif word == "counts":
            counts.append(read_counts(words))
        elif word != "layout":
            raise Fault(f"unknown line: {line.rstrip()}")
    if sizes is None or not counts:
        raise Fault("no counts")
    return sizes, counts


class Panel:
    """A part of a chart: its edges, and what stands at its right and upper edge."""

    def __init__(self, left, top, right, bottom, most_x, most_y):
        self.left, self.top, self.right, self.bottom = left, top, right, bottom
        self.most_x, self.most_y = max(most_x, 1), max(most_y, 1)

    def x(self, value):
        return round(self.left + (self.right - self.left) * value / self.most_x, 1)

    def y(self, value):
        return round(self.bottom - (self.bottom - self.top) * value / self.most_y, 1)

    def steps(self, points):
        """A line through points: each value stays up to the next one."""
        at, value = points[0]
        path = [f"M{self.x(at)} {self.y(value)}"]
        for at, new in points[1:]:
            if new != value:
                path.append(f"H{self.x(at)}V{self.y(new)}")
                value = new
        path.append(f"H{self.x(points[-1][0])}")
        return "".join(path)

    def line(self, points, colour, dash=""):
        dashed = f' stroke-dasharray="{dash}"' if dash else ""
        return f'<path d="{self.steps(points)}" fill="none" stroke="{colour}" stroke-width="2"{dashed}/>'

    def area(self, points, colour):
        path = f"{self.steps(points)}V{self.bottom}H{self.left}Z"
        return f'<path d="{path}" fill="{colour}" fill-opacity="0.85"/>'

    def axis(self, name, step):
        """Lines across with their values, and the panel's name above it."""
        parts = [f'<text class="head" x="{self.left}" y="{self.top - 10}">{name}</text>']
        for value in range(0, self.most_y + 1, step):
            y = self.y(value)
            parts.append(f'<path d="M{self.left} {y}H{self.right}" stroke="#dfe6ec" stroke-width="1"/>')
            parts.append(f'<text class="soft" x="{self.left - 6}" y="{y + 4}" text-anchor="end">{value}</text>')
        return parts

    def below(self, count):
        """Numbers of commands below the panel, some so many of them."""
        step = round_step(self.most_x, count)
        return [f'<text class="soft" x="{self.x(at)}" y="{self.bottom + 18}" text-anchor="middle">{at}</text>'
                for at in range(0, self.most_x + 1, step)]


def round_step(most, count):
    """A round number of which at most so many make up the most."""
    step = 1
    while most > step * count:
        step = step * 5 // 2 if str(step)[0] == "2" else step * 2
    return step


def stacked(counts, names):
    return [(count["at"], sum(count[name] for name in names)) for count in counts]


def frames_of(panel, sizes, counts):
    """The frames in use, by the states of their pages; and the numbers of pages that are gone."""
    parts = panel.axis("frames in use", round_step(sizes["frames"], 8))
    names = list(STATES)
    for last in range(len(names), 0, -1):
        parts.append(panel.area(stacked(counts, names[:last]), STATES[names[last - 1]]))
    if any(count["gone"] for count in counts):
        parts.append(panel.line(stacked(counts, ["gone"]), GONE, "2 3"))
    return parts


def words_of(panel, counts):
    """The words that were lent, and those that the last mark has found to live."""
    parts = panel.axis("words", round_step(panel.most_y, 6))
    parts.append(panel.line(stacked(counts, ["lent"]), LENT))
    parts.append(panel.line(stacked(counts, ["live"]), LIVE))
    return parts


def stays(counts):
    """Each stay in a phase: the phase, and how many commands were done when it began and when it ended."""
    start = counts[0]
    for count in counts[1:]:
        if count["phase"] != start["phase"]:
            yield start["phase"], start["at"], count["at"]
            start = count
    yield start["phase"], start["at"], counts[-1]["at"]


def phases_of(panel, counts):
    """A row for each phase, with a box for each stay in it."""
    high = (panel.bottom - panel.top) / len(PHASES)
    tops = {phase: panel.top + high * row for row, phase in enumerate(PHASES)}
    parts = [f'<text class="head" x="{panel.left}" y="{panel.top - 8}">phase</text>']
    for phase, top in tops.items():
        parts.append(f'<path d="M{panel.left} {top + high}H{panel.right}" stroke="#dfe6ec" stroke-width="1"/>')
        parts.append(f'<text class="soft" x="{panel.left - 6}" y="{top + high - 4}" text-anchor="end">{phase}</text>')
    for phase, begin, end in stays(counts):
        left, right = panel.x(begin), panel.x(end)
        parts.append(f'<rect x="{left}" y="{tops[phase] + 2}" width="{max(0.8, right - left):.1f}" height="{high - 3}"'
                     f' fill="{PHASES[phase]}"/>')
    return parts


def chart(kind, width, height, sizes, counts):
    """A chart of so many units: the frames, the words, and the phases."""
    last = counts[-1]["at"]
    left, right = 108, width - 16
    middle, low = 40 + (height - 200) * 0.46, height - 160
    frames = Panel(left, 36, right, middle - 22, last, sizes["frames"])
    words = Panel(left, middle + 22, right, low, last, sizes["frames"] * sizes["words"])
    phases = Panel(left, low + 32, right, low + 112, last, 1)
    parts = frames_of(frames, sizes, counts) + words_of(words, counts) + phases_of(phases, counts)
    parts += phases.below(max(3, (width - left) // 100))
    parts.append(f'<text class="soft" x="{(left + right) / 2}" y="{height - 8}" text-anchor="middle">commands</text>')
    return f'<svg class="{kind}" viewBox="0 0 {width} {height}" role="img">{"".join(parts)}</svg>'


def keys():
    """What the colours mean."""
    named = [(colour, f"{name} page") for name, colour in STATES.items()]
    named += [(GONE, "dots: pages that are gone, numbers without a frame"),
              (LENT, "words that were lent, or are kept for copies"), (LIVE, "words of what the last mark has found")]
    return "".join(f'<li><span style="background:{colour}"></span>{name}</li>' for colour, name in named)


def words_on(sizes, counts):
    """What is said above the charts."""
    last = counts[-1]
    most = max(count["frames"] for count in counts)
    return (f"{last['at']} commands on a heap of {sizes['frames']} frames of {sizes['words']} words;"
            f" {last['births']} objects were born. {most} frames were in use at most.")


def page_of(title, sizes, counts):
    with open(os.path.join(FOLDER, "plot.html"), encoding="utf-8") as file:
        page = file.read()
    charts = chart("wide", 1200, 600, sizes, counts) + "\n" + chart("narrow", 390, 640, sizes, counts)
    page = page.replace("TITLE", title.replace("&", "&amp;").replace("<", "&lt;"))
    return page.replace("WORDS", words_on(sizes, counts)).replace("CHARTS", charts).replace("KEYS", keys())


def main(title):
    try:
        sizes, counts = read(sys.stdin)
    except (Fault, KeyError, ValueError, IndexError) as fault:
        sys.exit(f"plot.py: these are no counts: {fault}")
    sys.stdout.write(page_of(title, sizes, counts))


if __name__ == "__main__":
    if len(sys.argv) != 2:
        sys.exit("usage: python3 film/plot.py TITLE < COUNTS > FILE")
    main(sys.argv[1])
