#!/usr/bin/env python3
"""Whether the figures in README.md are those of bench/results.json: python3 tests/figures.py [write]

It prints a line for each sentence with figures, and last 'N passed, M failed'. With 'write' it first replaces the
figures of a sentence that has others; a sentence that README.md doesn't have has to be written by hand.
"""

import os
import re
import sys

TOP = os.path.join(os.path.dirname(os.path.abspath(__file__)), "..")
sys.path.insert(0, os.path.join(TOP, "bench"))

import results  # noqa: E402
from tried import report  # noqa: E402

PAGE = "README.md"
FIGURE = r"\d[\d.,]*\d|\d"


def read(path):
    with open(path, encoding="utf-8") as file:
        return file.read()


def cells(table, rows, column):
    """The numbers in a column of a table, of the rows that begin like this."""
    found = results.read().get(table, {"columns": [], "rows": []})
    if column not in found["columns"]:
        sys.exit(f"bench/results.json has no table '{table}' with a column '{column}'")
    place = found["columns"].index(column)
    taken = [row[place] for row in found["rows"] if re.match(rows, " | ".join(row))]
    return [float(cell.replace(",", "")) for cell in taken if cell not in ("", "-")]


def shared_steps():
    """Millions of steps a second on a shared heap, by the number of threads."""
    one, two, four = (cells("thread-steps", rf"portions of a `SharedHeap` \| {threads} ", "million steps a second")[0]
                      for threads in (1, 2, 4))
    return f"{one:.1f} million steps a second by one thread, {two:.1f} by two, {four:.1f} by four"


def marks():
    """How many times bdwgc's time a mark takes, of objects of two or three words."""
    found = cells("collections", r"\w+ \| [23] ", "mark over bdwgc")
    return f"{min(found)} to {max(found)} times bdwgc's time on objects of two or three words"


def lisp():
    """How many times its time on bdwgc the Lisp takes."""
    found = cells("lisp", "", "4 MiB over bdwgc")
    return f"a Lisp in C takes {min(found)} to {max(found)} times its time on bdwgc"


def sentences():
    return [shared_steps(), marks(), lisp(), f"Version {results.version()}."]


def with_figures(page, sentence):
    """The page with the figures of a sentence. What separates its words stays as it is."""
    words = [rf"(?:{FIGURE})".join(re.escape(it) for it in re.split(FIGURE, word)) for word in sentence.split()]

    def replaced(found):
        between = re.findall(r"\s+", found[0]) + [""]
        return "".join(word + space for word, space in zip(sentence.split(), between))

    return re.sub(r"\s+".join(words), replaced, page)


def main():
    os.chdir(TOP)
    page = read(PAGE)
    if sys.argv[1:] == ["write"]:
        for sentence in sentences():
            page = with_figures(page, sentence)
        with open(PAGE, "w", encoding="utf-8") as file:
            file.write(page)
    words = page.split()
    tried = {f"{PAGE} has '{sentence}'": sentence in " ".join(words) for sentence in sentences()}
    latest = re.search(r"^## (\S+)", read("CHANGELOG.md"), re.M)[1]
    tried["CHANGELOG.md begins with the version of include/pauseless.h"] = latest == results.version()
    tried[f"{PAGE} has at most 800 words: {len(words)}"] = len(words) <= 800
    sys.exit(0 if report(tried) else 1)


if __name__ == "__main__":
    main()
