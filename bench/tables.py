#!/usr/bin/env python3
"""Writes the tables of bench/results.json into docs/*.md and bench/RESULTS.md: python3 bench/tables.py write|check

A table is on a page between '<!-- table NAME -->' and '<!-- end -->', with a line that says how it was measured.
Two names are reckoned from others: 'machine', which has the machines that all was measured on, and 'aims', which has
for each aim (bench/aims.py) what was measured. 'check' reports whether each page has what would be written, and whether
a page has each table; its last line is 'N passed, M failed'.
"""

import glob
import os
import re
import sys

import results
from aims import AIMS
from measuring import COUNTS

sys.path.insert(0, os.path.join(results.TOP, "tests"))

from tried import report  # noqa: E402

BLOCK = re.compile(r"(<!-- table ([\w-]+) -->\n).*?(<!-- end -->\n)", re.S)


def how(name, table):
    """The line that says how a table was measured."""
    command = table["command"].removeprefix("python3 ")
    build = "proved build" if table["proved"] else "unproved build"
    load = "" if name.endswith(COUNTS) else f", load {load_of(table)}"
    return f"*`{command}`, {build}, {table['date']}{load}*\n"


def load_of(table):
    """The load as a page has it, with a word if programs were kept away from it."""
    return f"{table['load']}{', priority' if table.get('priority') else ''}"


def machines(tables):
    """The machines, with the names of their tables if there are several; the one with most has 'all others'."""
    found = {}
    for name, table in tables.items():
        place = f"{table['processor']}, {table['processors']} processors, version {table['version']}"
        found.setdefault(place, []).append(name)
    if len(found) == 1:
        return f"{next(iter(found))}.\n"
    most = max(found, key=lambda place: len(found[place]))
    found[most] = ["all others"]
    return "".join(f"- {place}: {', '.join(names)}.\n" for place, names in found.items())


def number(cell):
    """The number that a cell begins with; none, if it has none."""
    found = re.match(r"-?[\d,]+(\.\d+)?", cell)
    return float(found[0].replace(",", "")) if found else None


def measured(aim, tables):
    """The number that an aim is about: of the cells that have to be within the bound the one farthest from it."""
    table = tables.get(aim.table, {"columns": [], "rows": []})
    places = [at for at, name in enumerate(table["columns"]) if re.fullmatch(aim.column, name)]
    rows = [row for row in table["rows"] if re.match(aim.rows, " | ".join(row))]
    found = [number(row[at]) for row in rows for at in places]
    found = sorted((it for it in found if it is not None), reverse=aim.at_least)
    return found[(aim.some or len(found)) - 1] if len(found) >= aim.some and found else None


def aims(tables):
    """What is aimed at, and whether it is met."""
    rows = []
    for aim in AIMS:
        found = measured(aim, tables)
        is_met = found is not None and (found >= aim.bound if aim.at_least else found <= aim.bound)
        bound = f"at {'least' if aim.at_least else 'most'} {aim.bound:,}"
        load = "" if found is None or aim.table.endswith(COUNTS) else load_of(tables[aim.table])
        rows.append([aim.what, bound, "-" if found is None else f"{found:,}".removesuffix(".0"),
                     "not measured" if found is None else "yes" if is_met else "**no**", load])
    return results.markdown(["What", "Aim", "Measured", "Met", "Load"], rows)


def block(name, tables):
    """What a page has of this name; none, if there is no such table."""
    if name == "machine":
        return machines(tables)
    if name == "aims":
        return aims(tables)
    if name not in tables:
        return None
    table = tables[name]
    return f"{results.markdown(table['columns'], table['rows'])}\n{how(name, table)}"


def page_of(page, tables):
    """A page with its tables as they have to be."""
    def replaced(found):
        text = block(found[2], tables)
        return found[0] if text is None else found[1] + text + found[3]
    return BLOCK.sub(replaced, page)


def check(pages, tables):
    """Whether all pages are up to date, and have all tables."""
    names = [found[2] for page in pages.values() for found in BLOCK.finditer(page)]
    tried = {f"{path} has the tables that are written": page == page_of(page, tables)
             for path, page in pages.items() if BLOCK.search(page)}
    lacking = [name for name in names if block(name, tables) is None]
    unshown = sorted(set(tables) - set(names))
    tried[f"the results file has each table of a page: lacks {', '.join(lacking) or 'none'}"] = not lacking
    tried[f"a page has each table of the results file: lacks {', '.join(unshown) or 'none'}"] = not unshown
    return report(tried)


def main():
    os.chdir(results.TOP)
    paths = [*sorted(glob.glob("docs/*.md")), "bench/RESULTS.md"]
    pages, tables = {path: results.text_of(path) for path in paths}, results.read()
    if sys.argv[1:] == ["write"]:
        for path, page in pages.items():
            if page_of(page, tables) != page:
                with open(path, "w", encoding="utf-8") as file:
                    file.write(page_of(page, tables))
    elif sys.argv[1:] == ["check"]:
        sys.exit(0 if check(pages, tables) else 1)
    else:
        sys.exit("python3 bench/tables.py write|check")


if __name__ == "__main__":
    main()
