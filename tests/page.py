#!/usr/bin/env python3
"""Runs the program on the examples of docs/SCRIPT.md: python3 tests/page.py PROGRAM

These are the first script with its output, the table of faults, and what the example with threads prints. It prints a
line for each example that differs, and last 'N passed, M failed'.
"""

import os
import re
import subprocess
import sys

PAGE = "docs/SCRIPT.md"
CODE = re.compile(r"`([^`]*)`")
SIGNS = str.maketrans("·→←", " \t\r")


def section(page, heading):
    """Returns the text under a heading, up to the next one."""
    return re.search(rf"^#+ {heading}\n(.*?)(?=^#|\Z)", page, re.M | re.S)[1]


def run(program, mode, script):
    """Returns the standard output and the standard error of a run on this text."""
    ran = subprocess.run([program, mode, "/dev/stdin"], input=script.encode(), stdout=subprocess.PIPE,
                         stderr=subprocess.PIPE, check=False, timeout=60)
    return ran.stdout.decode(), ran.stderr.decode()


def third_lines(text):
    """Yields the third line, column and fault of each example in the table of faults."""
    for row in re.findall(r"^\| (`.*)\|$", text, re.M):
        lines, columns, fault = (cell.strip() for cell in row.split("|"))
        groups = lines.split("; ")
        for group, column in zip(groups, columns.split("; ") * (len(groups) if "; " not in columns else 1)):
            begin, _, rest = group.partition(" and ")
            for line in CODE.findall(rest or begin):
                yield (CODE.findall(begin)[0] + " " + line if rest else line), column, CODE.findall(fault)[0]


def examples(program, page):
    """Yields what each example is, what the page has, and what the program prints."""
    blocks = [re.sub("^    ", "", block, flags=re.M)
              for block in re.findall(r"(?:^    .*\n)+", section(page, "An example"), re.M)]
    yield "the first script", (blocks[1], ""), run(program, "run", blocks[0])
    text = section(page, "Examples")
    head = "".join(line + "\n" for line in CODE.findall(text.split("|")[0])[:2])
    for line, column, fault in third_lines(text):
        wanted = "", f"pauseless: line 3 column {column}: {fault}\n"
        yield f"the line '{line}'", wanted, run(program, "run", head + line.translate(SIGNS) + "\n")
    threads = re.search(r"^`(examples/threads/\S+)` prints(.*?)\n\n", page, re.M | re.S)
    with open(threads[1], encoding="utf-8") as script:
        wanted = "".join(line + "\n" for line in CODE.findall(threads[2]))
        yield threads[1], (wanted, ""), run(program, "threads", script.read())


def main(program):
    program = os.path.abspath(program)
    os.chdir(os.path.join(os.path.dirname(os.path.abspath(__file__)), ".."))
    with open(PAGE, encoding="utf-8") as page:
        found = list(examples(program, page.read()))
    failed = [(what, wanted, got) for what, wanted, got in found if wanted != got]
    for what, wanted, got in failed:
        print(f"failed: {PAGE}: {what}: {wanted} was expected, and {got} came")
    print(f"{len(found) - len(failed)} passed, {len(failed)} failed")
    sys.exit(bool(failed))


if __name__ == "__main__":
    main(*sys.argv[1:])
