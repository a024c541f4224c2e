"""What crates.txt says: each crate of the repository, and what it depends on.

The repository is that of the current folder, if that has a crates.txt, and else the one in which this file is.
"""

import os
import re

TOP = os.getcwd()
if not os.path.exists(os.path.join(TOP, "crates.txt")):
    TOP = os.path.dirname(os.path.dirname(os.path.abspath(__file__)))


def crates():
    """The crates in their order, each with what it depends on."""
    found = {}
    with open(os.path.join(TOP, "crates.txt"), encoding="utf-8") as lines:
        for line in lines:
            crate = re.match(r"(\w+)[^:#]*:([^#]*)", line)
            if crate:
                found[crate[1]] = crate[2].split()
    return found


def below(found, name):
    """The crates of the repository below a crate, lowest first, in the order in which `rt` builds them."""
    order = []

    def visit(crate):
        for dependency in found[crate]:
            if dependency in found and dependency not in order:
                visit(dependency)
                order.append(dependency)

    visit(name)
    return order
