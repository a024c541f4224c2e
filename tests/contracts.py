#!/usr/bin/env python3
"""Writes docs/contracts.txt, the list of all public calls with contracts: python3 tests/contracts.py draw|check.

'draw' writes a line for each public call with clauses, of all crates but those of tests and benches: the crate, the
call, and the names of its clauses. A clause without a name is written as the definition that its statement begins with,
or as '=' if it begins with none; one of a precondition after 'requires'. 'check' reports whether the list is what would
be written; its last line is 'N passed, M failed'.
"""

import os
import re
import sys

from tried import report

LIST = "docs/contracts.txt"
HEAD = """# The public calls that have contracts, with the names of their clauses. A clause without a name is
# listed by the definition that its statement begins with, or as '='. 'python3 tests/contracts.py draw' writes this.
"""

OWNER = re.compile(r"(?:(pub )?trait (\w+)|impl(?:<[^>]*>)? (?:(\w+)(?:<[^>]*>)? for )?(\w+))")
CALL = re.compile(r' *(pub(?:\([^)]*\))? )?(?:const )?(?:unsafe )?(?:extern "C" )?fn (\w+)')
CLAUSE = re.compile(r" *(ensures|requires)(?: (\w+))? \{(?: (?!If|Match|On[OE])([A-Z]\w*))?")


def read(path):
    with open(path, encoding="utf-8") as file:
        return file.read()


def exported(root):
    """The names that a crate's root file hands on, and its public modules."""
    names = set()
    for group, one in re.findall(r"^pub use [\w:]+::(?:\{([^}]*)\}|(\w+));", root, re.M):
        names.update(re.findall(r"\w+", group or one))
    return names, set(re.findall(r"^pub mod (\w+);", root, re.M))


def calls_of(text):
    """The calls of a source file in order: the trait, the type, the name, whether it is public, and its clauses."""
    trait, owner, found = None, None, []
    for line in text.splitlines():
        if line.startswith("}"):
            trait, owner = None, None
        elif block := OWNER.match(line):
            trait, owner = (None, block[2]) if block[2] else (block[3], block[4])
        elif call := CALL.match(line):
            found.append((trait, owner, call[2], call[1] == "pub ", []))
        elif found and (clause := CLAUSE.match(line)):
            name = clause[2] or (f"`{clause[3]}`" if clause[3] else "=")
            found[-1][4].append("requires " * (clause[1] == "requires") + name)
    return found


def is_shown(call, module, names, modules):
    """Whether a call has clauses, and another crate can make it."""
    trait, owner, name, is_public, clauses = call
    if not clauses:
        return False
    if trait:
        return trait in names or owner in names
    if owner:
        return is_public and (owner in names or module in modules)
    return is_public and (name in names or module in modules or module == "lib" or name.startswith("pauseless_"))


def shown(crate):
    """The calls of a crate that are shown, each after its module, in the order of the sources."""
    folder = os.path.join("crates", crate, "src")
    root = os.path.join(folder, "lib.rt")
    names, modules = exported(read(root)) if os.path.exists(root) else (set(), set())
    for path in sorted(os.path.join(at, file) for at, _, files in os.walk(folder) for file in files):
        module = os.path.basename(path)[:-3]
        yield from ((module, call) for call in calls_of(read(path)) if is_shown(call, module, names, modules))


def lines_of(crate):
    """The lines of a crate's calls, each once."""
    for module, (trait, owner, name, _, clauses) in shown(crate):
        subject = f"<{owner} as {trait}>" if trait else owner or module
        yield f"{crate} {subject}::{name}: {', '.join(dict.fromkeys(clauses))}\n"


def contracts():
    """The list of contracts, of the crates before those of tests."""
    crates = re.findall(r"^(\w+)(?: staticlib)?:", read("crates.txt").split("\n# Tests:")[0], re.M)
    return HEAD + "".join(dict.fromkeys(line for crate in crates for line in lines_of(crate)))


def main():
    os.chdir(os.path.join(os.path.dirname(os.path.abspath(__file__)), ".."))
    if sys.argv[1:] == ["draw"]:
        with open(LIST, "w", encoding="utf-8") as file:
            file.write(contracts())
    elif sys.argv[1:] == ["check"]:
        tried = {f"{LIST} is the list of contracts that is written": os.path.exists(LIST) and read(LIST) == contracts()}
        sys.exit(0 if report(tried) else 1)
    else:
        sys.exit("python3 tests/contracts.py draw|check")


if __name__ == "__main__":
    main()
