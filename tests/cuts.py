#!/usr/bin/env python3
"""Runs a program on every prefix of each script, and on scripts with one byte changed: tests/cuts.py PROGRAM

A prefix of a correct script is run if it is complete lines with a heap line, a layout line and no open block, and the
lines of its commands are the first ones of NAME.expected; any other has one fault of docs/SCRIPT.md, in its last line
or at its end. A prefix of another script, and a script with one byte changed to any other, is run or has one such
fault, not before the changed byte's line. A script with a fault prints nothing, and no run ends otherwise. The last
line is 'N passed, M failed': each script that is cut is one test, and so are the changed bytes of each line. The line
before has the number of runs.
"""

import glob
import os
import re
import sys
import tempfile
from multiprocessing import Pool

KINDS = (
    "heap line expected", "layout line expected", "unknown word", "number expected", "number out of range",
    "layout too large", "no such actor", "no such register", "end of line expected", "newline expected",
    "cycle needs threads", "end without times", "times without end", "too many commands",
)
FAULT = re.compile(r"pauseless: line (\d+) column (\d+): (.*)\n")
# The scripts that are cut, by the mode in which they are run.
CUT = {"run": ("examples/*", "tests/scripts/*"), "threads": ("examples/threads/*", "tests/threads/two_lists")}
# The scripts of which each byte is changed to each other one.
CHANGED = ("examples/first.script",)
# Where there is one, a file system in memory: a file that is written anew so often waits for a disk each time.
MEMORY = "/dev/shm"
NEW = os.O_WRONLY | os.O_CREAT | os.O_TRUNC


def read(path):
    with open(path, "rb") as file:
        return file.read()


class Runs:
    """Runs of the program, with files for its script and its outputs."""

    def __init__(self, program, mode):
        self.program, self.mode = program, mode
        self.folder = tempfile.TemporaryDirectory(prefix="cuts-", dir=MEMORY if os.path.isdir(MEMORY) else None)
        self.script, self.output, self.errors = (f"{self.folder.name}/{it}" for it in ("script", "output", "errors"))

    def end(self, text):
        """How the program ends on a text: its status, its output and its errors."""
        with open(self.script, "wb") as file:
            file.write(text)
        files = [(os.POSIX_SPAWN_OPEN, 1, self.output, NEW, 0o600), (os.POSIX_SPAWN_OPEN, 2, self.errors, NEW, 0o600)]
        words = [self.program, self.mode, self.script]
        _, status = os.waitpid(os.posix_spawn(self.program, words, os.environ, file_actions=files), 0)
        return os.waitstatus_to_exitcode(status), read(self.output), read(self.errors).decode("ascii", "replace")


def fault_of(end):
    """The line, the column and the kind of a run's fault, or None of a run without one. Another end is an error."""
    status, output, errors = end
    if status == 0 and errors == "":
        return None
    found = FAULT.fullmatch(errors)
    if status != 2 or output or not found or found[3] not in KINDS:
        raise ValueError(f"status {status}, {len(output)} bytes, {errors!r}")
    return int(found[1]), int(found[2]), found[3]


def due_at_end(lines):
    """The kind of the fault that is due behind whole lines without a fault, or None."""
    said = [line for line in lines if line and not line.startswith(b"#")]
    if not said:
        return "heap line expected"
    if not any(line.startswith(b"layout ") for line in said):
        return "layout line expected"
    opened = sum(line.startswith(b"times ") for line in said) - said.count(b"end")
    return "times without end" if opened else None


def commands_of(output):
    """The lines of commands in an output."""
    return [line for line in output.split(b"\n") if re.match(rb"\d+ ", line)]


def look_at_beginning(text, end, expected):
    """Whether a beginning of a script without a fault ends as its lines say."""
    *lines, last = text.split(b"\n")
    fault = fault_of(end)
    if last:
        wanted = fault is not None and fault[0] == len(lines) + 1 and fault[1] <= len(last) + 1
    else:
        kind = due_at_end(lines)
        wanted = fault == (None if kind is None else (len(lines) + 1, 1, kind))
    told = commands_of(end[1])
    if not wanted or told != commands_of(expected)[:len(told)]:
        raise ValueError(f"fault {fault}, {len(told)} lines of commands")


def cut(program, mode, script):
    """Runs each beginning of a script. Gives how many runs there were."""
    base, runs = script.removesuffix(".script"), Runs(program, mode)
    whole = read(script)
    is_right = not os.path.exists(f"{base}.error")
    expected = read(f"{base}.expected")
    for length in range(len(whole) + 1):
        text = whole[:length]
        try:
            if is_right:
                look_at_beginning(text, runs.end(text), expected)
            else:
                fault_of(runs.end(text))
        except ValueError as error:
            raise ValueError(f"its first {length} bytes: {error}") from None
    return len(whole) + 1


def change(program, mode, line, script):
    """Runs a script with each byte of a line changed to each other one. Gives how many runs there were."""
    lines, runs = read(script).splitlines(keepends=True), Runs(program, mode)
    before, text, behind = b"".join(lines[:line - 1]), lines[line - 1], b"".join(lines[line:])
    for at, byte in enumerate(text):
        for other in set(range(256)) - {byte}:
            try:
                fault = fault_of(runs.end(before + text[:at] + bytes([other]) + text[at + 1:] + behind))
                if fault and fault[0] < line:
                    raise ValueError(f"line {fault[0]}")
            except ValueError as error:
                raise ValueError(f"byte {at} of line {line} changed to {other}: {error}") from None
    return 255 * len(text)


def try_one(what):
    """One test: how many runs it took, and what is wrong, if anything."""
    kind, *words = what
    try:
        return kind(*words), None
    except (OSError, ValueError) as error:
        return 0, f"failed: {kind.__name__} {words[-1]}: {error}"


def main(program):
    program = os.path.abspath(program)
    tests = [(change, program, "run", line + 1, script)
             for script in CHANGED for line in range(len(read(script).splitlines()))]
    for mode, patterns in CUT.items():
        scripts = sorted(script for it in patterns for script in glob.glob(f"{it}.script"))
        tests += [(cut, program, mode, script) for script in scripts]
    runs = failed = 0
    with Pool(len(os.sched_getaffinity(0))) as pool:
        for count, wrong in pool.imap_unordered(try_one, tests):
            runs += count
            if wrong:
                print(wrong)
                failed += 1
    print(f"{runs} beginnings and changed scripts were run")
    print(f"{len(tests) - failed} passed, {failed} failed")
    return 1 if failed else 0


if __name__ == "__main__":
    sys.exit(main(*sys.argv[1:]))
