#!/usr/bin/env python3
"""Runs a command, and tells how many seconds of a processor each crate took in it: tests/measured.py TABLE COMMAND..

The table is written to the file TABLE, each minute and at the end: for each crate the seconds for its proof, the proof
of its tests, and its edits. They are those of the prover's processes below the command and of all that these started:
with several jobs a check starts a process for every few functions. The processes are looked at twice a second: what a
check took since it was last looked at is lost. Where there is no /proc, the table says so.
"""

import contextlib
import os
import subprocess
import sys
import threading
from collections import defaultdict

PAUSE = 0.5
LOOKS_A_MINUTE = 120
TICKS = os.sysconf("SC_CLK_TCK")
KINDS = ("proof", "tests", "edits")


class Process:
    """A process that is there: its parent, when it began, and the time that it and those of its children took that
    have ended."""

    def __init__(self, number):
        with open(f"/proc/{number}/stat", encoding="utf-8", errors="replace") as file:
            self.name, _, fields = file.read().partition("(")[2].rpartition(")")
        fields = fields.split()
        self.number, self.parent, self.began = number, int(fields[1]), fields[19]
        self.ticks = sum(map(int, fields[11:15]))

    def what(self):
        """The crate that this process checks, and the kind of the check; None if it checks none."""
        if self.name != "rattle":
            return None
        try:
            with open(f"/proc/{self.number}/cmdline", encoding="utf-8", errors="replace") as file:
                words = file.read().split("\0")
            folder = os.path.basename(os.readlink(f"/proc/{self.number}/cwd"))
        except OSError:
            return None
        if "--crate-name" not in words:
            return None
        kind = "edits" if folder.startswith("rt-edit-") else "tests" if "--test" in words else "proof"
        return words[words.index("--crate-name") + 1], kind


def all_processes():
    """The processes that are there, by their numbers."""
    found = {}
    for number in map(int, filter(str.isdigit, os.listdir("/proc"))):
        with contextlib.suppress(OSError):
            found[number] = Process(number)
    return found


class Watch:
    """The checks below one process."""

    def __init__(self, process):
        self.process = process
        self.found = {}

    def look(self):
        """Keeps the time of each check that runs now."""
        processes = all_processes()
        checks = {it.number: what for it in processes.values() if (what := it.what())}
        ticks = defaultdict(int)
        for process in processes.values():
            check = self.check_of(processes, checks, process)
            if check:
                ticks[check] += process.ticks
        for check, took in ticks.items():
            began = processes[check].began
            _, before = self.found.get((check, began), (None, 0))
            self.found[check, began] = checks[check], max(before, took)

    def check_of(self, processes, checks, process):
        """The outermost check that a process belongs to; None if there is none, or if it isn't below the command."""
        check = None
        while process and process.number != self.process:
            check = process.number if process.number in checks else check
            process = processes.get(process.parent)
        return check if process else None

    def seconds(self):
        """The seconds of each crate, of each kind."""
        sums = defaultdict(lambda: dict.fromkeys(KINDS, 0))
        for (crate, kind), ticks in self.found.values():
            sums[crate][kind] += ticks / TICKS
        return sums


def table_of(sums):
    """The dearest crate last, where the output ends, and then the sum of all."""
    whole = {kind: sum(row[kind] for row in sums.values()) for kind in KINDS}
    rows = sorted(sums.items(), key=lambda row: sum(row[1].values())) + [("all", whole)]
    lines = [f"{name:<14}" + "".join(f"{row[kind]:>8.0f}" for kind in KINDS) for name, row in rows]
    return "\n".join([f"{'seconds':<14}" + "".join(f"{kind:>8}" for kind in KINDS)] + lines) + "\n"


def main(table, *command):
    started = subprocess.Popen(command)
    watch, ended = Watch(started.pid), threading.Event()
    is_told = os.path.exists("/proc/self/stat")

    def keep():
        with open(table, "w", encoding="utf-8") as file:
            file.write(table_of(watch.seconds()) if is_told else "No seconds are told, as there is no /proc here.\n")

    def look_on():
        looks = 0
        while not ended.wait(PAUSE):
            watch.look()
            looks += 1
            if looks % LOOKS_A_MINUTE == 0:
                keep()

    looking = threading.Thread(target=look_on)
    if is_told:
        looking.start()
    status = started.wait()
    ended.set()
    if is_told:
        looking.join()
    keep()
    return status


if __name__ == "__main__":
    sys.exit(main(*sys.argv[1:]))
