#!/usr/bin/env python3
"""Counts instructions for a command of a script, by `valgrind`.

Each script repeats one mix of commands, all of which are accepted but the two last ones of the mix of all. The counts
are less those of the same script without these commands, for each of 20,000:

  read     the script with a fault in its last line, which is only read
  print    the function that prints a command's answer, with all that it calls; none, if the compiler left no function
           of that name
  step     what is left: the step, with its entry in the history
  all      the script
"""

import os
import re
import subprocess
import tempfile

from measuring import counted, figure, measure

COMMANDS = 20_000
HEAD = ["heap words 64 frames 64 pages 64 threads 2 workers 1 registers 4 globals 2",
        "layout 0 2", "layout 2 2"]
START = ["t0 take 16", "t0 new r0 1", "t0 new r1 1", "t0 store r0 0 r1", "t0 storeg 0 r0"]

# The commands of threads, each once.
EACH = ["t0 get r2 r0 0", "t0 getg r3 0", "t0 store r0 1 r1", "t0 storeg 1 r0", "t0 mov r2 r1", "t0 clear r3",
        "t0 same r0 r1", "t0 null r2", "t0 set r0 1 9", "t0 datum r0 1", "t1 take 4", "t1 new r0 0", "t1 give",
        "t0 load r2 r0 0", "t0 trap", "t0 finish", "t0 loadg r2 0", "t0 trap", "t0 finish", "t1 park", "t1 unpark",
        "t0 scrub r2", "t0 heal", "t0 cross"]
MIXES = {
    "all commands of threads": EACH,
    "datum, set": ["t0 set r0 1 1234567890", "t0 datum r0 1"],
    "get, getg": ["t0 get r2 r0 0", "t0 getg r3 0"],
    "datum, mov, store, get, same": ["t0 datum r0 1", "t0 mov r2 r1", "t0 store r0 1 r1", "t0 get r2 r0 0",
                                     "t0 same r0 r1"],
}


def parts_of(program, folder, lines, status):
    """Instructions of one run: all of them, and those of printing answers."""
    script, found = os.path.join(folder, "script"), os.path.join(folder, "found")
    with open(script, "w", encoding="ascii") as file:
        file.write("\n".join(lines) + "\n")
    total = counted([program, "run", script], status, found)
    shown = subprocess.run(["callgrind_annotate", "--inclusive=yes", found], stdout=subprocess.PIPE, text=True,
                           check=True).stdout
    prints = [int(count.replace(",", "")) for count in re.findall(r"^ *([\d,]+) .*:tell_command", shown, re.M)]
    return total, max(prints, default=0)


def each_of(program, folder, body):
    """Instructions a command: read, print, all."""
    commands = (body * (COMMANDS // len(body) + 1))[:COMMANDS]

    def each(more, end, status):
        whole = parts_of(program, folder, HEAD + START + more + end, status)
        none = parts_of(program, folder, HEAD + START + end, status)
        return [(one - other) / COMMANDS for one, other in zip(whole, none)]

    read, _ = each(commands, ["fault"], 2)
    both, printed = each(commands, [], 0)
    return read, printed, both


def commands(programs):
    """Instructions of each mix."""
    rows = []
    with tempfile.TemporaryDirectory() as folder:
        for name, body in MIXES.items():
            read, printed, both = each_of(programs["report"], folder, body)
            rows.append([name, *(figure(it, 0) for it in (read, printed, both - read - printed, both))])
    return ["Mix", "read", "print", "step", "all"], rows


if __name__ == "__main__":
    measure(__doc__, {"commands-instructions": commands})
