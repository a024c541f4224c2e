"""Where a program's instructions go, by callgrind: how often each function is called, and what its calls take."""

import collections
import os
import re
import subprocess
import tempfile


class Profile:
    """What callgrind counted in one run: all instructions, and for each function its calls and what they take with all
    that they call; and the same of one function's calls of another."""

    def __init__(self, path):
        self.total = 0
        self.calls = collections.Counter()
        self.taken = collections.Counter()
        self.by_caller = collections.Counter()
        self.names = {}
        with open(path, encoding="utf-8", errors="replace") as file:
            self.read(file)

    def name(self, text):
        """A function's name: callgrind writes it once, after its number."""
        number, name = re.match(r"\((\d+)\)(?: (.*))?", text).groups()
        return self.names.setdefault(number, name)

    def read(self, file):
        caller = called = None
        of_call = False
        for line in file:
            key, _, value = line.rstrip("\n").partition("=")
            if key == "fn":
                caller = self.name(value)
            elif key == "cfn":
                called = self.name(value)
            elif key == "calls":
                self.calls[called] += int(value.split()[0])
                of_call = True
            elif line.startswith(("totals:", "summary:")):
                self.total = int(line.split()[1])
            elif of_call and line[0] in "+-*0123456789":
                cost = int(line.split()[1])
                self.by_caller[caller, called] += cost
                self.taken[called] += cost if caller != called else 0
                of_call = False


def profile(command):
    """Runs a command under callgrind."""
    with tempfile.TemporaryDirectory() as folder:
        path = os.path.join(folder, "callgrind.out")
        subprocess.run(["valgrind", "--tool=callgrind", f"--callgrind-out-file={path}", *command],
                       stdout=subprocess.DEVNULL, stderr=subprocess.DEVNULL, check=True)
        return Profile(path)
