#!/usr/bin/env python3
"""Runs a command, and shows on a terminal how far it is: tools/progress.py [OPTIONS] -- COMMAND..

    --crate NAME     the command proves this crate: it runs in the crate's folder, and the line counts the crates that
                     are done, of this one and all below it
    --all            the command is 'rt ci', which proves all crates: the line counts those that it reports as proved
    --say WORDS      what the command does
    --seconds N      how long the command takes
    --log FILE       takes the command's output
    --run            the command is 'rt run' of a program: what it prints before the program runs goes to FILE, and the
                     end of FILE to the terminal if the program isn't built

The line is on standard error, and only if that is a terminal; else the command runs as it is. The exit status is the
command's. What is being proved is told by the prover's processes: if there is no /proc, the line has the time alone.
"""

import argparse
import os
import re
import select
import signal
import subprocess
import sys
import threading
import time

from crates import TOP, below, crates

PAUSE = 1.0

# How the line begins that 'rt run' prints before it runs a program.
STARTS = b"rt: running out/"


def clock(seconds):
    return f"{int(seconds) // 60}:{int(seconds) % 60:02}"


class Line:
    """A line at the end of a terminal, which is drawn again each second; nothing, if standard error is none.

    Its text is a function of the time so far."""

    def __init__(self, text):
        self.text, self.began = text, time.monotonic()
        self.ended, self.drawing = threading.Event(), threading.Lock()
        self.thread = threading.Thread(target=self.go_on, daemon=True)

    def __enter__(self):
        if sys.stderr.isatty():
            self.thread.start()
        return self

    def __exit__(self, *_):
        self.ended.set()
        if self.thread.is_alive():
            self.thread.join()

    def go_on(self):
        while not self.ended.wait(PAUSE):
            text = self.text(clock(time.monotonic() - self.began))
            with self.drawing:
                sys.stderr.write("\r\033[K" + text[:(os.get_terminal_size(2).columns or 80) - 1])
                sys.stderr.flush()
        self.write(b"")

    def write(self, output):
        """Clears the line, and writes a command's output in its place."""
        with self.drawing:
            if sys.stderr.isatty():
                sys.stderr.write("\r\033[K")
                sys.stderr.flush()
            sys.stdout.buffer.write(output)
            sys.stdout.buffer.flush()


def shown(words):
    """A line that has these words and the time."""
    return Line(lambda spent: f"{words}, {spent}")


def parents_of():
    """The parent of each process, and the prover's processes."""
    parents, provers = {}, []
    for process in filter(str.isdigit, os.listdir("/proc")):
        try:
            with open(f"/proc/{process}/stat", encoding="utf-8", errors="replace") as file:
                name, _, fields = file.read().partition("(")[2].rpartition(")")
            parents[int(process)] = int(fields.split()[1])
            if name == "rattle":
                provers.append(int(process))
        except OSError:
            pass
    return parents, provers


def in_work(process):
    """The crates that are being proved below a process, lowest process first; ' (tests)' after one's tests."""
    if not os.path.exists("/proc/self/stat"):
        return []
    parents, provers = parents_of()
    found = []
    for prover in sorted(provers):
        above = prover
        while above in parents and above != process:
            above = parents[above]
        try:
            with open(f"/proc/{prover}/cmdline", encoding="utf-8", errors="replace") as file:
                words = file.read().split("\0")
        except OSError:
            continue
        # A check of no function is the quick pass before the first proof.
        if above == process and "--crate-name" in words and "--only" not in words:
            crate = words[words.index("--crate-name") + 1]
            found.append(f"{crate} (tests)" if "--test" in words else crate)
    return list(dict.fromkeys(found))


class Proof:
    """How far the proof of a crate and all below it is, which are proved one after another, lowest first."""

    def __init__(self, crate):
        found = crates()
        self.order = [*below(found, crate), crate]
        self.at, self.process = 0, None

    def text(self, spent):
        work = in_work(self.process) if self.process else []
        for crate in work:
            name = crate.partition(" ")[0]
            if name in self.order:
                self.at = max(self.at, self.order.index(name))
        now = "".join(f", now {crate}" for crate in work[:1])
        return f"{self.at} of {len(self.order)} crates are proved{now}, {spent}"

    def take(self, output):
        pass


class Gate:
    """How far 'rt ci' is, by the lines that it prints."""

    def __init__(self):
        self.all, self.done = set(crates()), set()
        self.process, self.rest = None, b""

    def text(self, spent):
        work = in_work(self.process) if self.process else []
        now = f", now {' '.join(work)}" if work else ""
        return f"{len(self.done)} of {len(self.all)} crates are proved{now}, {spent}"

    def take(self, output):
        *lines, self.rest = (self.rest + output).split(b"\n")
        for line in lines:
            proved = re.match(r"(?:rt: )?(\w+)(?: proved| is kept)", line.decode(errors="replace"))
            if proved and proved[1] in self.all:
                self.done.add(proved[1])


class Said:
    """What a command does, and how much of its time is over."""

    def __init__(self, words, seconds):
        self.words, self.limit = words, f" of {clock(seconds)}" if seconds else ""

    def text(self, spent):
        return f"{self.words}, {spent}{self.limit}"

    def take(self, output):
        pass


def asked():
    parser = argparse.ArgumentParser(description="Runs a command, and shows on a terminal how far it is.")
    parser.add_argument("--crate")
    parser.add_argument("--all", action="store_true")
    parser.add_argument("--say", default="running")
    parser.add_argument("--seconds", type=int, default=0)
    parser.add_argument("--log")
    parser.add_argument("--run", action="store_true")
    words = sys.argv[1:]
    if "--" not in words[:-1]:
        parser.error("no command")
    at = words.index("--")
    found = parser.parse_args(words[:at])
    found.command = words[at + 1:]
    return found


def alone(words, folder):
    """Becomes the command."""
    if words.log:
        log = os.open(words.log, os.O_WRONLY | os.O_CREAT | os.O_TRUNC, 0o644)
        os.dup2(log, 1)
        os.dup2(log, 2)
    os.chdir(folder)
    os.execvp(words.command[0], words.command)


def watched(words, folder):
    """Runs the command with a line about it. Returns its status."""
    what = Proof(words.crate) if words.crate else Gate() if words.all else Said(words.say, words.seconds)
    log = open(words.log, "wb") if words.log else None
    how = {"cwd": folder, "stderr": subprocess.STDOUT if log else None, "env": {**os.environ, "PYTHONUNBUFFERED": "1"}}
    with subprocess.Popen(words.command, stdout=log or subprocess.PIPE, **how) as ran:
        what.process = ran.pid
        # An interrupt ends the command, which has it too, and then this.
        signal.signal(signal.SIGINT, signal.SIG_IGN)
        with Line(what.text) as line:
            while ran.stdout:
                select.select([ran.stdout], [], [])
                output = os.read(ran.stdout.fileno(), 1 << 16)
                if not output:
                    break
                what.take(output)
                line.write(output)
            status = ran.wait()
    return status if status >= 0 else 128 - status


def built_and_run(words, folder):
    """Runs 'rt run'. Up to the line that announces the program, what it prints on standard error goes to the log."""
    proof, is_built = Proof(words.crate), False
    with open(words.log, "wb") as log, \
            subprocess.Popen(words.command, cwd=folder, stderr=subprocess.PIPE) as ran:
        proof.process = ran.pid
        signal.signal(signal.SIGINT, signal.SIG_IGN)
        with Line(proof.text):
            for line in ran.stderr:
                log.write(line)
                is_built = line.startswith(STARTS)
                if is_built:
                    break
        while output := os.read(ran.stderr.fileno(), 1 << 16):
            os.write(2, output)
        status = ran.wait()
    if not is_built:
        with open(words.log, encoding="utf-8", errors="replace") as log:
            end = "".join(log.readlines()[-20:])
        print(f"make: '{words.crate}' isn't built; the end of {words.log}:\n{end}", end="", file=sys.stderr)
    return status if status >= 0 else 128 - status


def main():
    words = asked()
    if words.crate and words.crate not in crates():
        sys.exit(f"make: crates.txt has no crate '{words.crate}'")
    folder = os.path.join(TOP, "crates", words.crate) if words.crate else os.getcwd()
    try:
        if words.run:
            sys.exit(built_and_run(words, folder))
        if not sys.stderr.isatty():
            alone(words, folder)
        sys.exit(watched(words, folder))
    except OSError as error:
        sys.exit(f"tools/progress.py: {error}")


if __name__ == "__main__":
    main()
