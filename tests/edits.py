#!/usr/bin/env python3
"""Which mutants (must-fail edits) have to be tried, and the trying of them.

    tests/edits.py check [CRATE..]            prints which crates have mutants to try, and which of these can't be
                                              made; status 1 if there is one
    tests/edits.py try [CRATE..]              tries the mutants of these crates, or of all, by one 'rt ci', and
                                              records each crate of which all were rejected
    tests/edits.py passed COMMIT              records the crates that are unchanged since a commit of which the
                                              complete test command has passed, as that tries what isn't recorded
    tests/edits.py copy FOLDER                copies the repository without the mutants that needn't be tried, and
                                              prints how many these are
    tests/edits.py lanes [FOLDER]             prints how many crates can be proved at once; FOLDER has the limits of a
                                              group of processes, by default those of this one

All work at the top of the repository. A mutant that the prover rejected isn't tried again while its crate is
unchanged: if all mutants of a crate were rejected, the crate has a line in tests/refused.txt, with its name, the number
of its mutants, and a fingerprint of its own files in src, specs and must-fail. A crate with another fingerprint, or
without a line, has mutants to try. Lines that are a comment, empty lines, and changes of lower crates are not in the
fingerprint.
"""

import argparse
import fcntl
import hashlib
import os
import re
import shutil
import subprocess
import sys
import tempfile

BOOK = "tests/refused.txt"
HEAD = "# Crates whose edits were all refused: name, edits, fingerprint. 'make edits' writes this file.\n"
PARTS = ("src", "specs", "must-fail")
# How a line begins that is a comment alone, by the ending of its file.
COMMENTS = {".rt": b"//", ".antt": b"--"}
# A check takes 1 to 3 GB.
MEMORY_OF_A_LANE = 4 << 30
# Where the limits of this group of processes are, if it has any.
GROUP = "/sys/fs/cgroup"
RT = os.environ.get("RT", "rt")


def stop(why):
    print(f"edits: {why}", file=sys.stderr)
    sys.exit(2)


def files_of(root):
    """The repository's files, by their paths: those that git tracks, or where there is no git all but what is made."""
    if os.path.exists(f"{root}/.git"):
        listed = subprocess.run(["git", "ls-files", "-z"], cwd=root, stdout=subprocess.PIPE, check=True)
        paths = os.fsdecode(listed.stdout).split("\0")
    else:
        walked = ((at, name) for at, folders, names in os.walk(root) for name in names)
        paths = [os.path.relpath(f"{at}/{name}", root) for at, name in walked]
    made = re.compile(r"(^|/)out/|^target/|^(pauseless|build\.log)$")
    return sorted(path for path in paths if os.path.isfile(f"{root}/{path}") and not made.search(path))


def code_of(path):
    """The lines of a file that the prover reads: without those that are a comment alone, or empty."""
    comment = COMMENTS.get(os.path.splitext(path)[1])
    with open(path, "rb") as file:
        lines = file.read().splitlines()
    return b"\n".join(it for it in lines if it.strip() and not (comment and it.lstrip().startswith(comment)))


class Crates:
    """The crates of a repository, with their files and what they stand on."""

    def __init__(self, root):
        self.root = root
        self.files = files_of(root)
        self.below = {}
        with open(f"{root}/crates.txt", encoding="utf-8") as lines:
            for line in lines:
                name, colon, below = line.partition("#")[0].partition(":")
                if colon:
                    self.below[name.split()[0]] = below.split()

    def own(self, name, *parts):
        folders = tuple(os.path.join("crates", name, part, "") for part in parts)
        return [path for path in self.files if path.startswith(folders)]

    def edits(self, name):
        return [path for path in self.own(name, "must-fail") if path.endswith(".edit")]

    def with_edits(self):
        return [name for name in self.below if self.own(name, "must-fail")]

    def fingerprint(self, name):
        found = hashlib.sha256()
        for path in self.own(name, *PARTS):
            text = code_of(f"{self.root}/{path}")
            found.update(f"{path} {len(text)}\n".encode() + text)
        return found.hexdigest()

    def line(self, name):
        return f"{name} {len(self.edits(name))} {self.fingerprint(name)}"

    def all_below(self, names):
        """These crates' libraries, and what those stand on."""
        found, left = set(), list(names)
        while left:
            more = [it for it in self.below[left.pop()] if it in self.below and it not in found]
            found.update(more)
            left += more
        return found


def written(root):
    """The lines of the book, by crate."""
    if not os.path.isfile(f"{root}/{BOOK}"):
        return {}
    with open(f"{root}/{BOOK}", encoding="utf-8") as file:
        lines = [line.rstrip("\n") for line in file if not line.startswith("#")]
    for line in lines:
        if not re.fullmatch(r"\w+ [0-9]+ [0-9a-f]{64}", line):
            stop(f"{BOOK} has a line that 'make edits' didn't write: {line}")
    names = [line.split()[0] for line in lines]
    if len(names) > len(set(names)):
        stop(f"{BOOK} has two lines for one crate")
    return dict(zip(names, lines))


def write(root, crates, line):
    """Puts a crate's line into the book, in the order of crates.txt. Others may write there meanwhile."""
    with open(f"{root}/crates.txt", "rb") as held:
        fcntl.flock(held, fcntl.LOCK_EX)
        lines = {**written(root), line.split()[0]: line}
        with open(f"{root}/{BOOK}.new", "w", encoding="utf-8") as file:
            file.write(HEAD + "".join(f"{lines[it]}\n" for it in crates.below if it in lines))
        os.replace(f"{root}/{BOOK}.new", f"{root}/{BOOK}")


def to_try(crates):
    """The crates that have edits and aren't written down as they are."""
    book = written(crates.root)
    return [name for name in crates.with_edits() if book.get(name) != crates.line(name)]


def misfit(crates, path):
    """Why an edit can't be made, None if it can: its texts are one line each, and an old one is in its file once."""
    file, old, texts = None, None, {}
    with open(f"{crates.root}/{path}", encoding="utf-8") as lines:
        for line in lines.read().splitlines():
            word, _, text = line.partition(":")
            text = text.removeprefix(" ")
            if word == "file":
                file = os.path.join(path.split("/must-fail/")[0], text.strip())
                if file not in texts and os.path.isfile(f"{crates.root}/{file}"):
                    with open(f"{crates.root}/{file}", encoding="utf-8") as source:
                        texts[file] = source.read()
            elif word == "old":
                old = text
            elif word == "new":
                found = texts.get(file, "").count(old or "")
                if not old or found != 1:
                    return f"the old text is there {found} times, not once: {old}"
                texts[file], old = texts[file].replace(old, text), None
            elif line.strip() and not line.startswith(("#", "--", "//")):
                return f"a line that is not read: {line.strip()}"
    return None


def misfits(crates, names):
    """The edits of these crates that can't be made, and why: they would be tried in vain."""
    paths = [path for name in names for path in crates.edits(name)]
    return [f"{path}: {why}" for path in paths if (why := misfit(crates, path))]


def named(crates, names):
    for name in names:
        if name not in crates.below:
            stop(f"crates.txt has no crate {name}")
    return names or crates.with_edits()


def copy_with_edits(crates, folder, names):
    """Copies the repository, with the edits of these crates alone."""
    left_out = tuple(f"crates/{it}/must-fail/" for it in crates.with_edits() if it not in names)
    for path in crates.files:
        if not path.startswith(left_out):
            os.makedirs(os.path.dirname(f"{folder}/{path}"), exist_ok=True)
            shutil.copy(f"{crates.root}/{path}", f"{folder}/{path}")


def leave_out(crates, folder, names):
    """Removes these crates from a copy."""
    for name in names:
        shutil.rmtree(f"{folder}/crates/{name}")
    with open(f"{folder}/crates.txt", encoding="utf-8") as file:
        lines = [it for it in file if it.partition(":")[0].partition(" ")[0] not in names]
    with open(f"{folder}/crates.txt", "w", encoding="utf-8") as file:
        file.writelines(lines)


def numbers_in(path):
    """The numbers of a file that describes this machine, or the group of processes that this one is in; none if the
    file isn't there, or sets no limit."""
    try:
        with open(path, encoding="utf-8") as file:
            return [int(it) for it in re.findall(r"\b\d+\b", file.readline())]
    except OSError:
        return []


def lanes(group=GROUP):
    """How many crates are proved at once, as processors and memory allow, and the limits of a group of processes."""
    with open("/proc/meminfo", encoding="utf-8") as file:
        free = 1024 * int(re.search(r"MemAvailable:\s+(\d+)", file.read())[1])
    for most, used in zip(numbers_in(f"{group}/memory.max"), numbers_in(f"{group}/memory.current")):
        free = min(free, most - used)
    processors = len(os.sched_getaffinity(0))
    if len(quota := numbers_in(f"{group}/cpu.max")) == 2:
        processors = min(processors, quota[0] // quota[1])
    return max(1, min(processors, free // MEMORY_OF_A_LANE))


def run_ci(folder):
    """Runs 'rt ci' in a copy, prints what it says of each crate and edit, and gives all that it says. It takes what
    such a run has proved on this machine before."""
    how = {"stdout": subprocess.PIPE, "stderr": subprocess.STDOUT, "text": True, "errors": "replace"}
    if lanes() > 1:
        how["env"] = {"RT_JOBS": str(lanes()), **os.environ}
    said = []
    with subprocess.Popen([RT, "ci"], cwd=folder, **how) as ran:
        for line in ran.stdout:
            said.append(line)
            if line.startswith("rt: ") and " is kept: " not in line:
                print(line, end="", flush=True)
    return "".join(said)


def try_all(names):
    crates = Crates(os.getcwd())
    names = named(crates, names)
    if odd := misfits(crates, names):
        stop("these edits can't be made:\n" + "\n".join(odd))
    lines = {name: crates.line(name) for name in names}
    with tempfile.TemporaryDirectory(prefix="edits-") as folder:
        copy_with_edits(crates, folder, names)
        # with names 'rt ci' is rejected where CI=true is set, so the copy has no other crates
        leave_out(crates, folder, crates.below.keys() - crates.all_below(names) - set(names))
        said = run_ci(folder)
    if "rt: must-fail " not in said:
        print("".join(said.splitlines(True)[-40:]), end="")
    passed = 0
    for name in names:
        edits, refused = len(crates.edits(name)), len(re.findall(rf"^rt: must-fail {name}/\S+: refused", said, re.M))
        print(f"{name}: {refused} of {edits} edits refused")
        if refused == edits:
            write(crates.root, crates, lines[name])
            passed += 1
        else:
            print(f"failed: {name} isn't written down")
    print(f"{passed} passed, {len(names) - passed} failed")
    return 1 if passed < len(names) else 0


def check(names):
    crates = Crates(os.getcwd())
    names = [it for it in to_try(crates) if it in named(crates, names)]
    for name in names:
        print(f"{name}: {len(crates.edits(name))} edits to try")
    for odd in misfits(crates, names):
        print(odd)
    return 1 if names else 0


def write_passed(commit):
    crates = Crates(os.getcwd())
    for name in to_try(crates):
        own = [f"crates/{name}/{part}" for part in PARTS]
        differs = subprocess.run(["git", "diff", "--quiet", commit, "--", *own]).returncode
        if differs > 1:
            stop(f"there is no commit {commit}")
        if not differs:
            write(crates.root, crates, crates.line(name))
            print(f"{name} is written down")
    return 0


def copy_without_refused(folder):
    crates = Crates(os.getcwd())
    left = to_try(crates)
    copy_with_edits(crates, folder, left)
    print(sum(len(crates.edits(it)) for it in crates.with_edits() if it not in left))
    return 0


def main():
    parser = argparse.ArgumentParser(usage=__doc__)
    commands = parser.add_subparsers(dest="command", required=True)
    commands.add_parser("check").add_argument("names", nargs="*")
    commands.add_parser("try").add_argument("names", nargs="*")
    commands.add_parser("passed").add_argument("commit")
    commands.add_parser("copy").add_argument("folder")
    commands.add_parser("lanes").add_argument("group", nargs="?", default=GROUP)
    asked = parser.parse_args()
    if asked.command == "lanes":
        print(lanes(asked.group))
        return 0
    if asked.command == "check":
        return check(asked.names)
    if asked.command == "passed":
        return write_passed(asked.commit)
    return try_all(asked.names) if asked.command == "try" else copy_without_refused(asked.folder)


if __name__ == "__main__":
    sys.exit(main())
