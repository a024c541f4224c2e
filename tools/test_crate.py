#!/usr/bin/env python3
"""Runs what tests a crate: tools/test_crate.py [--try] CRATE

These are the tests in the crate itself, and in each crate that depends on it directly. They are proved first, or with
--try built without a proof. The last line is 'N passed, M failed', which counts crates of tests.
"""

import argparse
import os
import re
import shlex
import subprocess
import sys

from crates import TOP, crates
from progress import shown
from unproved import KEPT, toolchain

# What 'rt' prints of a run of tests that passed.
PASSED = re.compile(r"^test result: ok\. .*$", re.M)


def has_tests(crate):
    for folder, _, names in os.walk(os.path.join(TOP, "crates", crate, "src")):
        for name in names:
            if name.endswith(".rt"):
                with open(os.path.join(folder, name), encoding="utf-8") as file:
                    if "#[test]" in file.read():
                        return True
    return False


def command_of(crate, is_tried):
    """What runs the tests of a crate. Without a proof they are built first."""
    if not is_tried:
        return [*shlex.split(os.environ.get("RT", "rt")), "test"]
    builder = os.path.join(os.path.dirname(os.path.abspath(__file__)), "unproved.py")
    if subprocess.run([sys.executable, builder, "--tests", crate], check=False).returncode:
        return ["false"]
    return [os.path.join(toolchain(), "bin", "rattle-test"), os.path.join(KEPT, f"{crate}-tests")]


def run(crate, is_tried):
    """Runs the tests of one crate. Returns whether they passed."""
    command = command_of(crate, is_tried)
    how = {"cwd": os.path.join(TOP, "crates", crate), "stdin": subprocess.DEVNULL, "stdout": subprocess.PIPE,
           "stderr": subprocess.STDOUT, "text": True, "errors": "replace"}
    with shown(f"tests of {crate}"):
        ran = subprocess.run(command, check=False, **how)
    counts = PASSED.search(ran.stdout)
    is_passed = ran.returncode == 0 and counts is not None
    if is_passed:
        print(f"passed: {crate}: {counts[0]}", flush=True)
    else:
        print(f"failed: {crate} ended with status {ran.returncode}:", *ran.stdout.splitlines()[-30:], sep="\n  ",
              flush=True)
    return is_passed


def main():
    parser = argparse.ArgumentParser(description="Runs what tests a crate.")
    parser.add_argument("--try", dest="is_tried", action="store_true", help="prove nothing")
    parser.add_argument("crate")
    words = parser.parse_args()
    found = crates()
    if words.crate not in found:
        sys.exit(f"make: crates.txt has no crate '{words.crate}'")
    testing = [it for it in found if (it == words.crate or words.crate in found[it]) and has_tests(it)]
    if not testing:
        print(f"no crate that depends on '{words.crate}' directly has tests")
    passed = sum(run(it, words.is_tried) for it in testing)
    print(f"{passed} passed, {len(testing) - passed} failed")
    sys.exit(passed < len(testing))


if __name__ == "__main__":
    main()
