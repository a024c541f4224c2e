#!/bin/sh
# Runs the program on every prefix of each script of examples/, examples/threads/ and
# tests/scripts/, and of two lists of tests/threads/, and on one script with each byte changed, by
# tests/cuts.py. Without Python 3 this test fails. The program is ./pauseless, or the first
# argument.

cd "$(dirname "$0")/.." || exit 1
exec timeout 1200 "${PYTHON:-python3}" tests/cuts.py "${1:-./pauseless}"
