#!/bin/sh
# Runs the program on the long scripts that tests/long.py writes, and compares its output with that
# of the model there. Without Python 3 this test fails. The program is ./pauseless, or the first
# argument.

cd "$(dirname "$0")/.." || exit 1
. tests/begin.sh

if ! "${PYTHON:-python3}" tests/long.py "$kept"; then
    echo 'failed: the long scripts could not be made; they need Python 3'
    failed=$((failed + 1))
fi

for name in many_pages full_history many_marks long_list many_moves fragmentation smallest_heap all_pages all_births; do
    : > "$kept/output"
    "$program" run "$kept/$name.script" > "$kept/output" 2> "$kept/errors"
    status=$?
    if [ "$status" = 0 ] && [ ! -s "$kept/errors" ] && cmp "$kept/$name.expected" "$kept/output"; then
        echo "passed: $name"
        passed=$((passed + 1))
    else
        echo "failed: $name: status $status, $(cat "$kept/errors")"
        failed=$((failed + 1))
    fi
done

echo "$passed passed, $failed failed"
[ "$failed" = 0 ]
