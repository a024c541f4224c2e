#!/bin/sh
# Runs the program 'script_states' on scripts and compares its output: on tests/films/ with states and
# counts that were checked by hand, and on each correct script of examples/ and tests/scripts/ with
# the states of an independent model and with the output of ./pauseless. Then a film and a plot of
# each are made. The first argument is the program, by default crates/script_states/out/script_states.

cd "$(dirname "$0")/.." || exit 1
states=${1:-crates/script_states/out/script_states}
set --
. tests/begin.sh

# is_same WHAT WANTED GOT: compares two files.
is_same() {
    if cmp -s "$2" "$3"; then
        passed=$((passed + 1))
    else
        echo "failed: $1 ('<' was expected, '>' came):"
        diff "$2" "$3" | sed 's/^/  /'
        failed=$((failed + 1))
    fi
}

# ends WHAT STATUS WORDS..: the program ends with a status on these words, and writes nothing to its output.
ends() {
    what=$1
    wanted=$2
    shift 2
    "$states" "$@" > "$kept/output" 2> "$kept/errors"
    status=$?
    if [ "$status" = "$wanted" ] && [ ! -s "$kept/output" ] && [ -s "$kept/errors" ]; then
        passed=$((passed + 1))
    else
        echo "failed: $what: status $status, $(cat "$kept/errors")"
        failed=$((failed + 1))
    fi
}

for script in tests/films/*.script; do
    base=${script%.script}
    "$states" "$script" > "$kept/output" 2> "$kept/errors"
    is_same "states of $script" "$base.states" "$kept/output"
    "$states" "$script" 1 > "$kept/output" 2> "$kept/errors"
    is_same "counts of $script" "$base.counts" "$kept/output"
    "$states" "$script" 5 > "$kept/output" 2> "$kept/errors"
    grep -v -E '^counts ([^05]|[0-9]+[^05]) ' "$base.counts" > "$kept/some"
    tail -n 1 "$base.counts" >> "$kept/some"
    is_same "each fifth count of $script" "$kept/some" "$kept/output"
done

ends 'no word' 1
ends 'a file that is not there' 1 "$kept/nothing"
ends 'a script with a fault' 1 examples/fault.script
ends 'a script for threads' 1 examples/threads/sharing.script
ends 'a number that is none' 1 examples/first.script x

scripts=
for script in examples/*.script tests/scripts/*.script tests/films/*.script; do
    if [ ! -f "${script%.script}.error" ]; then scripts="$scripts $script"; fi
done
mkdir "$kept/films"
# shellcheck disable=SC2086 # the names of scripts are words
"${PYTHON:-python3}" tests/filmed.py "$states" "$program" "$kept/films" $scripts > "$kept/output"
counts=$(sed -nE '$s/^([0-9]+) passed, ([0-9]+) failed$/\1 \2/p' "$kept/output")
grep '^failed' "$kept/output"
[ -n "$counts" ] || counts='0 1'
echo "$((passed + ${counts% *})) passed, $((failed + ${counts#* })) failed"
[ "$((failed + ${counts#* }))" = 0 ]
