#!/bin/sh
# The complete test command; 'make test' runs it at the top of the repository.
# It proves all crates (proofs.sh), and then runs in five lanes: the checks of
# documents (README.md, the tables of crates, the contracts, links), the program
# on scripts, faults, changed and long scripts, and with words, files, outputs and
# memory that fail, and films, the program on threads, the library for C with the
# programs on it, and the bookkeeping of mutants. The results are shown when all
# lanes have ended.
# The last line is 'N passed, M failed, K skipped', and the exit status is 0 if M
# is 0. K counts mutants that weren't tried, as tests/refused.txt records that they
# were rejected, and the program in Rust if there is no cargo. The lines before
# have what each crate took, and once more what failed.

RT=${RT:-rt}
INSTALL=${INSTALL:-install}
PYTHON=${PYTHON:-python3}
export PYTHON
. tests/begin.sh
skipped=0

# fail TEXT: counts a failure.
fail() {
    echo "failed: $1" | tee -a "$kept/failures"
    failed=$((failed + 1))
}

# count NAME OUTPUT STATUS: adds up the counts of the last line of a command's
# output, and keeps its lines on failures. One whose last line has no counts, or
# that ended with a failure which it hasn't counted, is one failure more.
count() {
    name=$1
    status=$3
    grep -E '^(failed: |rt: FAILED: )' "$2" >> "$kept/failures"
    counts=$(sed -nE '$s/^([0-9]+) passed, ([0-9]+) failed(, ([0-9]+) skipped)?$/\1 \2 \4/p' "$2")
    if [ -z "$counts" ]; then
        fail "$name ended with status $status and without counts"
        return
    fi
    # shellcheck disable=SC2086 # the counts are words
    set -- $counts
    passed=$((passed + $1))
    failed=$((failed + $2))
    skipped=$((skipped + ${3:-0}))
    if [ "$status" != 0 ] && [ "$2" = 0 ]; then
        fail "$name ended with status $status"
    fi
}

# keep NAME COMMAND..: runs a command, and keeps its output and its status.
keep() {
    name=$1
    shift
    "$@" > "$kept/$name.output" 2>&1
    echo $? > "$kept/$name.status"
}

# show NAME..: shows what was kept of commands, and counts it.
show() {
    for each in "$@"; do
        cat "$kept/$each.output"
        count "$each" "$kept/$each.output" "$(cat "$kept/$each.status")"
    done
}

# The library for C is built over what was proved, as 'rt ci' builds none.
build_library() {
    "${MAKE:-make}" -C "$proved" lib RT="$RT" LIBRARY="'$PYTHON' tests/archive.py . > build.log 2>&1" &&
        echo '1 passed, 0 failed'
}

# The copy in which all is proved has then the program and the tests as they were built.
proved=$kept/proved
{ sh tests/proofs.sh "$proved"; echo $? > "$kept/status"; } | tee "$kept/output"
count 'the proofs' "$kept/output" "$(cat "$kept/status")"
if ! "$INSTALL" -m 755 "$proved/crates/report/out/report" pauseless; then
    fail 'the program could not be built'
    rm -f pauseless
fi

(
    keep 'the README' sh tests/readme.sh
    keep 'the rooms' "$PYTHON" tests/rooms.py check
    keep 'the contracts' "$PYTHON" tests/contracts.py check
    keep 'the links' "$PYTHON" tests/links.py
    keep 'the tables of measurements' "$PYTHON" bench/tables.py check
) &
lanes=$!
(
    keep 'building the library for C' build_library
    keep 'the library for C' sh tests/c.sh "$proved/libpauseless.a"
    keep 'the Lisp' sh tests/lisp.sh "$proved/libpauseless.a"
    keep 'the object model' sh tests/objects.sh "$proved/libpauseless.a"
    keep 'Rust' sh tests/rust.sh "$proved/libpauseless.a"
) &
lanes="$lanes $!"
keep 'the trying of edits' sh tests/edits.sh &
lanes="$lanes $!"
(
    keep 'the threads' sh tests/threads.sh
    keep 'threads that lack memory' sh tests/starved.sh
) &
lanes="$lanes $!"
(
    keep 'cut and changed scripts' sh tests/cuts.sh
    keep 'long scripts' sh tests/long.sh
    keep 'refused memory of calls' sh tests/calls.sh "$proved/crates"
    keep 'refused memory' sh tests/memory.sh
    keep 'the scripts' sh tests/scripts.sh
    keep 'the checks' sh tests/check.sh
    keep 'looks of checks' sh tests/looks.sh
    keep 'the faults' sh tests/faults.sh
    keep 'the program' sh tests/program.sh
    keep 'states and films' sh tests/film.sh "$proved/crates/script_states/out/script_states"
) &
lanes="$lanes $!"
# shellcheck disable=SC2086 # the lanes are words
trap 'kill $lanes 2> /dev/null; exit 1' HUP INT TERM
wait

show 'the rooms' 'the tables of measurements' 'the contracts' 'the links' 'the README' 'the scripts' \
    'the checks' 'looks of checks' 'the faults' 'cut and changed scripts' 'the program' 'states and films' \
    'the threads' 'threads that lack memory' 'long scripts' 'refused memory' 'refused memory of calls' \
    'building the library for C' 'the library for C' 'the Lisp' 'the object model' 'Rust' 'the trying of edits'
cat "$proved.table"
cut -c 1-400 "$kept/failures"
echo "$passed passed, $failed failed, $skipped skipped"
[ "$failed" = 0 ]
