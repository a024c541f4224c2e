#!/bin/sh
# Runs the program on random scripts for FUZZ_SECONDS seconds, 600 by default: half of the time by
# AFL++, if 'afl-fuzz' is installed, on the uninstrumented program; otherwise, and in the other
# half, by tests/fuzz.py. AFL++ looks for a run that a signal ends, that takes 20 seconds, or that
# exits with status 1, as for a fault of the heap, and keeps such scripts in fuzzed/. It starts from
# the scripts of examples/ and tests/ and their words. Without Python 3 this test fails. The program
# is ./pauseless, or the first argument.

cd "$(dirname "$0")/.." || exit 1
. tests/begin.sh
seconds=${FUZZ_SECONDS:-600}

# kept_of FOLDER: how many scripts AFL++ has kept there.
kept_of() {
    find "$kept/found/$1" -name 'id*' | wc -l
}

# for_time SECONDS WHAT WORDS..: says what a part of these seconds does, and runs it; on a terminal its time is shown.
for_time() {
    limit=$1 what="fuzz: $2"
    shift 2
    echo "$what, $limit seconds" >&2
    "${PYTHON:-python3}" tools/progress.py --say "$what" --seconds "$limit" "$@"
}

# afl: runs AFL++ for so many seconds.
afl() {
    mkdir "$kept/seeds"
    for script in examples/*.script examples/threads/*.script tests/scripts/*.script tests/threads/*.script; do
        cp "$script" "$kept/seeds/$(basename "$(dirname "$script")")-$(basename "$script")"
    done
    cat "$kept"/seeds/* | tr -s ' \n' '\n\n' | grep -x '[a-z0-9.]*' | sort -u | sed 's/.*/"&"/' > "$kept/words"
    export AFL_SKIP_CPUFREQ=1 AFL_NO_AFFINITY=1 AFL_NO_UI=1 AFL_I_DONT_CARE_ABOUT_MISSING_CRASHES=1 AFL_CRASH_EXITCODE=1
    for_time "$1" '1 of 2: scripts changed by AFL++' --log "$kept/log" -- \
        afl-fuzz -n -V "$1" -t 20000 -m 2048 -x "$kept/words" -i "$kept/seeds" -o "$kept/found" -- "$program" run @@
    if ! grep -q 'Time limit was reached' "$kept/log"; then
        echo 'failed: AFL++ did not run:'
        tail -n 5 "$kept/log"
        failed=$((failed + 1))
        return
    fi
    runs=$(tail -n 1 "$kept/found/plot_data" | cut -d, -f12)
    faults=$(kept_of crashes) endless=$(kept_of hangs)
    echo "AFL++:$runs runs, $faults faults, $endless without an end"
    if [ "$faults$endless" = 00 ]; then
        passed=$((passed + 1))
    else
        mkdir -p fuzzed
        cp "$kept"/found/crashes/id* "$kept"/found/hangs/id* fuzzed/ 2> /dev/null
        failed=$((failed + 1))
    fi
}

part='1 of 1'
if command -v afl-fuzz > /dev/null; then
    part='2 of 2'
    afl $((seconds / 2))
    seconds=$((seconds - seconds / 2))
fi
if for_time "$seconds" "$part: scripts changed by tests/fuzz.py" -- \
    "${PYTHON:-python3}" tests/fuzz.py "$program" "$seconds"; then
    passed=$((passed + 1))
else
    failed=$((failed + 1))
fi
echo "$passed passed, $failed failed"
[ "$failed" = 0 ]
