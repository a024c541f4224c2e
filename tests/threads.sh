#!/bin/sh
# Runs the program in the mode 'threads' on each script of examples/threads/ and tests/threads/: it
# has to print NAME.expected in every schedule, as often as NAME.runs has it, by default once.
# Standard error and the exit status are as in tests/scripts.sh. A run that doesn't end within a
# minute fails. The program is ./pauseless, or the first argument.

cd "$(dirname "$0")/.." || exit 1
in_memory=1
. tests/begin.sh

# races SCRIPT: runs the program on the script.
races() {
    timeout 60 "$program" threads "$1" > "$kept/output" 2> "$kept/errors"
    status=$?
}

# counts WHAT WHETHER: adds one to the counts; WHETHER is the status of what had to hold.
counts() {
    if [ "$2" = 0 ]; then
        passed=$((passed + 1))
    else
        echo "failed: $1: status $status, $(cat "$kept/errors")"
        cat "$kept/output"
        failed=$((failed + 1))
    fi
}

# repeats SCRIPT BASE RUNS WHAT: runs the script so often. Each run has to end as the files of BASE say.
repeats() {
    if [ -f "$2.error" ]; then cp "$2.error" "$kept/error"; else : > "$kept/error"; fi
    if [ -f "$2.status" ]; then wanted=$(cat "$2.status"); else wanted=0; fi
    run=1
    while [ "$run" -le "$3" ]; do
        races "$1"
        [ "$status" = "$wanted" ] && cmp -s "$2.expected" "$kept/output" && cmp -s "$kept/error" "$kept/errors" || break
        run=$((run + 1))
    done
    [ "$run" -gt "$3" ]
    counts "run $run of $4" $?
}

for script in examples/threads/*.script tests/threads/*.script; do
    base=${script%.script}
    if [ -f "$base.runs" ]; then runs=$(cat "$base.runs"); else runs=1; fi
    repeats "$script" "$base" "$runs" "$script"
done

# The two lists with one worker, and with sixteen.
for workers in 1 16; do
    for name in two_lists rolling_lists; do
        sed "s/workers 2/workers $workers/" "tests/threads/$name.script" > "$kept/workers.script"
        repeats "$kept/workers.script" "tests/threads/$name" 50 "$name with $workers workers"
    done
done

# The two lists among 64 threads and 16 workers. A thread without commands parks at once.
{
    head -n 2 tests/threads/two_lists.expected
    for thread in $(seq 2 63); do echo "thread $thread births 0 data 0"; done
    echo settled
} > "$kept/among.expected"
for name in two_lists rolling_lists; do
    sed 's/threads 2 workers 2/threads 64 workers 16/' "tests/threads/$name.script" > "$kept/among.script"
    repeats "$kept/among.script" "$kept/among" 50 "$name among many"
done

# crowd COMMAND: 64 threads each link a list of 20 objects and read it back, with their own number in each datum,
# while worker 0 has the command three times, and 15 others scan.
crowd() {
    awk -v command="$1" '
        function all(what) { for (t = 0; t < 64; t++) { line = what; gsub(/T/, t, line); print line } }
        BEGIN {
            print "heap words 512 frames 64 pages 128 threads 64 workers 16 registers 4 globals 64\nlayout 1 1"
            all("tT take 60")
            print "times 20"
            all("tT new r1 0\ntT set r1 0 T\ntT store r1 0 r0\ntT mov r0 r1\ntT storeg T r0")
            print "end"
            all("tT give")
            print "times 20"
            all("tT datum r0 0\ntT get r0 r0 0")
            print "end\ntimes 3\nw0 " command " 100\nend"
        }'
}
{
    for thread in $(seq 0 63); do echo "thread $thread births 20 data $((20 * thread))"; done
    echo settled
} > "$kept/crowd.expected"
for command in cycle roll; do
    crowd "$command" > "$kept/crowd.script"
    repeats "$kept/crowd.script" "$kept/crowd" 50 "64 lists and $command"
done

# A history of 1,000 entries ends the two lists anywhere. A thread reads its list when all of it is made, and each of
# the 100 objects takes five entries, so both can't come to their ends.
sed 's/^heap .*/& history 1000/' tests/threads/two_lists.script > "$kept/short.script"
run=1
while [ "$run" -le 20 ]; do
    races "$kept/short.script"
    [ "$status" = 0 ] && [ ! -s "$kept/errors" ] && awk '
        NR <= 2 && $0 ~ "^thread " (NR - 1) " births [0-9]+ data [0-9]+$" && $4 <= 100 && $6 <= 100 &&
            ($4 == 100 || $6 == 0) { ended += $6 == 100; good++ }
        NR == 3 && $0 == "settled" { good++ }
        END { exit !(NR == 3 && good == 3 && ended < 2) }' "$kept/output"
    counts 'a history that ends two lists' $?
    run=$((run + 1))
done

# Worker 0 has no other commands than 'cycle' and 'roll'.
for command in mark endmark 'pick 1.0' scan 'scang 0' 'crossfor t0' drain 'protect 1' 'copy 1 0' 'copyall 1' \
    'release 1'; do
    printf '%s\nlayout 1 1\nw0 roll 100\nw0 %s\n' \
        'heap words 16 frames 1 pages 1 threads 1 workers 1 registers 1 globals 1' "$command" > "$kept/script"
    races "$kept/script"
    [ "$status" = 2 ] && [ ! -s "$kept/output" ] &&
        [ "$(cat "$kept/errors")" = 'pauseless: line 4 column 4: unknown word' ]
    counts "w0 $command" $?
done

echo "$passed passed, $failed failed"
[ "$failed" = 0 ]
