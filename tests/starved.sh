#!/bin/sh
# Runs scripts in the mode 'threads' with each of their memory requests refused in turn, one a run,
# and then with each start of a thread refused. When all threads that were started have ended, a run
# has to end with status 3, nothing printed, and the one line 'pauseless: out of memory'; or, if the
# thread was one that copies a part of a page, as if nothing had been refused. The program is
# ./pauseless, or the first argument.

cd "$(dirname "$0")/.." || exit 1
in_memory=1
. tests/begin.sh
. tests/refusing.sh

echo 'pauseless: out of memory' > "$kept/line"

# The first $told starts of threads are missed: those of actors.
whole() {
    [ "$number" -gt "$told" ] && [ "$status" = 0 ] && [ ! -s "$kept/errors" ] && cmp -s "$kept/output" "$expected"
}

told() {
    [ "$status" = 3 ] && [ ! -s "$kept/output" ] && cmp -s "$kept/line" "$kept/errors"
}

# starves TOLD VARIABLE SCRIPT
starves() {
    told=$1
    expected=tests/threads/$3.expected
    refuse_in_turn "$2" "$3" "$program" threads "tests/threads/$3.script"
}

for script in two_lists rolling_lists full_history_in_cycles worker_alone; do
    starves 0 REFUSE "$script"
done

# Each mutator, and worker 0 behind them, is started before any part of a page is copied.
starves 3 REFUSE_START two_lists
starves 3 REFUSE_START rolling_lists
starves 9 REFUSE_START many_actors
echo "$passed passed, $failed failed"
[ "$failed" = 0 ]
