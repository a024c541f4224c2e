#!/bin/sh
# Tests that 'check' really verifies the heap as often as it reports: each verification allocates,
# so 'check' makes correspondingly more memory requests than 'run'; a verification of the first
# heap, which has no page with memory, makes the fewest. A verification that takes the image and
# doesn't look at it could be proved, and fails here with each script. The program is ./pauseless,
# or the first argument.

cd "$(dirname "$0")/.." || exit 1
. tests/begin.sh
. tests/refusing.sh

# asks MODE FILE NUMBER: whether the program makes so many requests for memory. The one of that number is
# refused, which changes none before it.
asks() {
    rm -f "$kept/refused"
    REFUSE=$3 REFUSED=$kept/refused LD_PRELOAD="$kept/refuse.so" "$program" "$1" "$2" > "$kept/output" 2> "$kept/errors"
    [ -e "$kept/refused" ]
}

# requests MODE FILE: how many requests for memory the program makes, by halving.
requests() {
    low=0
    high=1
    while asks "$1" "$2" "$high"; do
        low=$high
        high=$((2 * high))
    done
    while [ $((high - low)) -gt 1 ]; do
        middle=$(((low + high) / 2))
        if asks "$1" "$2" "$middle"; then low=$middle; else high=$middle; fi
    done
    echo "$low"
}

# more FILE: how many more requests 'check' makes of a script than 'run'.
more() {
    echo $(($(requests check "$1") - $(requests run "$1")))
}

# In the least of these heaps it takes 12 requests, and 9 where the image is taken alone.
for script in examples/first examples/list examples/mark examples/moving examples/copying_thread; do
    grep -E '^(heap|layout) ' "$script.script" > "$kept/first.script"
    once=$(more "$kept/first.script")
    all=$(more "$script.script")
    count=$("$program" check "$script.script" | sed -n '$s/^verified //p')
    if [ "$once" -ge 12 ] && [ "$count" -gt 1 ] && [ "$all" -ge $((once * count)) ]; then
        passed=$((passed + 1))
    else
        echo "failed: $script: $all requests more for $count verifications, $once for one"
        failed=$((failed + 1))
    fi
done
echo "$passed passed, $failed failed"
[ "$failed" = 0 ]
