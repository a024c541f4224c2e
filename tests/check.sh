#!/bin/sh
# Runs the program in its mode 'check' on each script of examples/ and of
# tests/scripts/: it has to print what 'run' prints, which is NAME.expected, and
# then 'verified N'. N is the number in NAME.verified if that file exists, and
# otherwise one more than the accepted steps in NAME.expected; a script in which
# a drain is rejected after accepted steps needs the file. A script with a fault
# has the same error and status as under 'run'. The program is ./pauseless, or
# the one that the first argument names.

cd "$(dirname "$0")/.." || exit 1
. tests/begin.sh

# accepted FILE: how many steps the lines of commands in an output say were
# accepted. A line is a number, an actor, and the texts of its steps with ', '
# between; that of a drain says how many there were.
accepted() {
    awk '/^[0-9]+ [tw][0-9]+ / {
        sub(/^[0-9]+ [tw][0-9]+ /, "")
        if ($1 == "drained") { count += $2; next }
        parts = split($0, texts, ", ")
        for (i = 1; i <= parts; i++) if (texts[i] !~ /^refused /) count++
    }
    END { print count + 0 }' "$1"
}

for script in examples/*.script tests/scripts/*.script; do
    base=${script%.script}
    cp "$base.expected" "$kept/expected"
    if [ -f "$base.error" ]; then cp "$base.error" "$kept/error"; else : > "$kept/error"; fi
    if [ -f "$base.status" ]; then wanted=$(cat "$base.status"); else wanted=0; fi
    if [ -f "$base.verified" ]; then
        count=$(cat "$base.verified")
    else
        count=$(($(accepted "$base.expected") + 1))
    fi
    if [ "$wanted" = 0 ]; then echo "verified $count" >> "$kept/expected"; fi
    "$program" check "$script" > "$kept/output" 2> "$kept/errors"
    status=$?
    if [ "$status" = "$wanted" ] && cmp "$kept/expected" "$kept/output" && cmp "$kept/error" "$kept/errors"; then
        passed=$((passed + 1))
    else
        echo "failed: check $script: status $status, $(cat "$kept/errors"), $(tail -n 1 "$kept/output")"
        failed=$((failed + 1))
    fi
done

echo "$passed passed, $failed failed"
[ "$failed" = 0 ]
