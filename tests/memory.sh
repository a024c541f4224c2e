#!/bin/sh
# Runs the program on some scripts with each of its memory requests refused in turn, one a run. A
# run has to end with status 3 and the one line 'pauseless: out of memory', and to print exactly the
# lines before the step, or the part of the report, that made the request. The number of these lines
# is traced in a run without a refusal: tests/refuse.c counts, at each request, the lines that the
# program has put into its output buffer. The first run in which no request is refused is the last
# of a script. The program is ./pauseless, or the first argument.

cd "$(dirname "$0")/.." || exit 1
in_memory=1
. tests/begin.sh
. tests/refusing.sh

echo 'pauseless: out of memory' > "$kept/line"

whole() {
    [ "$status" = 0 ] && cmp -s "$kept/output" "$expected"
}

# The line of the request's number in $kept/lines says how many lines were in the buffer.
told() {
    lines=$(sed -n "${number}p" "$kept/lines")
    [ -n "$lines" ] || return 1
    head -n "$lines" "$expected" > "$kept/beginning"
    [ "$status" = 3 ] && cmp -s "$kept/line" "$kept/errors" && cmp -s "$kept/beginning" "$kept/output"
}

# trace COMMAND..: makes $kept/lines, of a run that writes its output at once.
trace() {
    rm -f "$kept/buffer" "$kept/lines"
    env "BUFFER_FOUND=$kept/buffer" "LD_PRELOAD=$kept/refuse.so" "$@" > /dev/null
    [ "$(wc -l < "$kept/buffer")" = 1 ] || return 1
    env "BUFFER=$(cat "$kept/buffer")" "LINES=$kept/lines" "LD_PRELOAD=$kept/refuse.so" "$@" > /dev/null
}

# refuse_traced NAME COMMAND..: traces the command, then runs it with each request for memory refused.
refuse_traced() {
    name=$1
    shift
    if trace "$@"; then
        refuse_each "$name" "$@"
    else
        echo "failed: $name: its output is not one write from one buffer"
        failed=$((failed + 1))
    fi
}

for example in first list moving; do
    expected=examples/$example.expected
    refuse_traced "$example" "$program" run "examples/$example.script"
done

# A script that protects several pages at once.
script=tests/scripts/four_pages_protected
expected=$script.expected
refuse_traced 'four pages' "$program" run "$script.script"

# The mode 'check' prints one line more.
expected=$kept/checked
cp examples/first.expected "$expected"
echo 'verified 7' >> "$expected"
refuse_traced 'first, checked' "$program" check examples/first.script
echo "$passed passed, $failed failed"
[ "$failed" = 0 ]
