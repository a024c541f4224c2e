#!/bin/sh
# Runs the program on each script of examples/ and tests/scripts/, and compares standard output with
# NAME.expected, standard error with NAME.error and the exit status with NAME.status; without these
# files, standard error has to be empty and the status 0. The program is ./pauseless, or the first
# argument.

cd "$(dirname "$0")/.." || exit 1
. tests/begin.sh

# differs WHAT WANTED GOT: shows how two files differ, where they do.
differs() {
    cmp -s "$2" "$3" && return 1
    echo "  $1 differs ('<' was expected, '>' came):"
    diff "$2" "$3" | sed 's/^/  /'
    return 0
}

for script in examples/*.script tests/scripts/*.script; do
    base=${script%.script}
    if [ -f "$base.error" ]; then cp "$base.error" "$kept/error"; else : > "$kept/error"; fi
    if [ -f "$base.status" ]; then cp "$base.status" "$kept/status"; else echo 0 > "$kept/status"; fi
    "$program" run "$script" > "$kept/output_got" 2> "$kept/error_got"
    echo $? > "$kept/status_got"
    : > "$kept/found"
    {
        differs 'standard output' "$base.expected" "$kept/output_got" && echo >> "$kept/found"
        differs 'standard error' "$kept/error" "$kept/error_got" && echo >> "$kept/found"
        differs 'the exit status' "$kept/status" "$kept/status_got" && echo >> "$kept/found"
    } > "$kept/differences"
    if [ -s "$kept/found" ]; then
        echo "failed: $script"
        cat "$kept/differences"
        failed=$((failed + 1))
    else
        echo "passed: $script"
        passed=$((passed + 1))
    fi
done

echo "$passed passed, $failed failed"
[ "$failed" = 0 ]
