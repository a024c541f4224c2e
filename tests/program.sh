#!/bin/sh
# Runs the program with words, files and outputs that no script covers: each run
# has to end with its exit status, with its one line on standard error, or none,
# and with all of the output or nothing. Then it runs the examples of
# docs/SCRIPT.md. The program is ./pauseless, or the first argument.

cd "$(dirname "$0")/.." || exit 1
. tests/begin.sh

script=examples/first.script
: > "$kept/nothing"

# ends WHAT STATUS LINE OUTPUT: compares the run's end, which stands in
# $kept/output, $kept/errors and $status.
ends() {
    printf '%b' "$3" > "$kept/line"
    if [ "$status" = "$2" ] && cmp -s "$kept/line" "$kept/errors" && cmp -s "$4" "$kept/output"; then
        passed=$((passed + 1))
    else
        echo "failed: $1: status $status, $(cat "$kept/errors")"
        failed=$((failed + 1))
    fi
}

# runs WORD..: runs the program on these words.
runs() {
    "$program" "$@" > "$kept/output" 2> "$kept/errors"
    status=$?
}

# is_done WHAT WORD..: the words name the first script, and it is run.
is_done() {
    what=$1
    shift
    runs "$@"
    ends "$what" 0 '' examples/first.expected
}

# is_told WHAT STATUS LINE WORD..: nothing is done, and the line is told.
is_told() {
    what=$1 wanted=$2 line=$3
    shift 3
    runs "$@"
    ends "$what" "$wanted" "$line" "$kept/nothing"
}

usage='usage: pauseless run|threads|check FILE\n'
strange=$kept/$(printf 'a\377b')
cp "$script" "$strange"
cp "$script" "$kept/-name"

# Words.
is_told 'no words' 2 "$usage"
is_told 'a file alone' 2 "$usage" "$script"
is_told 'a mode alone' 2 "$usage" run
is_told 'three words' 2 "$usage" run "$script" "$script"
is_told 'a mode that is not there' 2 "$usage" walk "$script"
is_told 'a mode alone that checks' 2 "$usage" check
is_told 'a mode alone of threads' 2 "$usage" threads
is_told 'three words with threads' 2 "$usage" threads "$script" "$script"
is_told 'a mode in capital letters' 2 "$usage" Threads "$script"
is_told 'a flag with threads' 2 "$usage" threads --help
is_told 'an empty mode' 2 "$usage" '' "$script"
is_told 'a mode that is nearly there' 2 "$usage" checks "$script"
is_told 'a flag' 2 "$usage" run --help
is_told 'a flag alone' 2 "$usage" --version
is_told 'a flag for a file' 2 "$usage" run "-name"
is_told 'a name that is not UTF-8' 2 "$usage" run "$strange"
is_told 'a mode that is not UTF-8' 2 "$usage" "$(printf '\377')" "$script"
is_told 'a third word that is not UTF-8' 2 "$usage" run "$script" "$(printf '\303')"
is_done 'two dashes before the file' run -- "$script"
is_done 'two dashes before the mode' -- run "$script"
is_done 'two dashes at the end' run "$script" --
is_told 'a mode after two dashes' 2 "$usage" -- run -- "$script"
is_told 'two dashes alone' 2 "$usage" --
is_told 'two dashes for a file' 3 'pauseless: cannot read --\n' run -- --

# Files.
is_told 'a missing file' 3 'pauseless: cannot read no/such.script\n' run no/such.script
is_told 'a missing file for threads' 3 'pauseless: cannot read no/such.script\n' threads no/such.script
is_told 'a directory' 3 'pauseless: cannot read examples\n' run examples
is_told 'a directory for threads' 3 'pauseless: cannot read examples\n' threads examples
is_told 'an empty name' 3 'pauseless: cannot read \n' run ''
is_told 'a dash is a name' 3 'pauseless: cannot read -\n' run -
is_done 'standard input' run /dev/stdin < "$script"
cat "$script" | {
    "$program" run /dev/stdin > "$kept/output" 2> "$kept/errors"
    echo $? > "$kept/status"
}
status=$(cat "$kept/status")
ends 'a pipe' 0 '' examples/first.expected

# Names that begin with a dash, where the program's own name has a place of its own.
case $program in
/*) here=$program ;;
*) here=$(pwd)/$program ;;
esac
for words in './-name' '-- -name'; do
    # The words are parted here.
    (cd "$kept" && "$here" run $words > output 2> errors)
    status=$?
    ends "the name $words" 0 '' examples/first.expected
done

# A file without permission, as another user where this one may read all.
chmod 755 "$kept"
cp "$program" "$kept/program"
cp "$script" "$kept/open"
cp "$script" "$kept/closed"
chmod 755 "$kept/program"
chmod 644 "$kept/open"
chmod 000 "$kept/closed"
unprivileged=
if [ "$(id -u)" = 0 ]; then
    unprivileged='setpriv --reuid=65534 --regid=65534 --clear-groups'
fi
if $unprivileged "$kept/program" run "$kept/open" > "$kept/output" 2> "$kept/errors"; then
    $unprivileged "$kept/program" run "$kept/closed" > "$kept/output" 2> "$kept/errors"
    status=$?
    ends 'a file without permission' 3 "pauseless: cannot read $kept/closed\\n" "$kept/nothing"
else
    echo 'skipped: a file without permission, as no other user can run the program here'
fi

# Outputs that take nothing, or not all.
: > "$kept/output"
"$program" run "$script" > /dev/full 2> "$kept/errors"
status=$?
ends 'a full device' 3 'pauseless: cannot write\n' "$kept/nothing"
"$program" run "$script" >&- 2> "$kept/errors"
status=$?
ends 'a closed output' 3 'pauseless: cannot write\n' "$kept/nothing"
"$program" run "$kept/no.script" > /dev/full 2> "$kept/errors"
status=$?
ends 'a missing file and a full device' 3 "pauseless: cannot read $kept/no.script\\n" "$kept/nothing"
sizes='heap words 16 frames 1 pages 1 threads 1 workers 1 registers 1 globals 0'
printf '%s\nlayout 0 0\ntimes 50000\nt0 give\nend\n' "$sizes" > "$kept/long"
{
    "$program" run "$kept/long" 2> "$kept/errors"
    echo $? > "$kept/status"
} | head -c 1 > /dev/null
status=$(cat "$kept/status")
ends 'a reader that goes away' 3 'pauseless: cannot write\n' "$kept/nothing"
printf 'heap\n' > "$kept/fault"
"$program" run "$kept/fault" > /dev/full 2> "$kept/errors"
status=$?
ends 'a fault and a full device' 2 'pauseless: line 1 column 5: unknown word\n' "$kept/nothing"

# The same by threads. The first script has one thread, which makes an object and reads 9.
printf 'thread 0 births 1 data 9\nsettled\n' > "$kept/settled"
runs threads "$script"
ends 'threads' 0 '' "$kept/settled"
runs threads -- "$script"
ends 'two dashes behind threads' 0 '' "$kept/settled"
runs threads /dev/stdin < "$script"
ends 'standard input by threads' 0 '' "$kept/settled"
is_told 'no bytes for threads' 2 'pauseless: line 1 column 1: heap line expected\n' threads /dev/null
is_told 'a fault for threads' 2 'pauseless: line 1 column 5: unknown word\n' threads "$kept/fault"
: > "$kept/output"
"$program" threads "$script" > /dev/full 2> "$kept/errors"
status=$?
ends 'a full device for threads' 3 'pauseless: cannot write\n' "$kept/nothing"
"$program" threads "$script" >&- 2> "$kept/errors"
status=$?
ends 'a closed output for threads' 3 'pauseless: cannot write\n' "$kept/nothing"
"$program" threads "$kept/fault" > /dev/full 2> "$kept/errors"
status=$?
ends 'a fault and a full device for threads' 2 'pauseless: line 1 column 5: unknown word\n' "$kept/nothing"
head -c 4194305 /dev/zero | tr '\0' '\n' > "$kept/large"
is_told 'a script too long' 2 'pauseless: script too long\n' run "$kept/large"
is_told 'a script too long for threads' 2 'pauseless: script too long\n' threads "$kept/large"
is_told 'a script without end' 2 'pauseless: script too long\n' run /dev/zero
head -c 4194304 /dev/zero | tr '\0' '\n' > "$kept/largest"
is_told 'a script as long as may be' 2 'pauseless: line 4194305 column 1: heap line expected\n' run "$kept/largest"

# Errors that can't be told change no status.
"$program" run "$kept/fault" > "$kept/output" 2> /dev/full
status=$?
: > "$kept/errors"
ends 'a fault and full errors' 2 '' "$kept/nothing"
"$program" run "$script" > "$kept/output" 2>&-
status=$?
ends 'closed errors' 0 '' examples/first.expected

# The examples of docs/SCRIPT.md.
"${PYTHON:-python3}" tests/page.py "$program" > "$kept/page"
sed '$d' "$kept/page"
examples=$(sed -n '$s/^\([0-9]*\) passed, [0-9]* failed$/\1/p' "$kept/page")
differ=$(sed -n '$s/^[0-9]* passed, \([0-9]*\) failed$/\1/p' "$kept/page")
passed=$((passed + ${examples:-0}))
failed=$((failed + ${differ:-1}))

echo "$passed passed, $failed failed"
[ "$failed" = 0 ]
