#!/bin/sh
# Tests the bookkeeping of mutants on a repository of two small crates that is made here: which
# crates have mutants to try after a change, what is printed and recorded of mutants that are
# rejected and of one that isn't, how a run of the proofs counts them, and what its time is made of.

RT=${RT:-rt}
PYTHON=${PYTHON:-python3}
cd "$(dirname "$0")" || exit 1
tools=$PWD
. ./begin.sh

# As where changes are tested by a service: there 'rt ci' takes no names.
CI=true
export CI

# crate NAME BELOW: a crate with one function and an edit of it that must fail.
crate() {
    mkdir -p "crates/$1/src" "crates/$1/must-fail" || exit 1
    echo "$1: $2" >> crates.txt
    cat > "crates/$1/src/lib.rt" <<'END'
// A number and the next one.
#![tactic(auto)]

ghost use Rattle.std.specs.Prelude.{◌+◌, ◌<◌, ◌≡◌};

pub fn next(number: u32) -> u32
    requires { number < 10 }
    ensures { result ≡ number + 1 }
{
    let more = 1;
    number + more
}
END
    cat > "crates/$1/must-fail/two_more.edit" <<'END'
file: src/lib.rt
old:     let more = 1;
new:     let more = 2;
END
}

# is WHAT STATUS [LINE]..: the last command has to have ended so, and $kept/got to be these lines.
is() {
    what=$1 wanted=$2
    shift 2
    for line; do echo "$line"; done > "$kept/wanted"
    if [ "$status" = "$wanted" ] && cmp -s "$kept/wanted" "$kept/got"; then
        echo "passed: $what"
        passed=$((passed + 1))
    else
        echo "failed: $what: status $status"
        diff "$kept/wanted" "$kept/got"
        failed=$((failed + 1))
    fi
}

# check [CRATE]..: asks which of these crates, or of all, have edits to try.
check() {
    "$PYTHON" "$tools/edits.py" check "$@" > "$kept/got" 2>&1
    status=$?
}

# told COMMAND..: keeps the command's status and the lines of its output that speak of edits and counts.
told() {
    "$@" > "$kept/output" 2>&1
    status=$?
    sed -nE -e 's/: note: .*$//' -e 's/(: NOT REFUSED: [^(]*[^ (]) \(.*$/\1/' -e 's/, in [0-9]+ s$//' \
        -e '/^rt: (must-fail |FAILED)/p' \
        -e '/edits refused$/p' -e '/^failed: /p' -e '$p' "$kept/output" > "$kept/got"
}

mkdir -p "$kept/small/tests" && cd "$kept/small" || exit 1
crate low ''
crate high low
echo 'Handles allowed: none.' > HANDLES
book=tests/refused.txt

check low
is 'a crate without a line' 1 'low: 1 edits to try'
told "$PYTHON" "$tools/edits.py" try
sort "$kept/got" > "$kept/sorted" && mv "$kept/sorted" "$kept/got"
is 'edits that are refused' 0 '2 passed, 0 failed' \
    'high: 1 of 1 edits refused' \
    'low: 1 of 1 edits refused' \
    'rt: must-fail high/two_more.edit: refused, as it must be' \
    'rt: must-fail low/two_more.edit: refused, as it must be'
check
is 'both are written down' 0

cp -R . "$kept/whole"
# changed WHAT [LINE]: after the change that was made, just this is to be tried. Then all is as it was again.
changed() {
    what=$1
    shift
    check
    is "$what" $# "$@"
    cd "$kept" && rm -rf small && cp -R whole small && cd small || exit 1
}
echo '# A letter more.' >> crates/high/must-fail/two_more.edit
changed 'an edit that is changed' 'high: 1 edits to try'
echo 'const MORE: u32 = 1;' >> crates/low/src/lib.rt
changed 'a body that is changed' 'low: 1 edits to try'
printf '\n    // A letter more.\n' >> crates/low/src/lib.rt
changed 'a comment alone is changed'
mkdir crates/high/specs && echo '// Nothing.' > crates/high/specs/Lib.antt
changed 'definitions that are changed' 'high: 1 edits to try'
mkdir crates/high/proofs && echo '// Nothing.' > crates/high/proofs/Lib.antt
changed 'a proof alone is changed'
sed '/^low /d' "$kept/whole/$book" > "$book"
changed 'a line that was taken out' 'low: 1 edits to try'
cp crates/high/must-fail/two_more.edit crates/high/must-fail/two_again.edit
changed 'a new edit' 'high: 2 edits to try'
crate other low
changed 'a new crate' 'other: 1 edits to try'

# An edit whose text isn't in its file, and one whose text is cut in two lines, can't be made; none is tried then.
sed 's/more/less/' crates/high/must-fail/two_more.edit > crates/high/must-fail/two_less.edit
printf 'file: src/lib.rt\nold: let more\n= 1;\n' > crates/high/must-fail/two_lines.edit
check high
is 'edits that cannot be made' 1 'high: 3 edits to try' \
    'crates/high/must-fail/two_less.edit: the old text is there 0 times, not once:     let less = 1;' \
    'crates/high/must-fail/two_lines.edit: a line that is not read: = 1;'
told "$PYTHON" "$tools/edits.py" try high
is 'no edit is tried beside one that cannot be made' 2 \
    'crates/high/must-fail/two_lines.edit: a line that is not read: = 1;'
rm crates/high/must-fail/two_less.edit crates/high/must-fail/two_lines.edit

echo 'low 1 none' >> "$book"
check
is 'a line of another form' 2 "edits: $book has a line that 'make edits' didn't write: low 1 none"
cp "$kept/whole/$book" "$book"

# A commit that has passed, of which one crate is changed.
git init -q . && git add -A && git -c user.name=tests -c user.email=tests@localhost commit -qm passed
echo '// A letter more.' >> crates/high/src/lib.rt
rm "$book"
told "$PYTHON" "$tools/edits.py" passed HEAD
is 'crates as they are in a commit that has passed' 0 'low is written down'
told "$PYTHON" "$tools/edits.py" passed none
is 'no commit' 2 'edits: there is no commit none'
cd "$kept" && rm -rf small && cp -R whole small && cd small || exit 1

# An edit that is no mistake, so that the crate is proved with it. The crate beside it can't be proved, and isn't tried.
crate beside low
sed -i 's/more = 1/more = 2/' crates/beside/src/lib.rt
sed 's/= 2;/= 1 + 0;/' crates/high/must-fail/two_more.edit > crates/high/must-fail/as_it_was.edit
told "$PYTHON" "$tools/edits.py" try high
is 'an edit that is proved' 1 \
    'rt: must-fail high/as_it_was.edit: NOT REFUSED: the crate is still proved with this edit' \
    'rt: must-fail high/two_more.edit: refused, as it must be' \
    'rt: FAILED: high/as_it_was.edit' \
    'high: 1 of 2 edits refused' \
    "failed: high isn't written down" \
    '0 passed, 1 failed'
rm -r crates/beside && sed -i '/^beside:/d' crates.txt
check
is 'it is not written down' 1 'high: 2 edits to try'
told sh "$tools/proofs.sh" "$kept/proved"
is 'a run of the proofs tries the edits that are left' 1 \
    'rt: must-fail high/as_it_was.edit: NOT REFUSED: the crate is still proved with this edit' \
    'rt: must-fail high/two_more.edit: refused, as it must be' \
    'rt: FAILED: high/as_it_was.edit' \
    '3 passed, 1 failed, 1 skipped'
# A crate that is proved between two looks at the prover isn't in it.
awk '{ print $1 } END { print }' "$kept/proved.table" | sed -E 's/^(high|low)$/a crate/' | uniq > "$kept/got"
status=0
is 'a table of what each crate took' 0 seconds 'a crate' all edits: 'edits: 2 tried, 1 stand by tests/refused.txt'

printf 'seconds proof tests edits\nlow 10 1 0\nhigh 20 2 3\nall 30 3 3\n' > "$kept/table"
"$PYTHON" "$tools/chain.py" "$kept/table" > "$kept/got" 2>&1
status=$?
is 'what the time is made of' 0 '36 seconds: proofs 30, tests 3, mutants 3' \
    'the longest chain of proofs: 30: low 10, high 20' 'on 2 processors: 35' 'on 4 processors: 35'

printf 'low 120 121 0\nhigh 300 0 0\n' > "$kept/table"
printf '== low\nlogic=proved functions=4 sum=0\n== low: its tests\nlogic=proved tests=1 functions=11 sum=0\n' \
    > "$kept/log"
"$PYTHON" "$tools/chain.py" "$kept/table" --output "$kept/log" 1 > "$kept/got" 2>&1
status=$?
is 'the longest checks' 0 '541 seconds: proofs 420, tests 121, mutants 0' \
    'the longest chain of proofs: 420: low 120, high 300' 'on 1 processors: 541' \
    '   300 high' '   121 low: its tests, 11 functions, 11.0 each'

# lanes MEMORY USED PROCESSORS: how many crates are proved at once with these limits, in GiB and in tenths.
lanes() {
    echo "$(($1 << 30))" > "$kept/limits/memory.max"
    echo "$(($2 << 30))" > "$kept/limits/memory.current"
    echo "${3}0000 100000" > "$kept/limits/cpu.max"
    "$PYTHON" "$tools/edits.py" lanes "$kept/limits" >> "$kept/got"
    status=$?
}

mkdir "$kept/limits"
"$PYTHON" "$tools/edits.py" lanes "$kept/limits" | sed 's/^[1-9][0-9]*$/a number/' > "$kept/got"
lanes 7 0 100000 && lanes 20 13 100000 && lanes 1000 0 19 && lanes 1 0 1 && lanes 1000 0 20
two=$(awk '$1 == "MemAvailable:" { print $2 < 9000000 ? 1 : 2 }' /proc/meminfo)
[ "$(getconf _NPROCESSORS_ONLN)" -ge 2 ] || two=1
is 'how many crates are proved at once' 0 'a number' 1 1 1 1 "$two"

# A check, by its name and its words, whose short children do the work, one after another.
cp "$(command -v sh)" "$kept/rattle"
work='for n in 1 2 3 4 5 6 7 8; do awk "BEGIN { for (i = 0; i < 10000000; i++) sum += i }"; done; sleep 1'
told "$PYTHON" "$tools/measured.py" "$kept/table" sh -c "'$kept/rattle' -c '$work' rattle --crate-name high; :"
awk '$1 == "high" { print ($2 > 0 ? "seconds" : "none"), $3, $4 }' "$kept/table" > "$kept/got"
is 'what the children of a check took' 0 'seconds 0 0'

echo "$passed passed, $failed failed"
[ "$failed" = 0 ]
