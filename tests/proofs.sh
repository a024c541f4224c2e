#!/bin/sh
# Proves all crates and their tests from nothing, and tries the mutants that have to be tried, by
# one 'rt ci' in a copy of the repository: tests/proofs.sh COPY, at the top of the repository. COPY
# is a folder that doesn't exist yet; what was proved and built stays in it. The last line is 'N
# passed, M failed, K skipped': K mutants weren't tried, as tests/refused.txt records them.
# COPY.table has what each crate took and, in its last line, how many mutants were tried.
#
# It proves several crates at once, RT_JOBS of them or as many as 'edits.py lanes' prints: a check
# takes 1 to 3 GB. By itself 'rt ci' reckons with 4 to 7 GB, and so proves two or three at once.

RT=${RT:-rt}
PYTHON=${PYTHON:-python3}
tools=$(cd "$(dirname "$0")" && pwd)
copy=$1

lanes=${RT_JOBS:-$("$PYTHON" "$tools/edits.py" lanes)}
if [ "${lanes:-1}" -gt 1 ]; then
    export RT_JOBS="$lanes"
fi
standing=$("$PYTHON" "$tools/edits.py" copy "$copy") || {
    echo '0 passed, 1 failed'
    exit 1
}
{
    (cd "$copy" && exec "$PYTHON" "$tools/../tools/progress.py" --all -- \
        "$PYTHON" "$tools/measured.py" "$copy.table" "$RT" ci)
    echo $? > "$copy.status"
} | tee "$copy.output"
counts=$(sed -n '$s/^\([0-9]*\) passed, \([0-9]*\) failed$/\1 \2/p' "$copy.output")
[ -n "$counts" ] || counts='0 1'
echo "edits: $(grep -c '^rt: must-fail ' "$copy.output") tried, $standing stand by tests/refused.txt" >> "$copy.table"
echo "${counts% *} passed, ${counts#* } failed, $standing skipped"
exit "$(cat "$copy.status")"
