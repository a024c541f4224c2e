#!/bin/sh
# Tests the library for C: that the header's codes, functions and structs are those of the code; that docs/C.md shows
# lines of examples/c/list.c; that the programs of examples/c print what their files NAME.expected have; that each
# function does what it should with its arguments, and writes nothing if it fails (tests/c/calls.c); that a code says
# which number names nothing (tests/c/which.c); that statistics count what was done (tests/c/statistics.c); that memory
# of free frames is given back (tests/c/kept.c), so that the memory of a process follows what lives in its heap
# (tests/c/growth.c); that words and bytes are copied, read and written as by memmove and memcpy (tests/c/bytes.c); that
# random calls answer what a plain heap would (tests/c/random.c); and that all memory is given back, that each request
# for memory may be refused, and that a verification looks at the heap (tests/c/memory.c). With valgrind, that no
# program leaks memory or reads what it hasn't written. The library is ./libpauseless.a, or the one that the first
# argument names.

cd "$(dirname "$0")/.." || exit 1
. tests/begin.sh
. tests/counting.sh
library=${1:-./libpauseless.a}
CC=${CC:-cc}
PYTHON=${PYTHON:-python3}

# The codes of refusals and of sizes, in order: each number, with its name in small letters and nothing between words.
in_header() {
    sed -nE 's/^    CODE\((RANGE_OF_)?([A-Z_]+), ([0-9]+), ".*"\).*/\3 \2/p' include/pauseless.h \
        | awk '$1 > 2 && $1 < 40' | tr -d '_' | tr 'A-Z' 'a-z'
}

in_code() {
    sed -nE 's/^        (Refusal|ConfigFault)::([A-Za-z]+)( \{ \.\. \})? => ([0-9]+),$/\4 \2/p' \
        crates/foreign/src/codes.rt | tr 'A-Z' 'a-z'
}

in_header > "$kept/header"
in_code > "$kept/code"
[ -s "$kept/code" ] && cmp -s "$kept/header" "$kept/code"
told 'the codes of the header' $?

"$PYTHON" tests/header.py
told 'the functions and structs of the header, and what the example in Rust declares' $?

# The functions of the header, and those of the library.
sed -nE 's/^(pauseless_code|void) (pauseless_[a-z_]+)\(.*/\2/p' include/pauseless.h | sort > "$kept/declared"
nm -g "$library" 2> "$kept/errors" | sed -nE 's/^[0-9a-f]+ T (pauseless_[a-z_]+)$/\1/p' | sort > "$kept/exported"
[ -s "$kept/declared" ] && cmp -s "$kept/declared" "$kept/exported"
told 'the library has the functions of the header' $?

while read -r name; do
    cat tests/c/calls.c tests/c/kept.c tests/c/views.c tests/c/statistics.c | grep -q "[ (]$name(" \
        || echo "no test has $name" >> "$kept/missing"
done < "$kept/declared"
[ ! -e "$kept/missing" ]
told 'calls.c, kept.c, views.c and statistics.c have each function of the header' $?

# Each line of C under 'A first program' is one of the example.
awk '
    /^#/ { under = ($0 == "## A first program") }
    /^```/ { taking = (under && $0 == "```c"); next }
    taking
' docs/C.md > "$kept/shown"
[ -s "$kept/shown" ] && ! grep -v -x -F -f examples/c/list.c "$kept/shown"
told 'docs/C.md shows lines of examples/c/list.c' $?

# build SOURCE FLAGS..: a program of the same name in $kept.
build() {
    source=$1
    name=$(basename "$source" .c)
    shift
    $CC -std=c11 -O2 -Wall -Wextra -Werror -Iinclude "$source" "$library" "$@" -o "$kept/$name"
    told "$name is built" $?
}

# leaves NAME: that a program leaves no memory, where valgrind is there.
leaves() {
    if command -v valgrind > /dev/null; then
        valgrind -q --leak-check=full --error-exitcode=9 "$kept/$1" > /dev/null
        told "$1 leaves no memory" $?
    fi
}

for source in examples/c/*.c; do
    build "$source"
    "$kept/$name" > "$kept/output" && cmp -s "$kept/output" "examples/c/$name.expected"
    told "$name prints what it should" $?
    leaves "$name"
done

# A cache in a heap that is never full: no operation is refused, with complete collections and with those in parts; and
# with these the heap is never collected by one call.
build bench/cache.c
for words in '92 4 0' '92 23 10' '92 23 1000' '108 27 10' '108 27 10000' '124 31 100' '144 36 1000' '248 62 100'; do
    # shellcheck disable=SC2086 # the words are several
    "$kept/cache" $words 20000 > "$kept/output" && grep -q ' 0$' "$kept/output"
    told "a cache with frames, free frames and a budget of $words" $?
    [ "${words##* }" = 0 ] || [ "$(cut -d' ' -f4 "$kept/output")" = 0 ]
    told "and no collection by one call" $?
done

# The memory of the process follows what lives in the heap. By malloc as it is in glibc, and not under valgrind.
if printf '#include <malloc.h>\nint main(void) { return malloc_trim(0) > 1; }' | $CC -xc - -o "$kept/trims" 2> "$kept/errors"
then
    build tests/c/growth.c -D_DEFAULT_SOURCE
    "$kept/growth"
    told 'growth finds no difference' $?
fi

# Threads that share a heap; and, where there is one, under a tool that finds races in the header and the test.
build tests/c/shared.c -pthread
"$kept/shared"
told 'shared finds no difference' $?
leaves shared
echo 'int main(void) { return 0; }' > "$kept/races.c"
if $CC -fsanitize=thread "$kept/races.c" -o "$kept/races" 2> "$kept/errors" && "$kept/races"; then
    build tests/c/shared.c -pthread -fsanitize=thread
    "$kept/shared" > "$kept/output" 2>&1
    told 'shared has no races' $?
fi

build tests/c/calls.c
build tests/c/which.c
build tests/c/statistics.c
build tests/c/views.c
build tests/c/kept.c
build tests/c/bytes.c
build tests/c/random.c
build tests/c/memory.c -Wl,--wrap=malloc -Wl,--wrap=realloc -Wl,--wrap=free
for name in calls which statistics views kept bytes random memory; do
    "$kept/$name"
    told "$name finds no difference" $?
    leaves "$name"
done
echo "$passed passed, $failed failed"
[ "$failed" = 0 ]
