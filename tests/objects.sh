#!/bin/sh
# The object model of examples/objects on the library for C: the scopes and size classes of examples/c, and each
# function of the model, compared with arrays in C (tests/c/scopes.c, tests/c/sizes.c, tests/c/object_model.c), and what
# size classes waste with the table of docs/RUNTIMES.md, whose lines of C are those of the examples; the model's faults,
# each of which ends a program with a message; and its program, which prints the same in 64 MiB and in the smallest
# heaps that are enough, verified at intervals and at the end; with one frame less, and if the system refuses memory, it
# ends with a message. With valgrind, that no program leaks memory or reads what it has not written. The library is
# ./libpauseless.a, or what the first argument names.

cd "$(dirname "$0")/.." || exit 1
quiet=1
. tests/begin.sh
. tests/counting.sh
library=${1:-./libpauseless.a}
CC=${CC:-cc}
objects=$kept/objects
model="examples/objects/arrays.c examples/objects/memory.c examples/objects/strings.c examples/objects/symbols.c
    examples/objects/tables.c"

# build NAME SOURCE..: a program.
build() {
    name=$1
    shift
    $CC -std=c11 -O2 -Wall -Wextra -Werror -Iinclude "$@" "$library" -o "$kept/$name"
    told "$name is built" $?
}

# leaves NAME WORDS..: that a program ends well and leaks no memory, if valgrind is installed.
leaves() {
    if command -v valgrind > /dev/null; then
        name=$1
        shift
        valgrind -q --leak-check=full --error-exitcode=9 "$kept/$name" "$@" > "$kept/output"
        told "$name leaks no memory" $?
    fi
}

# says MESSAGE PROGRAM WORDS..: that a program ends with the message, which begins so.
says() {
    message=$1
    shift
    "$@" > "$kept/output" 2> "$kept/errors"
    [ $? = 1 ] && grep -q "^objects: $message" "$kept/errors"
    told "$*: $message" $?
}

# prints WORDS..: whether the program prints what it should.
prints() {
    "$objects" "$@" > "$kept/output" 2> "$kept/errors" && cmp -s "$kept/output" examples/objects/objects.expected
    told "objects $*" $?
}

# tries WORDS FRAMES: the program in a heap of this shape, and in one of a frame less.
tries() {
    prints -w "$1" -f "$2" -v 20000
    says 'there are too few' "$objects" -w "$1" -f $(($2 - 1))
}

# Each line of C that docs/RUNTIMES.md shows is one of the examples.
awk '
    /^```/ { taking = ($0 == "```c"); next }
    taking
' docs/RUNTIMES.md > "$kept/shown"
cat examples/objects/*.c examples/lisp/*.c > "$kept/lines"
[ -s "$kept/shown" ] && ! grep -v -x -F -f "$kept/lines" "$kept/shown"
told 'docs/RUNTIMES.md shows lines of the examples in C' $?

build scopes tests/c/scopes.c
"$kept/scopes"
told 'scopes finds no difference' $?
leaves scopes

build sizes tests/c/sizes.c
"$kept/sizes" > "$kept/wasted"
told 'sizes finds no difference' $?
sed -nE 's/^\| ([1248]) \| [^|]* \| ([0-9]+) \| ([0-9]+) % \| ([0-9]+) % \|$/\1 \2 \3 \4/p' docs/RUNTIMES.md > "$kept/table"
[ -s "$kept/table" ] && cmp -s "$kept/wasted" "$kept/table"
told 'what size classes waste' $?

# shellcheck disable=SC2086 # the sources are words
build object_model tests/c/object_model.c $model
"$kept/object_model"
told 'object_model finds no difference' $?
leaves object_model
says 'a string is too long' "$kept/object_model" 1
says 'an array has no such element' "$kept/object_model" 2
says 'an array has no such element' "$kept/object_model" 3
says 'a string has no such slice' "$kept/object_model" 4
says 'an array is too long' "$kept/object_model" 5
says 'the register is null' "$kept/object_model" 6
says 'all registers are handles' "$kept/object_model" 7
says 'all registers are handles' "$kept/object_model" 8

# shellcheck disable=SC2086 # the sources are words
build objects examples/objects/main.c $model
prints -s -v 50000
grep -q '^[1-9][0-9]* objects, 14 handles at most, 67108864 bytes' "$kept/errors"
told 'what the program did' $?
tries 512 25
tries 1024 15
tries 4096 6
says 'an array is too long' "$objects" -w 256 -f 200
says 'words of a page out of range' "$objects" -w 100
says 'frames out of range' "$objects" -f 0
# shellcheck disable=SC2016 # the inner shell has these words
says 'memory was refused' sh -c 'ulimit -v 8000; exec "$@"' sh "$objects"
leaves objects -n 4 -w 512 -f 40
echo "$passed passed, $failed failed"
[ "$failed" = 0 ]
