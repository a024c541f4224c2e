#!/bin/sh
# Tests the example in Rust on the library for C: that cargo builds it as it is, without a warning, with the archive
# where 'make lib' leaves it; that it prints what its expected file has; that docs/C.md shows lines of it; and with
# valgrind, that it leaks no memory. All is done in a copy, without a network. tests/c.sh has its declarations compared
# with the header. The library is ./libpauseless.a, or the one that the first argument names.

cd "$(dirname "$0")/.." || exit 1
. tests/begin.sh
. tests/counting.sh
library=${1:-./libpauseless.a}

# Each line of Rust under 'From Rust' is one of the example.
awk '
    /^#/ { under = ($0 == "## From Rust") }
    /^```/ { taking = (under && $0 == "```rust"); next }
    taking
' docs/C.md > "$kept/shown"
sort -u examples/rust/src/*.rs examples/rust/src/pauseless/*.rs > "$kept/lines"
[ -s "$kept/shown" ] && ! grep -v -x -F -f "$kept/lines" "$kept/shown"
told 'docs/C.md shows lines of the example in Rust' $?

if ! cargo --version > "$kept/output" 2>&1; then
    echo "skipped: the example in Rust, as cargo isn't here"
    echo "$passed passed, $failed failed, 1 skipped"
    [ "$failed" = 0 ]
    exit
fi

# The copy has the archive where .cargo/config.toml says, and nothing else says so.
unset RUSTFLAGS CARGO_ENCODED_RUSTFLAGS CARGO_BUILD_RUSTFLAGS CARGO_BUILD_TARGET CARGO_BUILD_TARGET_DIR
export CARGO_TARGET_DIR="$kept/target"
mkdir "$kept/examples"
cp -R examples/rust "$kept/examples/rust"
cp "$library" "$kept/libpauseless.a"
(cd "$kept/examples/rust" && cargo build --offline --locked --release --quiet) 2> "$kept/errors"
status=$?
cat "$kept/errors"
[ "$status" = 0 ] && ! [ -s "$kept/errors" ]
told 'the example in Rust is built' $?

list=$kept/target/release/list
"$list" > "$kept/output" && cmp "$kept/output" examples/rust/list.expected
told 'the example in Rust prints what it should' $?

# Rust's standard library keeps a block of its own for the main thread, which valgrind holds for possibly lost.
if command -v valgrind > /dev/null; then
    valgrind -q --leak-check=full --show-leak-kinds=definite --errors-for-leak-kinds=definite --error-exitcode=9 \
        "$list" > /dev/null
    told 'the example in Rust leaves no memory' $?
fi
echo "$passed passed, $failed failed"
[ "$failed" = 0 ]
