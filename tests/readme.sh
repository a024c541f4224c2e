#!/bin/sh
# Runs what README.md and docs/LIBRARY.md show, in a copy of the repository. Programs: all blocks of
# Rust under one heading, in order, are a program, whose output is the block of text there, if any.
# Each program is a crate of the copy, with the line that docs/LIBRARY.md has for crates.txt, and
# 'rt try' runs it, which proves nothing. Some with two arguments swapped must not compile. Commands: each indented line of README.md that begins with
# 'make', 'cc' or './' is run and its result tested; a line that this file doesn't know is a
# failure. Unproved builds are made again if the sources have changed. Commands that prove run with
# a stand-in for 'rt', which uses these builds. The first script and its output are compared with
# examples/; tests/figures.py tests the figures of README.md.

cd "$(dirname "$0")/.." || exit 1
. tests/begin.sh
RT=${RT:-rt}
PYTHON=${PYTHON:-python3}

# blocks PAGE HEADING LANGUAGE: the blocks of a language under a heading, with an empty line between them.
blocks() {
    awk -v heading="$2" -v fence="\`\`\`$3" '
        /^```/ {
            taking = !inside && under && $0 == fence
            inside = !inside
            if (taking && count++) print ""
            next
        }
        taking { print }
        /^#/ && !inside { under = ($0 == heading) }
    ' "$1"
}

# headings PAGE: the headings under which there is Rust.
headings() {
    awk '
        /^```/ {
            inside = !inside
            if (inside && $0 == "```rust" && !seen[heading]++) print heading
            next
        }
        /^#/ && !inside { heading = $0 }
    ' "$1"
}

# indented WORD: the indented block of README.md that begins with a word.
indented() {
    awk -v word="$1" '
        /^    / { taking = taking || (!going && $1 == word); going = 1; if (taking) print substr($0, 5); next }
        { taking = going = 0 }
    ' README.md
}

# passes WHAT, fails WHAT: counts a test, and says what it was.
passes() {
    echo "passed: $1"
    passed=$((passed + 1))
}
fails() {
    echo "failed: $1"
    failed=$((failed + 1))
}

# is_same WHAT WANTED GOT: compares two files.
is_same() {
    if [ -s "$2" ] && cmp -s "$2" "$3"; then
        passes "$1"
    else
        fails "$1 ('<' was expected, '>' came):"
        diff "$2" "$3" | sed 's/^/  /'
    fi
}

# is_there WHAT FILE WORD: a file of the copy has a word.
is_there() {
    if grep -q -e "$3" "$copy/$2" 2> /dev/null; then passes "$1"; else fails "$1: $2"; fi
}

indented heap > "$kept/script"
indented 1 > "$kept/output"
is_same 'the first script' examples/first.script "$kept/script"
is_same 'what the first script prints' examples/first.expected "$kept/output"
if "$PYTHON" tests/figures.py > "$kept/output"; then
    passes 'the figures of README.md'
else
    fails 'the figures of README.md:'
    grep '^failed' "$kept/output"
fi

# A copy without what checks have kept, but with what was built without a proof.
copy=$kept/copy
mkdir "$copy"
tar -cf - --exclude=out --exclude=./.git --exclude=./pauseless --exclude=./libpauseless.a . | tar -xf - -C "$copy"
cp crates.txt "$kept/crates.txt"
line=$(sed -n 's/.*`\(mine: [a-z ]*\)`.*/\1/p' docs/LIBRARY.md | head -n 1)
echo "$line" >> "$copy/crates.txt"
mkdir -p "$copy/crates/mine/src"

# run_programs PAGE LEAST: the programs of a page, which has at least so many.
run_programs() {
    headings "$1" > "$kept/headings"
    programs=$(wc -l < "$kept/headings")
    [ "$programs" -ge "$2" ] || fails "$1 has $programs programs"
    while read -r heading; do
        blocks "$1" "$heading" rust > "$copy/crates/mine/src/main.rt"
        blocks "$1" "$heading" text > "$kept/expected"
        (cd "$copy/crates/mine" && "$RT" try) > "$kept/output" 2> "$kept/errors" < /dev/null
        status=$?
        if [ "$status" = 0 ]; then
            is_same "what is printed under '$heading' of $1" "$kept/expected" "$kept/output"
        else
            fails "'$heading' of $1 ended with status $status:"
            sed 's/^/  /' "$kept/errors"
        fi
    done < "$kept/headings"
}

run_programs docs/LIBRARY.md 3

# is_mistyped WHAT HEADING FROM TO: a program of docs/LIBRARY.md with TO in place of FROM doesn't compile, by its types.
is_mistyped() {
    blocks docs/LIBRARY.md "$2" rust > "$kept/expected"
    sed "s/$3/$4/" "$kept/expected" > "$copy/crates/mine/src/main.rt"
    if cmp -s "$kept/expected" "$copy/crates/mine/src/main.rt"; then
        fails "$1: the program has no '$3'"
    elif (cd "$copy/crates/mine" && "$RT" try) > "$kept/output" 2>&1 < /dev/null; then
        fails "$1: the program is run"
    elif grep -q 'error\[mismatched-types\]' "$kept/output"; then
        passes "$1"
    else
        fails "$1:"
        sed 's/^/  /' "$kept/output"
    fi
}

held='## A program that holds a heap'
shared='## Threads that hold one heap'
is_mistyped 'a register and a field, swapped' "$held" 'store(ME, NODE, NEXT, ROOT)' 'store(ME, NODE, ROOT, NEXT)'
is_mistyped 'a thread and a register, swapped' "$held" 'copy_register(ME, HERE, ROOT)' 'copy_register(HERE, ME, ROOT)'
is_mistyped 'a register and a layout, swapped' "$held" 'ME, NODE, NODES' 'ME, NODES, NODE'
is_mistyped 'a data word in place of a field' "$held" 'read(ME, HERE, HERE, NEXT)' 'read(ME, HERE, HERE, KEY)'
is_mistyped 'a global and a register, swapped' "$shared" 'read_global(COUNTER, ROOT)' 'read_global(ROOT, COUNTER)'
rm -r "$copy/crates/mine"
cp "$kept/crates.txt" "$copy/crates.txt"

# What 'make' is given beside its words, in place of what this test was given by one.
flags="--no-print-directory RT=$RT PYTHON=$PYTHON"

# does COMMAND: runs a command in the copy. Its output stands in $kept/output then.
does() {
    (cd "$copy" && MAKEFLAGS=$flags sh -c "$1") > "$kept/output" 2> "$kept/errors" < /dev/null && return
    fails "$1:"
    sed 's/^/  /' "$kept/output" "$kept/errors"
    false
}

# looks_at COMMAND: whether a command that was done has left what README.md says.
looks_at() {
    case $1 in
    'make try') is_same "$1" examples/first.expected "$kept/output" ;;
    'make try SCRIPT=examples/list.script MODE=check')
        if grep -q '^verified ' "$kept/output"; then passes "$1"; else fails "$1"; fi ;;
    'make film TRY=1 SCRIPT=examples/moving.script') is_there "$1" film.html '</html>' ;;
    'make new NAME=mycache')
        blocks README.md '## A program of your own' rust > "$kept/expected"
        is_same "$1" "$kept/expected" "$copy/crates/mycache/src/main.rt" ;;
    'make app NAME=mycache TRY=1') is_same "$1" "$copy/crates/mycache/stdout" "$kept/output" ;;
    'make lib TRY=1') is_there "$1" target/unproved/libpauseless.a pauseless_new ;;
    'cc -Iinclude examples/c/list.c target/unproved/libpauseless.a -o list') is_there "$1" list pauseless ;;
    './list') is_same "$1" examples/c/list.expected "$kept/output" ;;
    *) fails "no test knows the command '$1' of README.md" ;;
    esac
}

grep -E '^    (make|cc|\./)' README.md | sed 's/^    //' > "$kept/commands"
[ "$(wc -l < "$kept/commands")" -ge 8 ] || fails 'README.md has few commands'
while read -r command; do
    if does "$command"; then looks_at "$command"; fi
done < "$kept/commands"

# A script with a fault, by a build that is there: it is rejected, and nothing is left behind.
faulty='make film TRY=1 SCRIPT=examples/fault.script FILM=faulty.html'
if (cd "$copy" && MAKEFLAGS=$flags sh -c "$faulty") > "$kept/output" 2>&1 < /dev/null; then
    fails 'a film of a script with a fault'
elif grep -q 'line .* column ' "$kept/output" && [ -z "$(find "$copy" -name 'faulty*')" ]; then
    passes 'a film of a script with a fault'
else
    fails "a film of a script with a fault: $(cat "$kept/output")"
fi

# The commands that prove, with a stand-in for 'rt'.
cat > "$kept/rt" << STOP
#!/bin/sh
# In a crate's folder, as 'rt': 'run' builds a program and runs it, 'lib' builds the library, and 'doc' names a page.
crate=\$(basename "\$PWD")
made=../../target/unproved
mkdir -p out
case \$1 in
run)
    shift 2
    cp \$made/\$crate out/ 2> /dev/null || cp \$made/\$crate-fast out/\$crate || exit 1
    echo "rt: running out/\$crate; to give it other input, run that file yourself" >&2
    exec out/\$crate "\$@" ;;
lib) cp \$made/libpauseless.a out/lib\$crate.a ;;
doc) rmdir out; exec $RT doc ;;
*) exit 1 ;;
esac
STOP
chmod 755 "$kept/rt"
if does "make RT='$kept/rt'"; then is_there 'make' pauseless 'unknown word'; fi
if does "make app NAME=mycache RT='$kept/rt'"; then
    is_same 'make app NAME=mycache' "$copy/crates/mycache/stdout" "$kept/output"
fi
version=$(sed -n 's/^#define PAUSELESS_VERSION "\(.*\)"$/\1/p' include/pauseless.h)
if does "make install RT='$kept/rt' DESTDIR='$copy/there' PREFIX=/usr"; then
    is_there 'make install: the program' there/usr/bin/pauseless 'unknown word'
    is_there 'make install: the library' there/usr/lib/libpauseless.a pauseless_new
    is_there 'make install: the header' there/usr/include/pauseless.h PAUSELESS_VERSION
    is_there 'make install: the version' there/usr/lib/pkgconfig/pauseless.pc "^Version: $version\$"
fi

echo "$passed passed, $failed failed"
[ "$failed" = 0 ]
