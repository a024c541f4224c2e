# Sourced by the tests of the program, at the top of the repository. $program is ./pauseless, or the
# first argument. $kept is a temporary folder. If $in_memory is set it is on a file system in
# memory, if there is one that programs may be run from: a test that rewrites a file in each of many
# runs would wait for the disk each time.

program=${1:-./pauseless}
passed=0
failed=0

if [ -n "$in_memory" ] && [ -w /dev/shm ] && kept=$(TMPDIR=/dev/shm mktemp -d); then
    cp /bin/true "$kept/true"
    "$kept/true" 2> /dev/null || { rm -rf "$kept"; in_memory=; }
else
    in_memory=
fi
[ -n "$in_memory" ] || kept=$(mktemp -d) || exit 1
trap 'rm -rf "$kept"' EXIT
trap 'exit 1' HUP INT TERM
