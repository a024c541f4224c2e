#!/bin/sh
# Runs the program on each script of tests/faults.txt, in the modes 'run' and 'check', and on each
# of tests/faults_of_threads.txt in the mode 'threads'. If a fault is expected, standard error has
# this line only, the status is 2 and nothing is printed; otherwise the status is 0 and standard
# error is empty. The program is ./pauseless, or the first argument.

cd "$(dirname "$0")/.." || exit 1
in_memory=1
. tests/begin.sh

tab=$(printf '\t')
sizes='heap words 16 frames 1 pages 1 threads 1 workers 1 registers 2 globals 0'
head="$sizes\\nlayout 0 2\\n"
block="${head}times 100000\\nt0 give\\nt0 give\\n"

# repeated COUNT LINE: the line so many times, as a table has it.
repeated() {
    awk -v count="$1" -v line="$2" 'BEGIN { for (; count > 0; count--) printf "%s\\n", line }'
}

lines=$head$(repeated 200000 't0 give')
layouts=$head$(repeated 63 'layout 1 1')

# tells MODE: the script in $kept/script has the fault $fault, or none, in this mode.
tells() {
    if [ "$fault" = none ]; then
        wanted=0
        : > "$kept/error"
    else
        wanted=2
        echo "pauseless: $fault" > "$kept/error"
    fi
    timeout 60 "$program" "$1" "$kept/script" > "$kept/output_got" 2> "$kept/error_got"
    status=$?
    if [ "$status" = "$wanted" ] && cmp -s "$kept/error" "$kept/error_got" \
        && { [ "$wanted" = 0 ] || [ ! -s "$kept/output_got" ]; }; then
        passed=$((passed + 1))
    else
        echo "failed: $1: $script: status $status, $(cat "$kept/error_got")"
        failed=$((failed + 1))
    fi
}

# all_told TABLE MODE..: each script of the table has its fault in each of these modes.
all_told() {
    table=$1
    shift
    while IFS="$tab" read -r script fault; do
        case $script in
        '#'* | '') continue ;;
        NOTHING*) text=${script#NOTHING} ;;
        SIZES*) text=$sizes${script#SIZES} ;;
        HEAD*) text=$head${script#HEAD} ;;
        THREE*) text="${block}t0 give\\n${script#THREE}" ;;
        TWO*) text="${block}end\\n${script#TWO}" ;;
        LINES*) text=$lines${script#LINES} ;;
        LAYOUTS*) text=$layouts${script#LAYOUTS} ;;
        *) text=$script ;;
        esac
        printf '%b' "$text" > "$kept/script"
        for mode; do tells "$mode"; done
    done < "$table"
}

all_told tests/faults.txt run check
all_told tests/faults_of_threads.txt threads
echo "$passed passed, $failed failed"
[ "$failed" = 0 ]
