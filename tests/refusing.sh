# Sourced by the tests of refused memory, after tests/begin.sh. They define by 'whole' and 'told'
# how a run has to end: $name is what runs, $number the number of the refused request, $status its
# exit status, $kept/output and $kept/errors its output.

cc -shared -fPIC -O1 -o "$kept/refuse.so" tests/refuse.c -ldl -lpthread || exit 1

# refuse_in_turn VARIABLE NAME COMMAND..: runs the command with each of its
# requests for memory refused in turn, one a run, or with each start of a thread,
# as the variable says that tests/refuse.c reads, until there is no such request.
# That run has to be whole. All before it have to tell what they lack, or to be
# whole too, where a call asked for less when it was refused. No run may take more
# than a minute, or end while a thread still runs.
refuse_in_turn() {
    variable=$1 name=$2
    shift 2
    number=1
    while [ "$number" -le 3000 ]; do
        rm -f "$kept/refused" "$kept/running"
        timeout 60 env "$variable=$number" "REFUSED=$kept/refused" "RUNNING=$kept/running" \
            "LD_PRELOAD=$kept/refuse.so" "$@" > "$kept/output" 2> "$kept/errors"
        status=$?
        if [ ! -e "$kept/running" ] && { whole || { [ -e "$kept/refused" ] && told; }; }; then
            passed=$((passed + 1))
        else
            echo "failed: $name, $variable=$number: status $status, $(cat "$kept/errors")"
            failed=$((failed + 1))
        fi
        [ -e "$kept/refused" ] || break
        number=$((number + 1))
    done
    if [ "$number" = 1 ] || [ "$number" -gt 3000 ]; then
        echo "failed: $name, $variable refuses nothing one by one"
        failed=$((failed + 1))
    fi
}

# refuse_each NAME COMMAND..: with each request for memory refused.
refuse_each() {
    refuse_in_turn REFUSE "$@"
}
