# Sourced by the tests of the libraries, after begin.sh: counts their results.

# told WHAT STATUS: counts a test. One that failed is printed, and one that passed unless $quiet is set.
told() {
    if [ "$2" = 0 ]; then
        [ -n "$quiet" ] || echo "passed: $1"
        passed=$((passed + 1))
    else
        echo "failed: $1"
        failed=$((failed + 1))
    fi
}
