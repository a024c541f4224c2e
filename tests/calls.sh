#!/bin/sh
# Runs tests of calls that allocate with each of their memory requests refused in turn, one a run.
# Such a test has to end with the error that the call returned: out of memory, or a failed write if
# the destination is a list in memory. The first run in which no request is refused is the last.
# A mark and an emptying on threads are also run with each start of a thread refused, which changes
# nothing. The first argument is the folder of the crates whose tests are built: where 'rt ci' built
# them, or the repository's own.

cd "$(dirname "$0")/.." || exit 1
crates=${1:-crates}
in_memory=1
. tests/begin.sh
. tests/refusing.sh

whole() {
    [ "$status" = 0 ]
}

told() {
    [ "$status" = 101 ] &&
        grep -q '^the test failed: its result gives status 1$' "$kept/errors" &&
        grep -q -e '^error: Memory$' -e '^error: Alloc' -e '^error: Write$' "$kept/errors"
}

# Each is a crate, and a test of its own.
for named in \
    test_values:rows::a_row_of_clear_bits \
    test_values:rows::rows_of_clear_bits \
    test_values:rows::rows_with_an_index \
    test_values:configs::a_copy_has_the_same_values \
    test_memory:pages::takes_in_the_lowest_page \
    test_memory:pages::copies_of_an_item \
    test_heap:heaps::the_first_fault_is_told \
    test_heap:protections::a_page_is_protected \
    test_heap:protections::pages_of_a_long_list \
    test_heap:choices::threads_choose_the_same \
    test_heap:kept::objects_are_kept_until_they_are_freed \
    test_heap:waving::four_threads_mark_as_one \
    test_library:protections::four_pages_are_protected \
    test_library:protections::four_pages_of_a_managed_heap \
    test_library:preparing::parts_go_on \
    test_library:emptying::pages_are_emptied \
    test_library:emptying::pages_are_emptied_on_threads \
    test_library:emptying::a_heap_is_made \
    test_library:emptying::a_heap_is_verified \
    test_library:sharing::a_heap_is_shared \
    test_books:books::a_run_is_accepted \
    test_books:choices::pages_are_chosen \
    test_books:marks::a_drain \
    test_verifier:verified::the_image_of_an_object_that_moves \
    test_scripts:scripts::steps_of_orders \
    test_scripts:protections::the_report_stays \
    test_scripts:reports::cycles \
    test_scripts:wants::read_and_run \
    test_scripts:wants::read_and_checked \
    test_sharing:steps::steps_of_seats \
    test_sharing:steps::steps_of_threads \
    test_sharing:steps::pages_by_halves \
    test_sharing:openings::a_book_is_opened \
    test_sharing:lists::a_list_of_steps \
    test_sharing:lists::a_drain_in_two_parts \
    test_script_threads:wants::hints_come_back \
    test_script_threads:wants::runs_by_threads; do
    crate=${named%%:*}
    test=${named#*:}
    refuse_each "$test" "$crates/$crate/out/${crate}_tests" "$test"
done

# Without each of the threads that they start, these end as with them.
told() {
    false
}

# starts CRATE TEST COUNT: refuses each start of a thread in turn. There have to be so many.
starts() {
    refuse_in_turn REFUSE_START "$2" "$crates/$1/out/${1}_tests" "$2"
    if [ "$((number - 1))" != "$3" ]; then
        echo "failed: $2: $((number - 1)) threads are started, and not $3"
        failed=$((failed + 1))
    fi
}

# A mark on four threads starts three for its wave, and three for what the parts have sent to each
# other. Besides that of the call, memory that is prepared on three threads takes two, the starts of
# copies on two targets one, the copies one, and the memory of four pages that is cleared three.
starts test_heap waving::four_threads_mark_as_one 6
starts test_library emptying::pages_are_emptied_on_threads 7
echo "$passed passed, $failed failed"
[ "$failed" = 0 ]
