/* Arrays: a header, which has the length, and a body of a size class. An array that grows gets a larger body. */
#include "objects.h"

enum { FIRST_BODY = 4 };

handle array_new(void) {
    const struct scope scope = scope_begin(&handles);
    const handle array = handle_new(&handles), body = handle_new(&handles);
    const uint64_t data[] = {[LENGTH] = 0, [CAPACITY] = make_body(body, FIRST_BODY)};
    make(array, ARRAY, &body, 1, data, 2);
    return scope_escape(&handles, scope, array);
}
uint64_t array_length(handle array) { return word(array, LENGTH); }

/* Returns a new handle of the body of an array that has an element of this index. */
static handle body_with(handle array, uint64_t index) {
    const handle body = handle_new(&handles);
    if (index >= array_length(array)) fail("an array has no such element");
    load(body, array, BODY);
    return body;
}
handle array_get(handle array, uint64_t index) {
    const handle value = body_with(array, index);
    load(value, value, index);
    return value;
}
void array_set(handle array, uint64_t index, handle value) {
    const struct scope scope = scope_begin(&handles);
    store(body_with(array, index), index, value);
    scope_end(&handles, scope);
}

/* Moves the elements of a full array to a body of the next class, which the handle then names. */
static void grow(handle array, handle body) {
    const struct scope scope = scope_begin(&handles);
    const handle larger = handle_new(&handles), item = handle_new(&handles);
    const uint64_t length = array_length(array);
    set_word(array, CAPACITY, make_body(larger, length + 1));
    for (uint64_t i = 0; i < length; i++) {
        load(item, body, i);
        store(larger, i, item);
    }
    store(array, BODY, larger);
    copy(body, larger);
    scope_end(&handles, scope);
}
void array_push(handle array, handle value) {
    const struct scope scope = scope_begin(&handles);
    const handle body = handle_new(&handles);
    const uint64_t length = array_length(array);
    load(body, array, BODY);
    if (length == word(array, CAPACITY)) grow(array, body);
    store(body, length, value);
    set_word(array, LENGTH, length + 1);
    scope_end(&handles, scope);
}
handle array_pop(handle array) {
    const struct scope scope = scope_begin(&handles);
    const uint64_t last = array_length(array) - 1;
    const handle value = handle_new(&handles), body = body_with(array, last), null = handle_new(&handles);
    load(value, body, last);
    store(body, last, null);
    set_word(array, LENGTH, last);
    return scope_escape(&handles, scope, value);
}

/* Exchanges two elements of a body. */
static void exchange(handle body, uint64_t i, uint64_t j) {
    const struct scope scope = scope_begin(&handles);
    const handle left = handle_new(&handles), right = handle_new(&handles);
    load(left, body, i);
    load(right, body, j);
    store(body, i, right);
    store(body, j, left);
    scope_end(&handles, scope);
}
void array_reverse(handle array) {
    const struct scope scope = scope_begin(&handles);
    const handle body = handle_new(&handles);
    load(body, array, BODY);
    for (uint64_t i = 0, j = array_length(array); i + 1 < j; i++) exchange(body, i, --j);
    scope_end(&handles, scope);
}

/* Moves the element at root down to its place in the heap that the first count elements of a body are: no element is
 * less than those at twice its index and 1 or 2 more. */
static void sift(handle body, uint64_t root, uint64_t count, int (*compare)(handle, handle)) {
    const struct scope scope = scope_begin(&handles);
    const handle item = handle_new(&handles), larger = handle_new(&handles), other = handle_new(&handles);
    load(item, body, root);
    for (uint64_t next; (next = 2 * root + 1) < count; root = next) {
        load(larger, body, next);
        if (next + 1 < count) {
            load(other, body, next + 1);
            if (compare(larger, other) < 0) {
                copy(larger, other);
                next++;
            }
        }
        if (compare(item, larger) >= 0) break;
        store(body, root, larger);
    }
    store(body, root, item);
    scope_end(&handles, scope);
}

/* A heapsort. */
void array_sort(handle array, int (*compare)(handle left, handle right)) {
    const struct scope scope = scope_begin(&handles);
    const handle body = handle_new(&handles);
    const uint64_t length = array_length(array);
    load(body, array, BODY);
    for (uint64_t i = length / 2; i-- > 0;) sift(body, i, length, compare);
    for (uint64_t i = length; i-- > 1;) {
        exchange(body, 0, i);
        sift(body, 0, i, compare);
    }
    scope_end(&handles, scope);
}
