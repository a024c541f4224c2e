/* Scopes of handles: what handles name after scopes begin, end and escape; that registers of ended scopes are null; and
 * what fails if all registers are taken. */
#include "../../examples/c/scopes.h"
#include "same.h"

#include <setjmp.h>
#include <string.h>

enum { ME = 1, FIRST = 3, COUNT = 6 };
static const pauseless_layout layouts[] = {{.refs = 1, .nums = 1}};
static const pauseless_policy policy = {.words = 64, .free = 1, .percent = 75};

static pauseless_heap heap = PAUSELESS_NONE;
static struct handles handles;
static jmp_buf outside;
static const char *failed;

static void jump(const char *what) {
    failed = what;
    longjmp(outside, 1);
}
static void note(const char *what) { failed = what; }

/* A new object with a number. */
static handle made(uint64_t number) {
    const handle object = handle_new(&handles);
    DONE(pauseless_make(&heap, &policy, ME, object, 0));
    DONE(pauseless_set(&heap, ME, object, 0, number));
    return object;
}
static uint64_t number_of(handle object) {
    uint64_t number = 0;
    DONE(pauseless_get(&heap, ME, object, 0, &number));
    return number;
}

/* Only registers below bound, and not those before the handles, name an object. */
static void names_below(uint32_t bound) {
    for (uint32_t i = 0; i < 16; i++) {
        bool is_null = false;
        DONE(pauseless_is_null(&heap, ME, i, &is_null));
        SAME(is_null, i < FIRST || i >= bound);
    }
}
static void fills_heap(void) {
    for (int i = 0; i < 500; i++) {
        const struct scope scope = scope_begin(&handles);
        made(1000);
        scope_end(&handles, scope);
    }
}
static void nested(void) {
    const struct scope outer = scope_begin(&handles);
    const handle first = made(1);
    SAME(first, FIRST);
    const struct scope inner = scope_begin(&handles);
    const handle second = made(2), third = handle_copy(&handles, first);
    fills_heap();
    SAME(number_of(first), 1);
    SAME(number_of(second), 2);
    SAME(number_of(third), 1);
    names_below(FIRST + 3);
    scope_end(&handles, inner);
    names_below(FIRST + 1);
    SAME(made(4), second);
    scope_end(&handles, outer);
    names_below(0);
    SAME(handles.most, FIRST + 4);
}

/* The first handle, another one and one of the outer scope escape; and one from a scope without handles. */
static void escapes(void) {
    const struct scope outer = scope_begin(&handles);
    const handle before = made(1);
    struct scope inner = scope_begin(&handles);
    handle first = made(2);
    made(3);
    SAME(number_of(scope_escape(&handles, inner, first)), 2);
    inner = scope_begin(&handles);
    made(4);
    made(5);
    SAME(number_of(scope_escape(&handles, inner, made(6))), 6);
    inner = scope_begin(&handles);
    made(7);
    SAME(number_of(scope_escape(&handles, inner, before)), 1);
    inner = scope_begin(&handles);
    SAME(number_of(scope_escape(&handles, inner, before)), 1);
    names_below(FIRST + 5);
    SAME(handles.next, FIRST + 5);
    SAME(number_of(before), 1);
    scope_end(&handles, outer);
    names_below(0);
}

/* If all registers are taken the failure jumps to where an outer scope is ended, which ends those in it. */
static void jumps(void) {
    volatile int taken = 0;
    const struct scope outer = scope_begin(&handles);
    if (!setjmp(outside)) {
        for (;;) {
            scope_begin(&handles);
            made(1);
            taken++;
        }
    }
    SAME(taken, COUNT);
    SAME(strncmp(failed, "all registers are handles", 25), 0);
    SAME(handles.next, FIRST + COUNT);
    scope_end(&handles, outer);
    names_below(0);
}

/* If the failure returns, no register is written. */
static void returns(void) {
    handles.fail = note;
    const struct scope outer = scope_begin(&handles);
    for (uint64_t i = 0; i < COUNT; i++) made(i);
    const struct scope inner = scope_begin(&handles);
    failed = NULL;
    SAME(handle_new(&handles), NO_HANDLE);
    SAME(failed != NULL, true);
    SAME(handle_copy(&handles, FIRST), NO_HANDLE);
    SAME(scope_escape(&handles, inner, FIRST), NO_HANDLE);
    SAME(pauseless_make(&heap, &policy, ME, NO_HANDLE, 0), PAUSELESS_NO_REGISTER);
    for (uint32_t i = 0; i < COUNT; i++) SAME(number_of(FIRST + i), i);
    scope_end(&handles, outer);
    failed = NULL;
    scope_end(&handles, inner);
    SAME(strcmp(failed, "a scope is ended after one that it is in"), 0);
    const struct scope last = scope_begin(&handles);
    made(9);
    failed = NULL;
    scope_escape(&handles, inner, FIRST);
    SAME(failed != NULL, true);
    names_below(FIRST + 1);
    failed = NULL;
    handle_copy(&handles, NO_HANDLE);
    SAME(strcmp(failed, pauseless_text(PAUSELESS_NO_REGISTER)), 0);
    scope_end(&handles, last);
}

int main(void) {
    pauseless_sizes sizes;
    pauseless_usual(64, 8, &sizes);
    sizes.threads = 2;
    DONE(pauseless_new(&heap, &sizes, layouts, 1));
    handles_open(&handles, &heap, ME, FIRST, COUNT, jump);
    nested();
    escapes();
    jumps();
    returns();
    DONE(pauseless_verify(&heap));
    pauseless_free(&heap);
    return differences > 0;
}
