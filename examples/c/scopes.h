/* Handles in scopes, as V8's HandleScope and JNI's local frames, over the registers of one thread of a heap.
 *
 * A handle here is the number of a register, which any call of pauseless.h takes; that of a heap, pauseless_heap, is
 * another thing. What it names lives, and may move. Handles are a stack: handle_new takes the next register, and
 * scope_end clears and frees all that were taken since its scope_begin. Nothing here allocates.
 *
 *     struct handles handles;
 *     handles_open(&handles, &heap, 0, 0, 16, fail);
 *     struct scope scope = scope_begin(&handles);
 *     handle node = handle_new(&handles);
 *     pauseless_code code = pauseless_make(&heap, &policy, 0, node, NODE);
 *     scope_end(&handles, scope);
 *
 * A thread has as many registers as its heap was made with, at most 65,535. So a loop that takes handles begins a scope
 * in each turn, and a deep recursion keeps in objects what it needs later. A handle isn't used after the end of its
 * scope: nothing checks this, since its register is null then, or is another handle.
 *
 * Each thread has its own struct handles, and uses it while it may call the library. If a call fails, fail is called
 * with a text that says why. It ends the program, or jumps by longjmp to where an outer scope is ended, which ends the
 * inner ones too. If it returns when all registers are taken, the caller gets NO_HANDLE. */
#ifndef SCOPES_H
#define SCOPES_H

#include <pauseless.h>

typedef uint32_t handle;

/* No register has this number, so calls of pauseless.h with it return PAUSELESS_NO_REGISTER. */
#define NO_HANDLE UINT32_MAX

/* The handles of a thread. */
struct handles {
    pauseless_heap *heap;
    uint32_t thread;
    uint32_t next, end; /* the register of the next handle, and the one after the last */
    uint32_t most;      /* the most that next has been */
    void (*fail)(const char *what);
};

/* An open scope: the register of its first handle. */
struct scope {
    uint32_t first;
};

/* Begins with no handle. Handles are count registers of a thread, from first on, all null; the program may use its
 * other registers as it likes. */
static inline void handles_open(struct handles *handles, pauseless_heap *heap, uint32_t thread, uint32_t first,
                                uint32_t count, void (*fail)(const char *what)) {
    *handles = (struct handles){heap, thread, first, first + count, first, fail};
}

/* Begins a scope in the innermost one. */
static inline struct scope scope_begin(const struct handles *handles) { return (struct scope){handles->next}; }

/* Returns a new handle of the innermost scope, which names null. Fails if all registers are taken. */
static inline handle handle_new(struct handles *handles) {
    if (handles->next == handles->end) {
        handles->fail("all registers are handles: a scope takes too many, or isn't ended");
        return NO_HANDLE;
    }
    const handle taken = handles->next++;
    if (handles->next > handles->most) handles->most = handles->next;
    return taken;
}

/* Returns a new handle of the innermost scope, which names what another one names. */
static inline handle handle_copy(struct handles *handles, handle source) {
    const handle copy = handle_new(handles);
    if (copy == NO_HANDLE) return copy;
    const pauseless_code code = pauseless_copy(handles->heap, handles->thread, copy, source);
    if (code) handles->fail(pauseless_text(code));
    return copy;
}

/* Ends a scope, and those in it that are still open: their handles are cleared and freed. Fails if an outer
 * scope has ended before, and no handle was taken since. */
static inline void scope_end(struct handles *handles, struct scope scope) {
    if (scope.first > handles->next) handles->fail("a scope is ended after one that it is in");
    while (handles->next > scope.first) {
        const pauseless_code code = pauseless_clear(handles->heap, handles->thread, handles->next - 1);
        if (code) handles->fail(pauseless_text(code));
        handles->next--;
    }
}

/* Ends a scope, but for one value: returns a handle of the outer scope, which names what a handle names. It is the
 * first register of the ended scope; so the first handle of a scope escapes without a copy. */
static inline handle scope_escape(struct handles *handles, struct scope scope, handle value) {
    if (scope.first == handles->next && handle_new(handles) == NO_HANDLE) return NO_HANDLE;
    if (value != scope.first && scope.first < handles->next) {
        const pauseless_code code = pauseless_copy(handles->heap, handles->thread, scope.first, value);
        if (code) handles->fail(pauseless_text(code));
    }
    scope_end(handles, (struct scope){scope.first + 1});
    return scope.first;
}

#endif
