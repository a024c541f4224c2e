/* The memory of the Lisp on the collector of Boehm, Demers and Weiser, for comparison. It has one thread. */
#include "lisp.h"

#include <gc/gc.h>
#include <stdio.h>

struct object {
    struct field {
        uint64_t word;
        struct object *reference;
    } fields[1];
};

_Thread_local uint64_t words[REGISTERS];
uint64_t global_words[GLOBALS];
static struct object *registers[REGISTERS], *globals[GLOBALS];
static uint32_t next_handle = FIRST_HANDLE;

/* Registers and globals are the roots, as no other data of the program names an object. */
void memory_open(const struct memory_options *options) {
    (void)options;
    GC_set_no_dls(1);
    GC_INIT();
    GC_clear_roots();
    GC_add_roots(registers, registers + REGISTERS);
    GC_add_roots(globals, globals + GLOBALS);
}

void memory_close(bool prints_what_it_did) {
    if (prints_what_it_did)
        fprintf(stderr, "%lu collections, %lu bytes for objects\n", (unsigned long)GC_get_gc_no(),
                (unsigned long)GC_get_heap_size());
}

void memory_make(unsigned target, uint64_t word, const uint32_t *sources, unsigned size) {
    struct object *made = GC_MALLOC(size * sizeof(struct field));
    if (!made) fail("out of memory");
    for (unsigned i = 0; i < size; i++) made->fields[i] = (struct field){words[sources[i]], registers[sources[i]]};
    registers[target] = made;
    words[target] = word;
}

static void take(unsigned target, const struct field *field) {
    words[target] = field->word;
    registers[target] = field->reference;
}

void memory_get(unsigned target, unsigned object, unsigned field) { take(target, &registers[object]->fields[field]); }

void memory_get_all(const uint32_t *targets, unsigned object, unsigned size) {
    const struct object *found = registers[object];
    for (unsigned i = 0; i < size; i++) take(targets[i], &found->fields[i]);
}

void memory_put(unsigned object, unsigned field, unsigned source) {
    registers[object]->fields[field] = (struct field){words[source], registers[source]};
}

void memory_set(unsigned target, uint64_t word) {
    words[target] = word;
    registers[target] = NULL;
}

void memory_copy(unsigned target, unsigned source) {
    words[target] = words[source];
    registers[target] = registers[source];
}

bool memory_same(unsigned left, unsigned right) {
    return words[left] == words[right] && registers[left] == registers[right];
}

void memory_get_global(unsigned target, unsigned global) {
    words[target] = global_words[global];
    registers[target] = globals[global];
}

void memory_put_global(unsigned global, unsigned source) {
    global_words[global] = words[source];
    globals[global] = registers[source];
}

struct memory_scope memory_begin_scope(void) { return (struct memory_scope){next_handle}; }

unsigned memory_handle(void) {
    if (next_handle == REGISTERS) fail("all registers are handles");
    return next_handle++;
}

void memory_end_scope(struct memory_scope scope) {
    while (next_handle > scope.first) memory_set(--next_handle, NIL);
}

unsigned memory_start(void (*work)(unsigned number)) {
    (void)work;
    fail("this memory has one thread");
}

void memory_join(unsigned number) { (void)number; }

void memory_rest(void) {}
