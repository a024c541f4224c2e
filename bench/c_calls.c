/* Calls of the library for C, each in a loop of its own, for bench/c_calls.py, which counts their instructions. An
 * object has two references and two data. Only the last loops may begin a collection, so no load finds anything to mark
 * or to correct. The argument is the number of turns of each loop. */
#include <pauseless.h>

#include <stdio.h>
#include <stdlib.h>

enum { PAIR, FIRST, SECOND, TARGET, EMPTY };

static pauseless_heap heap = PAUSELESS_NONE;

static const pauseless_layout layouts[] = {{.refs = 2, .nums = 2}};
static const pauseless_policy policy = {.words = 4096, .free = 1, .percent = 75};

static void must(pauseless_code code) {
    if (code == PAUSELESS_DONE) return;
    fprintf(stderr, "c_calls: %s\n", pauseless_text(code));
    exit(1);
}

/* A call, over and over. */
#define TURNS(call) \
    for (long turn = 0; turn < turns; turn++) must(call)

/* Makes a pair of two pairs. */
static void fill(void) {
    pauseless_sizes sizes;
    pauseless_usual(4096, 64, &sizes);
    must(pauseless_new(&heap, &sizes, layouts, 1));
    for (uint32_t place = PAIR; place < TARGET; place++) must(pauseless_make(&heap, &policy, 0, place, 0));
    for (uint32_t field = 0; field < 2; field++) must(pauseless_store(&heap, 0, PAIR, field, FIRST + field));
}

int main(int count, char **words) {
    const long turns = count == 2 ? atol(words[1]) : 0;
    const pauseless_field_load fields[] = {{FIRST, 0}, {SECOND, 1}};
    const uint32_t sources[] = {FIRST, SECOND};
    uint64_t data[] = {3, 4}, done;
    pauseless_object object;
    bool is_so;
    fill();
    TURNS(pauseless_load(&heap, 0, TARGET, PAIR, 1));
    TURNS(pauseless_loads(&heap, 0, PAIR, fields, 2, &done));
    TURNS(pauseless_store(&heap, 0, PAIR, 1, SECOND));
    TURNS(pauseless_get(&heap, 0, PAIR, 1, data));
    TURNS(pauseless_set(&heap, 0, PAIR, 1, data[1]));
    TURNS(pauseless_get_many(&heap, 0, PAIR, 0, data, 2));
    TURNS(pauseless_set_many(&heap, 0, PAIR, 0, data, 2));
    TURNS(pauseless_look(&heap, 0, PAIR, &object));
    TURNS(pauseless_same(&heap, 0, PAIR, FIRST, &is_so));
    TURNS(pauseless_is_null(&heap, 0, PAIR, &is_so));
    TURNS(pauseless_copy(&heap, 0, TARGET, PAIR));
    TURNS(pauseless_clear(&heap, 0, EMPTY));
    TURNS(pauseless_store_global(&heap, 0, 0, PAIR));
    TURNS(pauseless_load_global(&heap, 0, TARGET, 0));
    TURNS(pauseless_make(&heap, &policy, 0, TARGET, 0));
    TURNS(pauseless_make_with(&heap, &policy, 0, TARGET, 0, sources, 2, data, 2));
    pauseless_free(&heap);
    return 0;
}
