/* The heap of the object model: all its calls of the library but those of scopes. */
#include "objects.h"

#include <stdio.h>
#include <stdlib.h>

/* The sizes of bodies and strings: two classes a doubling, up to the largest in a page. */
enum { LARGEST = 1023, MOST_CLASSES = 20, ME = 0, HEADER = 1, REGISTERS = 16 };
static struct size_classes classes = {.parts = 2};

static pauseless_heap heap = PAUSELESS_NONE;
static pauseless_policy policy;
static uint64_t made, check;
struct handles handles;

void fail(const char *what) {
    fflush(stdout);
    fprintf(stderr, "objects: %s\n", what);
    exit(1);
}
static void must(pauseless_code code) {
    if (code) fail(pauseless_text(code));
}

/* The size of the largest object in a page; 1 if it has no room for any, which pauseless_new refuses. */
static uint32_t largest_in(uint32_t words) { return words > LARGEST ? LARGEST : words > HEADER ? words - HEADER : 1; }

void objects_open(const struct options *options) {
    pauseless_sizes sizes;
    pauseless_layout layouts[SHAPES + 2 * MOST_CLASSES] = {
        [ARRAY] = {1, 2}, [TABLE] = {1, 2}, [ENTRY] = {3, 2}, [SYMBOL] = {2, 1}};
    classes.largest = largest_in(options->words);
    const uint32_t count = class_count(&classes);
    for (uint32_t i = 0; i < count; i++) {
        layouts[SHAPES + i].refs = (uint16_t)class_size(&classes, i);
        layouts[SHAPES + count + i].nums = (uint16_t)class_size(&classes, i);
    }
    pauseless_usual(options->words, options->frames, &sizes);
    must(pauseless_new(&heap, &sizes, layouts, SHAPES + 2 * count));
    policy = (pauseless_policy){
        .words = options->words, .free = options->frames / 8 > 0 ? options->frames / 8 : 1, .percent = 75};
    check = options->check;
    handles_open(&handles, &heap, ME, 0, REGISTERS, fail);
}

void objects_close(bool prints_what_it_did) {
    pauseless_counts counts;
    must(pauseless_count(&heap, &counts));
    if (check) must(pauseless_verify(&heap));
    if (prints_what_it_did)
        fprintf(stderr, "%llu objects, %u handles at most, %llu bytes for objects\n",
                (unsigned long long)counts.births, handles.most, 8ULL * counts.words * counts.frames);
    pauseless_free(&heap);
}
uint64_t objects_collect(void) {
    pauseless_collected done;
    must(pauseless_collect(&heap, policy.percent, &done));
    return done.live;
}
void make(handle target, uint32_t layout, const handle *sources, size_t count, const uint64_t *data, size_t size) {
    static const handle no_source;
    static const uint64_t no_data;
    must(pauseless_make_with(&heap, &policy, ME, target, layout, count > 0 ? sources : &no_source, count,
                             size > 0 ? data : &no_data, size));
    if (check && ++made % check == 0) must(pauseless_verify(&heap));
}

uint32_t room_for(uint64_t size) { return class_size(&classes, class_for(&classes, size)); }
uint32_t make_body(handle target, uint64_t size) {
    if (size > classes.largest) fail("an array is too long");
    make(target, SHAPES + class_for(&classes, size), NULL, 0, NULL, 0);
    return room_for(size);
}
void make_string(handle target, const uint64_t *data, size_t size) {
    if (size > classes.largest) fail("a string is too long");
    make(target, SHAPES + class_count(&classes) + class_for(&classes, size), NULL, 0, data, size);
}
void load(handle target, handle object, uint64_t field) {
    must(pauseless_load(&heap, ME, target, object, (uint32_t)field));
}
void store(handle object, uint64_t field, handle source) {
    must(pauseless_store(&heap, ME, object, (uint32_t)field, source));
}
uint64_t word(handle object, uint64_t index) {
    uint64_t value;
    must(pauseless_get(&heap, ME, object, (uint32_t)index, &value));
    return value;
}
void words(handle object, uint64_t index, uint64_t *values, size_t size) {
    must(pauseless_get_many(&heap, ME, object, (uint32_t)index, values, size));
}
void set_word(handle object, uint64_t index, uint64_t value) {
    must(pauseless_set(&heap, ME, object, (uint32_t)index, value));
}
bool peek(handle object, uint64_t index, uint64_t *value) {
    const pauseless_code code = pauseless_get(&heap, ME, object, (uint32_t)index, value);
    if (code == PAUSELESS_NULL) return false;
    must(code);
    return true;
}
bool is_null(handle object) {
    bool is_so;
    must(pauseless_is_null(&heap, ME, object, &is_so));
    return is_so;
}
void copy(handle target, handle source) { must(pauseless_copy(&heap, ME, target, source)); }
uint64_t identity(handle object) {
    pauseless_object seen;
    must(pauseless_look(&heap, ME, object, &seen));
    return seen.birth;
}
void load_global(handle target, uint32_t global) { must(pauseless_load_global(&heap, ME, target, global)); }
void store_global(uint32_t global, handle source) { must(pauseless_store_global(&heap, ME, global, source)); }
