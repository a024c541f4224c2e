/* Random calls by three threads, with collections at once and in parts between them: each answers what a plain heap
 * that never moves or frees an object would, and no code but those that the header lists for such a program. */
#include "below.h"
#include "same.h"
#include <string.h>

enum { THREADS = 3, REGISTERS = 5, GLOBALS = 4, LAYOUTS = 3, REFS = 3, NUMS = 4, STEPS = 60000, NOTHING = -1 };

static const pauseless_sizes sizes = {.words = 64, .frames = 4, .pages = 4, .threads = THREADS, .workers = 1,
                                      .registers = REGISTERS, .globals = GLOBALS, .births = UINT64_C(1) << 32};
static const pauseless_layout layouts[LAYOUTS] = {{.refs = 1, .nums = 1}, {.refs = 3, .nums = 2}, {.nums = 4}};
static const pauseless_policy policy = {.words = 64, .free = 1, .percent = 70};

static pauseless_heap heap = PAUSELESS_NONE;

/* The plain heap: objects by their births; what registers and globals name, by births too. */
static struct {
    uint32_t layout;
    int refs[REFS];
    uint64_t nums[NUMS];
} objects[STEPS];

static int registers[THREADS][REGISTERS], globals[GLOBALS], births;

/* How often each code was met. */
static unsigned met[PAUSELESS_UNSOUND + 1];

static bool meets(pauseless_code code, pauseless_code wanted, int line) {
    met[pauseless_class(code)]++;
    same_at("the code", line, code, wanted);
    return code == PAUSELESS_DONE;
}

/* The call has this code. True if it is done. */
#define MEETS(call, wanted) meets(call, wanted, __LINE__)

/* Whether a register is null, or an index is past the last one of its object. */
static pauseless_code use_of(int object, uint32_t index, bool is_reference) {
    if (object == NOTHING) return PAUSELESS_NULL;
    const pauseless_layout layout = layouts[objects[object].layout];
    return index < (is_reference ? layout.refs : layout.nums) ? PAUSELESS_DONE
           : is_reference                                      ? PAUSELESS_NO_FIELD
                                                               : PAUSELESS_NO_DATUM;
}

/* All roots of a thread, and one global, become null: the heap has room again. */
static void lets_go(uint32_t t) {
    const uint32_t g = below(GLOBALS);
    for (uint32_t r = 0; r < REGISTERS; r++) {
        if (MEETS(pauseless_clear(&heap, t, r), PAUSELESS_DONE)) registers[t][r] = NOTHING;
    }
    if (MEETS(pauseless_store_global(&heap, t, g, 0), PAUSELESS_DONE)) globals[g] = NOTHING;
}

static void born(uint32_t t, uint32_t r, uint32_t layout) {
    memset(&objects[births], 0, sizeof objects[births]);
    for (int i = 0; i < REFS; i++) objects[births].refs[i] = NOTHING;
    objects[births].layout = layout;
    registers[t][r] = births++;
}

static void makes(uint32_t t, uint32_t r) {
    const uint32_t layout = below(LAYOUTS);
    const pauseless_code code = pauseless_make(&heap, &policy, t, r, layout);
    met[code]++;
    if (code == PAUSELESS_DONE) {
        born(t, r, layout);
    } else {
        SAME(code == PAUSELESS_NO_FRAMES || code == PAUSELESS_NO_PAGES, true);
        lets_go(t);
    }
}

/* An object with up to two references and one datum, where its layout has as many. */
static void makes_filled(uint32_t t, uint32_t r) {
    const uint32_t layout = below(LAYOUTS), sources[] = {below(REGISTERS), below(REGISTERS)};
    const uint32_t count = below(3), size = below(2);
    const uint64_t value = (uint64_t)below(UINT32_MAX) << 20;
    const pauseless_code code = pauseless_make_with(&heap, &policy, t, r, layout, sources, count, &value, size);
    met[pauseless_class(code)]++;
    if (count > layouts[layout].refs || size > layouts[layout].nums) {
        SAME(code, count > layouts[layout].refs ? PAUSELESS_NO_FIELD : PAUSELESS_NO_DATUM);
    } else if (code == PAUSELESS_DONE) {
        born(t, r, layout);
        for (uint32_t i = 0; i < count; i++) objects[registers[t][r]].refs[i] = registers[t][sources[i]];
        if (size > 0) objects[registers[t][r]].nums[0] = value;
    } else {
        SAME(code == PAUSELESS_NO_FRAMES || code == PAUSELESS_NO_PAGES, true);
        lets_go(t);
    }
}

/* Two loads of one object, one after the other. */
static void loads(uint32_t t, uint32_t r) {
    const pauseless_field_load fields[] = {{.target = below(REGISTERS), .field = below(REFS + 1)},
                                           {.target = below(REGISTERS), .field = below(REFS + 1)}};
    int *own = registers[t];
    uint64_t done = 9, wanted = 0;
    pauseless_code code = PAUSELESS_DONE;
    for (; wanted < 2; wanted++) {
        code = use_of(own[r], fields[wanted].field, true);
        if (code != PAUSELESS_DONE) break;
        own[fields[wanted].target] = objects[own[r]].refs[fields[wanted].field];
    }
    MEETS(pauseless_loads(&heap, t, r, fields, 2, &done), code);
    SAME(done, wanted);
}

/* A step of a thread at its registers. */
static void steps(uint32_t t, uint32_t r, uint32_t q) {
    const uint32_t i = below(REFS + 1), g = below(GLOBALS);
    const uint64_t value = (uint64_t)below(UINT32_MAX) << 20;
    int *own = registers[t];
    uint64_t found = 0;
    bool is_so = false;
    switch (below(11)) {
    case 0: makes(t, r); break;
    case 9: makes_filled(t, r); break;
    case 10: loads(t, r); break;
    case 1:
        if (MEETS(pauseless_load(&heap, t, q, r, i), use_of(own[r], i, true))) own[q] = objects[own[r]].refs[i];
        break;
    case 2:
        if (MEETS(pauseless_store(&heap, t, r, i, q), use_of(own[r], i, true))) objects[own[r]].refs[i] = own[q];
        break;
    case 3:
        if (MEETS(pauseless_set(&heap, t, r, i, value), use_of(own[r], i, false))) objects[own[r]].nums[i] = value;
        break;
    case 4:
        if (MEETS(pauseless_get(&heap, t, r, i, &found), use_of(own[r], i, false))) {
            SAME(found, objects[own[r]].nums[i]);
        }
        break;
    case 5:
        if (MEETS(pauseless_load_global(&heap, t, q, g), PAUSELESS_DONE)) own[q] = globals[g];
        break;
    case 6:
        if (MEETS(pauseless_store_global(&heap, t, g, q), PAUSELESS_DONE)) globals[g] = own[q];
        break;
    case 7:
        if (MEETS(pauseless_copy(&heap, t, q, r), PAUSELESS_DONE)) own[q] = own[r];
        break;
    default:
        if (MEETS(pauseless_same(&heap, t, r, q, &is_so), PAUSELESS_DONE)) SAME(is_so, own[r] == own[q]);
    }
}

/* A collection, or the next part of one. */
static void collects(void) {
    pauseless_collected done;
    bool has_ended;
    if (below(40) == 0) {
        MEETS(pauseless_collect(&heap, below(101), &done), PAUSELESS_DONE);
    } else {
        MEETS(pauseless_collect_some(&heap, below(101), below(9), &has_ended), PAUSELESS_DONE);
    }
}

/* Each register names what it should, and the heap is sound. */
static void is_as_it_should_be(void) {
    pauseless_object object;
    for (uint32_t t = 0; t < THREADS; t++) {
        for (uint32_t r = 0; r < REGISTERS; r++) {
            const int wanted = registers[t][r];
            if (MEETS(pauseless_look(&heap, t, r, &object), wanted == NOTHING ? PAUSELESS_NULL : PAUSELESS_DONE)) {
                SAME(object.birth, wanted);
                SAME(object.layout, objects[wanted].layout);
            }
        }
    }
    MEETS(pauseless_verify(&heap), PAUSELESS_DONE);
}

int main(void) {
    memset(registers, -1, sizeof registers);
    memset(globals, -1, sizeof globals);
    DONE(pauseless_new(&heap, &sizes, layouts, LAYOUTS));
    for (int step = 0; step < STEPS && differences < 20; step++) {
        if (below(4) == 0) collects();
        else steps(below(THREADS), below(REGISTERS), below(REGISTERS));
        if (step % 100 == 0) is_as_it_should_be();
    }
    is_as_it_should_be();
    SAME(births > 1000, true);
    SAME(met[PAUSELESS_NULL] > 100 && met[PAUSELESS_BAD_INDEX] > 100 && met[PAUSELESS_NO_FRAMES] > 0, true);
    pauseless_free(&heap);
    return differences > 0;
}
