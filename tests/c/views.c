/* Views: the calls that read the whole heap by the places of objects, also between the parts of a collection; and
 * that a call which is refused writes nothing. */
#include "same.h"

static const pauseless_sizes sizes = {.words = 64, .frames = 8, .pages = 24, .threads = 3, .workers = 2,
                                      .registers = 5, .globals = 4, .births = 1000};
static const pauseless_layout layouts[] = {{.refs = 1, .nums = 1}};
static const pauseless_policy policy = {.words = 16, .free = 1, .percent = 75};

static pauseless_heap heap = PAUSELESS_NONE;

static void makes_heap(void) { DONE(pauseless_new(&heap, &sizes, layouts, 1)); }

/* The place of a global's object. */
static uint64_t viewed_global(uint32_t global) {
    uint64_t place = 0;
    DONE(pauseless_view_global(&heap, global, &place));
    return place;
}

/* The list of 0 to 3 in global 0 is read by its places. */
static void list_is_viewed(void) {
    uint64_t place = viewed_global(0), value = 9;
    for (uint64_t number = 0; number < 4; number++) {
        DONE(pauseless_view_get(&heap, place, 0, &value));
        SAME(value, number);
        DONE(pauseless_view_load(&heap, place, 0, &place));
    }
    SAME(place, 0);
}

/* A view shows registers, globals and objects, also between the parts of a collection. */
static void views(void) {
    uint64_t place = 9;
    bool has_ended = false;
    pauseless_object object = {.birth = 9};
    makes_heap();
    for (uint64_t number = 4; number-- > 0;) {
        DONE(pauseless_make(&heap, &policy, 0, 1, 0));
        DONE(pauseless_set(&heap, 0, 1, 0, number));
        DONE(pauseless_store(&heap, 0, 1, 0, 0));
        DONE(pauseless_copy(&heap, 0, 0, 1));
    }
    DONE(pauseless_store_global(&heap, 0, 0, 0));
    list_is_viewed();
    DONE(pauseless_view_register(&heap, 0, 0, &place));
    SAME(place, viewed_global(0));
    DONE(pauseless_view_look(&heap, place, &object));
    SAME(object.birth == 3 && object.layout == 0, true);
    DONE(pauseless_view_register(&heap, 0, 2, &place));
    SAME(place, 0);
    for (int part = 0; part < 200 && !has_ended; part++) {
        DONE(pauseless_collect_some(&heap, 100, 1, &has_ended));
        list_is_viewed();
    }
    SAME(has_ended, true);
    pauseless_free(&heap);
}

/* What isn't there isn't viewed, and nothing is written. */
static void not_viewed(void) {
    uint64_t place = 9, value = 9;
    pauseless_object object = {.birth = 9};
    SAME(pauseless_view_global(&heap, 0, &place), PAUSELESS_NO_HEAP);
    makes_heap();
    SAME(pauseless_view_register(&heap, 3, 0, &place), PAUSELESS_NO_ACTOR);
    SAME(pauseless_view_register(&heap, 0, 64, &place), PAUSELESS_NO_REGISTER);
    SAME(pauseless_view_global(&heap, 64, &place), PAUSELESS_NO_GLOBAL);
    SAME(pauseless_view_load(&heap, 0, 0, &place), PAUSELESS_NULL);
    SAME(pauseless_view_get(&heap, 0, 0, &value), PAUSELESS_NULL);
    SAME(pauseless_view_look(&heap, 0, &object), PAUSELESS_NULL);
    SAME(pauseless_view_look(&heap, 1ull << 40, &object), PAUSELESS_BAD_INDEX);
    DONE(pauseless_make(&heap, &policy, 0, 0, 0));
    DONE(pauseless_store_global(&heap, 0, 0, 0));
    SAME(pauseless_view_load(&heap, viewed_global(0), 1023, &place), PAUSELESS_NO_FIELD);
    SAME(pauseless_view_load(&heap, 1ull << 40, 0, &place), PAUSELESS_BAD_INDEX);
    SAME(pauseless_view_get(&heap, viewed_global(0), 1023, &value), PAUSELESS_NO_DATUM);
    SAME(pauseless_view_get(&heap, 1ull << 40, 0, &value), PAUSELESS_BAD_INDEX);
    SAME(place == 9 && value == 9 && object.birth == 9, true);
    pauseless_free(&heap);
}

int main(void) {
    views();
    not_viewed();
    return differences > 0;
}
