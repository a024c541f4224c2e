/* Memory of frames that became free: it is kept for the next pages until it is given back, and the heap goes on
 * without it. */
#include "same.h"

static const pauseless_sizes sizes = {.words = 64, .frames = 8, .pages = 16, .threads = 1, .workers = 1,
                                      .registers = 2, .globals = 1, .births = 1000};
static const pauseless_layout layouts[] = {{.refs = 1, .nums = 1}};
static const pauseless_policy policy = {.words = 64, .free = 0, .percent = 75};

static pauseless_heap heap = PAUSELESS_NONE;

static void kept_is(uint64_t frames) {
    uint64_t kept = 99;
    DONE(pauseless_kept(&heap, &kept));
    SAME(kept, frames);
}

/* Six pages, of which the first has an object that global 0 names, and nobody keeps the others. */
static void makes_pages(void) {
    DONE(pauseless_new(&heap, &sizes, layouts, 1));
    for (int page = 0; page < 6; page++) {
        DONE(pauseless_refill(&heap, &policy, 0));
        for (int i = 0; i < 20; i++) DONE(pauseless_new_object(&heap, 0, 1, 0));
        if (page > 0) continue;
        DONE(pauseless_set(&heap, 0, 1, 0, 7));
        DONE(pauseless_store_global(&heap, 0, 0, 1));
    }
    DONE(pauseless_clear(&heap, 0, 1));
    DONE(pauseless_give_back(&heap, 0));
}

static void kept_memory(void) {
    pauseless_collected done;
    uint64_t value = 0;
    makes_pages();
    kept_is(0);
    DONE(pauseless_collect(&heap, 100, &done));
    SAME(done.emptied, 6);
    kept_is(6);
    DONE(pauseless_trim(&heap, 3));
    kept_is(3);
    DONE(pauseless_trim(&heap, 4));
    kept_is(3);
    DONE(pauseless_refill(&heap, &policy, 0));
    kept_is(2);
    DONE(pauseless_trim(&heap, 0));
    kept_is(0);
    DONE(pauseless_make(&heap, &policy, 0, 1, 0));
    DONE(pauseless_load_global(&heap, 0, 1, 0));
    DONE(pauseless_get(&heap, 0, 1, 0, &value));
    SAME(value, 7);
    DONE(pauseless_verify(&heap));
    pauseless_free(&heap);
}

static uint32_t free_frames(void) {
    pauseless_counts counts = {0};
    DONE(pauseless_count(&heap, &counts));
    return counts.free;
}

/* How few frames are free at least while objects are made that nobody keeps: one by one, filled, or each on a page of
 * its own. With a target of two frames, and 50 percent more than are used after a collection. */
static uint32_t least_free(bool follows, pauseless_policy by, int how) {
    const uint64_t number = 7;
    const uint32_t none = 0;
    uint32_t least = 8;
    DONE(pauseless_new(&heap, &sizes, layouts, 1));
    if (follows) DONE(pauseless_set_growth(&heap, 2, 50));
    for (int i = 0; i < 300; i++) {
        if (how == 0) DONE(pauseless_make(&heap, &by, 0, 1, 0));
        else if (how == 1) DONE(pauseless_make_with(&heap, &by, 0, 1, 0, &none, 0, &number, 1));
        else DONE(pauseless_refill(&heap, &by, 0));
        if (free_frames() < least) least = free_frames();
    }
    DONE(pauseless_verify(&heap));
    pauseless_free(&heap);
    return least;
}

static void growth(void) {
    const pauseless_policy whole = {.words = 64, .free = 1, .percent = 75};
    const pauseless_policy parts = {.words = 64, .free = 1, .percent = 75, .budget = 4096};
    for (int how = 0; how < 3; how++) {
        SAME(least_free(false, whole, how), 1);
        SAME(least_free(true, whole, how), 6);
        SAME(least_free(true, parts, how) > 0, true);
    }
}

/* Memory that a target doesn't allow goes back after a collection: of six pages, that of two is kept, as the object
 * then needs one page and three may be used. */
static void growth_trims(bool in_parts) {
    pauseless_collected done;
    bool has_ended = false;
    makes_pages();
    DONE(pauseless_set_growth(&heap, 3, 0));
    if (!in_parts) DONE(pauseless_collect(&heap, 100, &done));
    while (in_parts && !has_ended) DONE(pauseless_collect_some(&heap, 100, 4096, &has_ended));
    SAME(free_frames(), 7);
    kept_is(2);
    pauseless_free(&heap);
}

/* A handle without a heap. */
static void without_heap(void) {
    uint64_t kept = 20;
    SAME(pauseless_kept(&heap, &kept), PAUSELESS_NO_HEAP);
    SAME(pauseless_set_growth(&heap, 1, 1), PAUSELESS_NO_HEAP);
    SAME(kept, 20);
    SAME(pauseless_trim(&heap, 0), PAUSELESS_NO_HEAP);
}

int main(void) {
    kept_memory();
    growth();
    growth_trims(false);
    growth_trims(true);
    without_heap();
    return differences > 0;
}
