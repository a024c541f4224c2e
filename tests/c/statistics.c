/* What a heap and its collections have come to, in numbers: each number grows where its header says, and only there. */
#include "same.h"
#include <string.h>

/* Two threads of four registers, two globals, and six frames of 16 words, which have five objects of layout 0. */
static const pauseless_sizes sizes = {.words = 16, .frames = 6, .pages = 24, .threads = 2, .workers = 1,
                                      .registers = 4, .globals = 2, .births = 100000};
static const pauseless_layout layouts[] = {{.refs = 1, .nums = 1}};
static const pauseless_policy never = {.words = 16, .free = 0, .percent = 75};

static pauseless_heap heap = PAUSELESS_NONE;

static pauseless_statistics now(void) {
    pauseless_statistics statistics;
    memset(&statistics, 0xff, sizeof statistics);
    DONE(pauseless_get_statistics(&heap, &statistics));
    return statistics;
}

static void makes_heap(void) { DONE(pauseless_new(&heap, &sizes, layouts, 1)); }

/* Nothing was counted so far, and nothing is told of a handle without a heap. */
static void beginning(void) {
    static const pauseless_statistics nothing;
    pauseless_statistics untold = {.births = 7, .most_used = 9};
    SAME(pauseless_get_statistics(&heap, &untold), PAUSELESS_NO_HEAP);
    SAME(untold.births == 7 && untold.most_used == 9, true);
    makes_heap();
    const pauseless_statistics first = now();
    SAME(memcmp(&first, &nothing, sizeof nothing), 0);
    pauseless_free(&heap);
}

/* Objects in a buffer that has room for them count no collection; frames are counted for fresh buffers. */
static void without_collections(void) {
    makes_heap();
    for (int i = 0; i < 15; i++) DONE(pauseless_make(&heap, &never, 1, 0, 0));
    const pauseless_statistics after = now();
    SAME(after.births, 15);
    SAME(after.by_calls + after.by_policy + after.by_room + after.by_parts + after.parts, 0);
    SAME(after.used, 3);
    SAME(after.most_used, 3);
    pauseless_free(&heap);
}

/* A collection that a call asks for: two of three objects live, and of three pages two are emptied to one. */
static void by_calls(void) {
    pauseless_collected done;
    makes_heap();
    for (uint32_t page = 0; page < 3; page++) {
        DONE(pauseless_refill(&heap, &never, 1));
        DONE(pauseless_new_object(&heap, 1, page, 0));
    }
    DONE(pauseless_clear(&heap, 1, 1));
    DONE(pauseless_give_back(&heap, 1));
    DONE(pauseless_collect(&heap, 75, &done));
    const pauseless_statistics after = now();
    SAME(after.by_calls, 1);
    SAME(after.ended, 1);
    SAME(after.by_policy + after.by_room, 0);
    SAME(after.live, 2);
    SAME(after.live, done.live);
    SAME(done.live_words, 6);
    SAME(after.live_words, 6);
    SAME(done.copied, 6);
    SAME(after.copied, 6);
    SAME(after.emptied, done.emptied);
    SAME(after.most_used, 3);
    SAME(after.used < after.most_used, true);
    pauseless_free(&heap);
}

/* A policy that collects for each fresh buffer, and one that collects where no frame is free. */
static void by_policies(void) {
    const pauseless_policy always = {.words = 16, .free = 6, .percent = 75};
    makes_heap();
    DONE(pauseless_refill(&heap, &always, 1));
    SAME(now().by_policy, 1);
    DONE(pauseless_make(&heap, &always, 1, 0, 0));
    SAME(now().by_policy, 1);
    for (int i = 0; i < 5; i++) DONE(pauseless_make_with(&heap, &always, 1, 0, 0, NULL, 0, NULL, 0));
    pauseless_statistics after = now();
    SAME(after.by_policy, 2);
    SAME(after.ended, 2);
    SAME(after.by_room, 0);
    for (int i = 0; i < 60; i++) DONE(pauseless_make(&heap, &never, 1, 0, 0));
    after = now();
    SAME(after.by_policy > 2, true);
    SAME(after.by_room, 0);
    SAME(after.ended, after.by_policy);
    SAME(after.most_used, 6);
    SAME(after.emptied > 0, true);
    pauseless_free(&heap);
}

/* A heap with as many page numbers as frames: those of emptied pages aren't free before the next mark's end, so there
 * is no room for a page though frames are free. */
static void by_room(void) {
    pauseless_sizes few = sizes;
    few.pages = few.frames;
    DONE(pauseless_new(&heap, &few, layouts, 1));
    pauseless_collected done;
    for (int i = 0; i < 30; i++) DONE(pauseless_make(&heap, &never, 1, 0, 0));
    DONE(pauseless_give_back(&heap, 1));
    DONE(pauseless_collect(&heap, 75, &done));
    SAME(now().used < 6, true);
    SAME(now().by_room, 0);
    DONE(pauseless_make(&heap, &never, 1, 0, 0));
    const pauseless_statistics after = now();
    SAME(after.by_room, 1);
    SAME(after.by_calls, 1);
    SAME(after.by_policy, 0);
    SAME(after.ended, 2);
    pauseless_free(&heap);
}

/* A heap that is full has begun a collection that ended in vain. */
static void full(void) {
    makes_heap();
    pauseless_code code = PAUSELESS_DONE;
    while (code == PAUSELESS_DONE) {
        code = pauseless_make(&heap, &never, 1, 0, 0);
        if (code) break;
        DONE(pauseless_load_global(&heap, 1, 1, 0));
        DONE(pauseless_store(&heap, 1, 0, 0, 1));
        DONE(pauseless_store_global(&heap, 1, 0, 0));
    }
    SAME(code, PAUSELESS_NO_FRAMES);
    const pauseless_statistics after = now();
    SAME(after.by_policy > 0, true);
    SAME(after.by_policy, after.ended);
    SAME(after.live, after.births);
    pauseless_free(&heap);
}

/* Collections in parts, asked for by calls and for fresh buffers. */
static void in_parts(void) {
    const pauseless_policy paced = {.words = 16, .free = 16, .percent = 75, .budget = 4096};
    pauseless_sizes large = sizes;
    bool has_ended = false;
    uint64_t parts = 0;
    large.frames = 24;
    large.pages = 96;
    DONE(pauseless_new(&heap, &large, layouts, 1));
    DONE(pauseless_make(&heap, &never, 1, 0, 0));
    for (; !has_ended; parts++) DONE(pauseless_collect_some(&heap, 75, 100, &has_ended));
    pauseless_statistics after = now();
    SAME(after.parts, parts);
    SAME(after.by_parts, 1);
    SAME(after.ended_in_parts, 1);
    SAME(after.live_words, 3);
    SAME(after.copied, 0);
    for (int i = 0; i < 1000; i++) DONE(pauseless_make(&heap, &paced, 1, 0, 0));
    after = now();
    SAME(after.parts > parts, true);
    SAME(after.by_parts > 1, true);
    SAME(after.ended_in_parts <= after.by_parts && after.by_parts <= after.ended_in_parts + 1, true);
    SAME(after.emptied > 0, true);
    SAME(after.by_calls + after.by_policy + after.by_room, 0);
    pauseless_free(&heap);
}

/* Loads are counted for all threads together; after a mark has begun, one marks its object and heals its place. */
static void barriers(void) {
    bool has_ended;
    makes_heap();
    DONE(pauseless_make(&heap, &never, 1, 0, 0));
    DONE(pauseless_store_global(&heap, 1, 0, 0));
    DONE(pauseless_load_global(&heap, 0, 0, 0));
    DONE(pauseless_load_global(&heap, 1, 0, 0));
    SAME(now().loads, 2);
    SAME(now().marked, 0);
    DONE(pauseless_collect_some(&heap, 75, 100, &has_ended));
    DONE(pauseless_load_global(&heap, 0, 1, 0));
    const pauseless_statistics after = now();
    SAME(after.loads, 3);
    SAME(after.marked, 1);
    SAME(after.healed, 1);
    SAME(after.moved + after.changed, 0);
    pauseless_free(&heap);
}

int main(void) {
    beginning();
    without_collections();
    by_calls();
    by_policies();
    by_room();
    full();
    in_parts();
    barriers();
    return differences > 0;
}
