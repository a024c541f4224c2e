/* Each function of the header, with arguments of which no two can be exchanged unnoticed; and that a call which isn't
 * done writes nothing. tests/c.sh looks that each name of the header is in this file. */
#include "same.h"
#include <string.h>

/* Three threads of five registers, four globals, and eight frames of 64 words. */
static const pauseless_sizes sizes = {.words = 64, .frames = 8, .pages = 24, .threads = 3, .workers = 2,
                                      .registers = 5, .globals = 4, .births = 1000};

/* Objects of 3, 6 and 5 words. */
static const pauseless_layout layouts[] = {{.refs = 1, .nums = 1}, {.refs = 3, .nums = 2}, {.refs = 0, .nums = 4}};

static pauseless_heap heap = PAUSELESS_NONE;

static void makes_heap(void) { DONE(pauseless_new(&heap, &sizes, layouts, 3)); }

static void usual_sizes(void) {
    pauseless_sizes usual;
    pauseless_usual(64, 8, &usual);
    SAME(usual.words, 64);
    SAME(usual.frames, 8);
    SAME(usual.pages, 16);
    SAME(usual.threads, 1);
    SAME(usual.workers, 1);
    SAME(usual.registers, 16);
    SAME(usual.globals, 64);
    SAME(usual.births, UINT64_C(1) << 56);
}

/* Each size has the code of its own range. */
static void ranges(void) {
    pauseless_sizes wrong[8];
    for (int i = 0; i < 8; i++) wrong[i] = sizes;
    wrong[0].words = 48;
    wrong[1].frames = 1048576;
    wrong[2].pages = 7;
    wrong[3].threads = 1025;
    wrong[4].workers = 17;
    wrong[5].registers = 65536;
    wrong[6].globals = 65536;
    wrong[7].births = (UINT64_C(1) << 56) + 1;
    for (int i = 0; i < 7; i++) SAME(pauseless_new(&heap, &wrong[i], layouts, 3), PAUSELESS_RANGE_OF_WORDS + i);
    SAME(pauseless_new(&heap, &wrong[7], layouts, 3), PAUSELESS_RANGE_OF_BIRTHS);
    SAME(pauseless_new(&heap, &sizes, layouts, 0), PAUSELESS_RANGE_OF_LAYOUTS);
}

static void counts_are(uint64_t births, uint32_t free) {
    pauseless_counts counts;
    DONE(pauseless_count(&heap, &counts));
    SAME(counts.births, births);
    SAME(counts.words, 64);
    SAME(counts.frames, 8);
    SAME(counts.free, free);
}

static uint32_t free_frames(void) {
    pauseless_counts counts = {0};
    DONE(pauseless_count(&heap, &counts));
    return counts.free;
}

/* A buffer of 20 words has room for four objects of layout 2. */
static void buffers(void) {
    makes_heap();
    SAME(pauseless_new(&heap, &sizes, layouts, 3), PAUSELESS_HAS_HEAP);
    counts_are(0, 8);
    SAME(pauseless_new_object(&heap, 1, 4, 2), PAUSELESS_NO_ROOM);
    SAME(pauseless_take(&heap, 1, 65), PAUSELESS_BAD_WORDS);
    DONE(pauseless_take(&heap, 1, 20));
    SAME(pauseless_take(&heap, 1, 20), PAUSELESS_HAS_BUFFER);
    for (int i = 0; i < 4; i++) DONE(pauseless_new_object(&heap, 1, 4, 2));
    SAME(pauseless_new_object(&heap, 1, 4, 2), PAUSELESS_NO_ROOM);
    counts_are(4, 7);
    SAME(pauseless_give_back(&heap, 2), PAUSELESS_NO_ROOM);
    DONE(pauseless_give_back(&heap, 1));
    SAME(pauseless_give_back(&heap, 1), PAUSELESS_NO_ROOM);
    pauseless_free(&heap);
}

static void object_is(uint32_t thread, uint32_t reg, pauseless_object wanted) {
    pauseless_object object;
    DONE(pauseless_look(&heap, thread, reg, &object));
    SAME(object.birth, wanted.birth);
    SAME(object.layout, wanted.layout);
    SAME(object.refs, wanted.refs);
    SAME(object.nums, wanted.nums);
}

static bool is_null(uint32_t thread, uint32_t reg) {
    bool is_so = false;
    DONE(pauseless_is_null(&heap, thread, reg, &is_so));
    return is_so;
}

static bool is_same(uint32_t thread, uint32_t left, uint32_t right) {
    bool is_so = false;
    DONE(pauseless_same(&heap, thread, left, right, &is_so));
    return is_so;
}

/* A fresh buffer of 32 words has room for six objects of layout 2; and make gets one by itself. */
static void fresh_buffers(void) {
    const pauseless_policy policy = {.words = 32, .free = 0, .percent = 75};
    makes_heap();
    DONE(pauseless_refill(&heap, &policy, 1));
    for (int i = 0; i < 6; i++) DONE(pauseless_new_object(&heap, 1, 4, 2));
    SAME(pauseless_new_object(&heap, 1, 4, 2), PAUSELESS_NO_ROOM);
    DONE(pauseless_make(&heap, &policy, 2, 3, 1));
    object_is(2, 3, (pauseless_object){.birth = 6, .layout = 1, .refs = 3, .nums = 2});
    object_is(1, 4, (pauseless_object){.birth = 5, .layout = 2, .refs = 0, .nums = 4});
    SAME(is_null(2, 4), true);
    SAME(is_null(1, 3), true);
    pauseless_free(&heap);
}

/* Pages without a live object are emptied for a fresh buffer if at most policy.free frames are free, and only then. */
static void frames_that_are_low(void) {
    const pauseless_policy never = {.words = 64, .free = 0, .percent = 50};
    const pauseless_policy always = {.words = 64, .free = 8, .percent = 50};
    makes_heap();
    for (int i = 0; i < 4; i++) DONE(pauseless_refill(&heap, &never, 1));
    counts_are(0, 4);
    DONE(pauseless_make(&heap, &never, 1, 4, 2));
    DONE(pauseless_clear(&heap, 1, 4));
    DONE(pauseless_refill(&heap, &never, 1));
    counts_are(1, 3);
    DONE(pauseless_refill(&heap, &always, 1));
    counts_are(1, 7);
    pauseless_free(&heap);
}

/* Register 3 of thread 2 has an object of layout 1, register 0 one of layout 0, and the others are null. */
static void makes_two(void) {
    const pauseless_policy policy = {.words = 64, .free = 1, .percent = 75};
    makes_heap();
    DONE(pauseless_make(&heap, &policy, 2, 3, 1));
    DONE(pauseless_make(&heap, &policy, 2, 0, 0));
}

static void references(void) {
    makes_two();
    DONE(pauseless_store(&heap, 2, 3, 1, 0));
    DONE(pauseless_load(&heap, 2, 4, 3, 1));
    SAME(is_same(2, 4, 0), true);
    SAME(is_same(2, 4, 3), false);
    DONE(pauseless_load(&heap, 2, 4, 3, 0));
    SAME(is_null(2, 4), true);
    DONE(pauseless_load(&heap, 2, 4, 3, 2));
    SAME(is_null(2, 4), true);
    SAME(pauseless_load(&heap, 2, 4, 3, 3), PAUSELESS_NO_FIELD);
    SAME(pauseless_load(&heap, 2, 4, 1, 0), PAUSELESS_NULL);
    pauseless_free(&heap);
}

/* Loads of an object, each into its register, in order; they stop at the first that fails, and tell how many are
 * done. */
static void several_loads(void) {
    const pauseless_field_load loads[] = {{.target = 4, .field = 1}, {.target = 1, .field = 2},
                                          {.target = 3, .field = 0}};
    const pauseless_field_load wrong[] = {{.target = 1, .field = 1}, {.target = 4, .field = 3},
                                          {.target = 0, .field = 1}};
    uint64_t done = 9;
    makes_two();
    DONE(pauseless_store(&heap, 2, 3, 1, 0));
    DONE(pauseless_store(&heap, 2, 3, 0, 3));
    DONE(pauseless_copy(&heap, 2, 1, 3));
    SAME(pauseless_loads(&heap, 2, 3, wrong, 3, &done), PAUSELESS_NO_FIELD);
    SAME(done, 1);
    SAME(is_same(2, 1, 0), true);
    SAME(is_null(2, 4), true);
    DONE(pauseless_loads(&heap, 2, 3, loads, 3, &done));
    SAME(done, 3);
    SAME(is_same(2, 4, 0), true);
    SAME(is_null(2, 1), true);
    DONE(pauseless_loads(&heap, 2, 3, loads, 0, &done));
    SAME(done, 0);
    SAME(pauseless_loads(&heap, 2, 1, loads, 3, &done), PAUSELESS_NULL);
    SAME(done, 0);
    pauseless_free(&heap);
}

/* Several data of an object, read and written all or not at all. */
static void several_data(void) {
    const uint64_t numbers[] = {11, 12, 13};
    const pauseless_policy policy = {.words = 64, .free = 1, .percent = 75};
    uint64_t values[] = {1, 2, 3};
    makes_two();
    DONE(pauseless_make(&heap, &policy, 2, 4, 2));
    DONE(pauseless_set_many(&heap, 2, 4, 1, numbers, 3));
    DONE(pauseless_get_many(&heap, 2, 4, 2, values, 2));
    SAME(values[0] == 12 && values[1] == 13 && values[2] == 3, true);
    SAME(pauseless_set_many(&heap, 2, 4, 2, numbers, 3), PAUSELESS_NO_DATUM);
    DONE(pauseless_get_many(&heap, 2, 4, 0, values, 3));
    SAME(values[0] == 0 && values[1] == 11 && values[2] == 12, true);
    SAME(pauseless_get_many(&heap, 2, 4, 5, values, 1), PAUSELESS_NO_DATUM);
    SAME(pauseless_get_many(&heap, 2, 1, 0, values, 1), PAUSELESS_NULL);
    DONE(pauseless_get_many(&heap, 2, 1, 9, values, 0));
    DONE(pauseless_set_many(&heap, 2, 1, 9, numbers, 0));
    pauseless_free(&heap);
}

/* Data that are copied within an object, and bytes of them: bytes.c has more. */
static void bytes_of_data(void) {
    const uint64_t numbers[] = {0x1716151413121110, 0x2726252423222120, 0x3736353433323130};
    const pauseless_policy policy = {.words = 64, .free = 1, .percent = 75};
    unsigned char bytes[] = {1, 2, 3};
    uint64_t values[] = {0, 0, 0};
    makes_two();
    DONE(pauseless_make(&heap, &policy, 2, 4, 2));
    DONE(pauseless_set_many(&heap, 2, 4, 0, numbers, 3));
    DONE(pauseless_copy_data(&heap, 2, 4, 1, 4, 0, 3));
    DONE(pauseless_get_many(&heap, 2, 4, 1, values, 3));
    SAME(values[0] == numbers[0] && values[1] == numbers[1] && values[2] == numbers[2], true);
    DONE(pauseless_read_bytes(&heap, 2, 4, 15, bytes, 3));
    SAME(bytes[0] == 0x17 && bytes[1] == 0x20 && bytes[2] == 0x21, true);
    DONE(pauseless_write_bytes(&heap, 2, 4, 10, bytes, 3));
    DONE(pauseless_get_many(&heap, 2, 4, 0, values, 2));
    SAME(values[0], numbers[0]);
    SAME(values[1], 0x1716152120171110);
    pauseless_free(&heap);
}

/* Loads after one into the object's own register are of the object that it names then. */
static void loads_on_the_way(void) {
    const pauseless_field_load loads[] = {{.target = 3, .field = 1}, {.target = 4, .field = 0}};
    uint64_t done = 9;
    makes_two();
    DONE(pauseless_store(&heap, 2, 3, 1, 0));
    DONE(pauseless_store(&heap, 2, 0, 0, 0));
    DONE(pauseless_loads(&heap, 2, 3, loads, 2, &done));
    SAME(done, 2);
    SAME(is_same(2, 3, 0), true);
    SAME(is_same(2, 4, 0), true);
    pauseless_free(&heap);
}

static void globals(void) {
    makes_two();
    DONE(pauseless_store_global(&heap, 2, 3, 0));
    DONE(pauseless_load_global(&heap, 2, 1, 3));
    SAME(is_same(2, 1, 0), true);
    DONE(pauseless_load_global(&heap, 2, 1, 0));
    SAME(is_null(2, 1), true);
    DONE(pauseless_load_global(&heap, 1, 4, 3));
    object_is(1, 4, (pauseless_object){.birth = 1, .layout = 0, .refs = 1, .nums = 1});
    SAME(pauseless_load_global(&heap, 2, 1, 4), PAUSELESS_NO_GLOBAL);
    pauseless_free(&heap);
}

static void registers(void) {
    makes_two();
    DONE(pauseless_copy(&heap, 2, 1, 3));
    SAME(is_same(2, 1, 3), true);
    SAME(is_same(2, 1, 0), false);
    DONE(pauseless_clear(&heap, 2, 1));
    SAME(is_null(2, 1), true);
    SAME(is_null(2, 3), false);
    SAME(pauseless_clear(&heap, 3, 1), PAUSELESS_NO_ACTOR);
    SAME(pauseless_clear(&heap, 2, 5), PAUSELESS_NO_REGISTER);
    pauseless_free(&heap);
}

static uint64_t datum(uint32_t thread, uint32_t object, uint32_t index) {
    uint64_t value = 0;
    DONE(pauseless_get(&heap, thread, object, index, &value));
    return value;
}

/* Objects that nobody keeps, filled or not, are made while the heap is collected in parts, which ends before so few
 * frames are free that a complete collection is due. */
static void parts_for_buffers(bool are_filled) {
    const pauseless_policy policy = {.words = 64, .free = 6, .percent = 75, .budget = 4096};
    const uint64_t numbers[] = {1, 2};
    const uint32_t none = 0;
    makes_heap();
    for (int i = 0; i < 900; i++) {
        pauseless_counts counts;
        if (are_filled) DONE(pauseless_make_with(&heap, &policy, 1, 4, 2, &none, 0, numbers, 2));
        else DONE(pauseless_make(&heap, &policy, 1, 4, 2));
        SAME(datum(1, 4, 1), are_filled ? 2 : 0);
        DONE(pauseless_count(&heap, &counts));
        SAME(counts.free > 1, true);
    }
    DONE(pauseless_verify(&heap));
    pauseless_free(&heap);
}

static void data(void) {
    const uint64_t large = UINT64_C(0xfedcba9876543210);
    makes_two();
    DONE(pauseless_set(&heap, 2, 3, 1, large));
    SAME(datum(2, 3, 1), large);
    SAME(datum(2, 3, 0), 0);
    SAME(datum(2, 0, 0), 0);
    SAME(pauseless_set(&heap, 2, 3, 2, 1), PAUSELESS_NO_DATUM);
    pauseless_free(&heap);
}

/* An object with its references and data: the register that gets it may be a source. */
static void filled(void) {
    const pauseless_policy policy = {.words = 64, .free = 1, .percent = 75};
    const uint32_t sources[] = {0, 4, 1};
    const uint64_t numbers[] = {17, UINT64_C(0xfedcba9876543210)};
    makes_two();
    DONE(pauseless_make_with(&heap, &policy, 2, 4, 1, sources, 3, numbers, 2));
    object_is(2, 4, (pauseless_object){.birth = 2, .layout = 1, .refs = 3, .nums = 2});
    SAME(datum(2, 4, 0), 17);
    SAME(datum(2, 4, 1), numbers[1]);
    DONE(pauseless_load(&heap, 2, 1, 4, 0));
    SAME(is_same(2, 1, 0), true);
    DONE(pauseless_load(&heap, 2, 1, 4, 1));
    SAME(is_same(2, 1, 4), true);
    DONE(pauseless_load(&heap, 2, 1, 4, 2));
    SAME(is_null(2, 1), true);
    DONE(pauseless_make_with(&heap, &policy, 2, 1, 1, sources, 1, numbers, 1));
    SAME(datum(2, 1, 0), 17);
    SAME(datum(2, 1, 1), 0);
    DONE(pauseless_load(&heap, 2, 4, 1, 1));
    SAME(is_null(2, 4), true);
    pauseless_free(&heap);
}

/* An object that can't be filled isn't made. */
static void not_filled(void) {
    const pauseless_policy policy = {.words = 64, .free = 1, .percent = 75};
    const uint32_t sources[] = {0, 0, 5, 0};
    const uint64_t numbers[] = {1, 2, 3};
    makes_two();
    SAME(pauseless_make_with(&heap, &policy, 2, 4, 1, sources, 4, numbers, 0), PAUSELESS_NO_REGISTER);
    SAME(pauseless_make_with(&heap, &policy, 2, 4, 1, sources, 3, numbers, 0), PAUSELESS_NO_REGISTER);
    SAME(pauseless_make_with(&heap, &policy, 2, 4, 1, sources, 2, numbers, 3), PAUSELESS_NO_DATUM);
    SAME(pauseless_make_with(&heap, &policy, 2, 4, 3, sources, 0, numbers, 0), PAUSELESS_NO_LAYOUT);
    SAME(pauseless_make_with(&heap, &policy, 2, 5, 1, sources, 2, numbers, 2), PAUSELESS_NO_REGISTER);
    SAME(pauseless_make_with(&heap, &policy, 3, 4, 1, sources, 2, numbers, 2), PAUSELESS_NO_ACTOR);
    SAME(is_null(2, 4), true);
    counts_are(2, 7);
    DONE(pauseless_make_with(&heap, &policy, 2, 4, 1, sources, 2, numbers, 2));
    counts_are(3, 7);
    pauseless_free(&heap);
}

/* Five pages, each with one live object of layout 0 in a list from global 3, and dead ones behind it. */
static void makes_sparse(void) {
    const pauseless_policy policy = {.words = 64, .free = 0, .percent = 0};
    makes_heap();
    for (int page = 0; page < 5; page++) {
        DONE(pauseless_refill(&heap, &policy, 2));
        DONE(pauseless_new_object(&heap, 2, 3, 0));
        DONE(pauseless_load_global(&heap, 2, 0, 3));
        DONE(pauseless_store(&heap, 2, 3, 0, 0));
        DONE(pauseless_store_global(&heap, 2, 3, 3));
        for (int i = 0; i < 12; i++) DONE(pauseless_new_object(&heap, 2, 4, 2));
    }
    DONE(pauseless_clear(&heap, 2, 0));
    DONE(pauseless_clear(&heap, 2, 3));
    DONE(pauseless_clear(&heap, 2, 4));
    DONE(pauseless_give_back(&heap, 2));
    SAME(free_frames(), 3);
}

/* The objects of the list, by their births from the newest on: one in 13. */
static void list_is_whole(void) {
    DONE(pauseless_load_global(&heap, 2, 1, 3));
    for (uint32_t page = 5; page-- > 0;) {
        object_is(2, 1, (pauseless_object){.birth = 13 * page, .layout = 0, .refs = 1, .nums = 1});
        DONE(pauseless_load(&heap, 2, 1, 1, 0));
    }
    SAME(is_null(2, 1), true);
    DONE(pauseless_verify(&heap));
}

/* Pages with more live words of a hundred than the percent stay; of five sparse ones the objects go to one page. */
static void collections(void) {
    pauseless_collected done;
    makes_sparse();
    DONE(pauseless_collect(&heap, 0, &done));
    SAME(done.live, 5);
    SAME(done.emptied, 0);
    DONE(pauseless_collect(&heap, 100, &done));
    SAME(done.live, 5);
    SAME(done.emptied, 5);
    SAME(free_frames(), 7);
    list_is_whole();
    pauseless_free(&heap);
}

/* How many parts a collection takes; 1,000 where it doesn't end before. */
static unsigned parts_of(uint32_t percent, uint32_t budget) {
    for (unsigned parts = 1; parts < 1000; parts++) {
        bool has_ended = false;
        DONE(pauseless_collect_some(&heap, percent, budget, &has_ended));
        DONE(pauseless_verify(&heap));
        if (has_ended) return parts;
    }
    return 1000;
}

/* The same in parts: scans take more of them with a budget of one object, and only a collection that may empty the
 * pages does. */
static void parts(void) {
    makes_sparse();
    const unsigned few = parts_of(0, 1000);
    const unsigned more = parts_of(0, 1);
    SAME(few < more && more < 1000, true);
    SAME(free_frames(), 3);
    SAME(parts_of(100, 1000) < 1000, true);
    SAME(free_frames(), 7);
    list_is_whole();
    pauseless_free(&heap);
}

/* Collections that empty two pages at most, whose objects go to a third one, and then all. */
static void few_at_once(void) {
    makes_sparse();
    DONE(pauseless_empty_at_most(&heap, 2));
    SAME(parts_of(100, 1000) < 1000, true);
    SAME(free_frames(), 4);
    DONE(pauseless_empty_at_most(&heap, UINT32_MAX));
    SAME(parts_of(100, 1000) < 1000, true);
    SAME(free_frames(), 7);
    list_is_whole();
    pauseless_free(&heap);
}

/* The first bytes of the text that there is room for, and no other. */
static void reports(void) {
    char text[8] = "-------";
    uint64_t length = 0, whole = 0;
    makes_two();
    DONE(pauseless_report(&heap, text, 5, &length));
    SAME(strcmp(text, "phase--"), 0);
    DONE(pauseless_report(&heap, text, 0, &whole));
    SAME(whole, length);
    SAME(whole > 100, true);
    pauseless_free(&heap);
}

/* Calls that fail at the heap's registers, and write nothing. */
static void unwritten(void) {
    pauseless_object object = {.birth = 11, .layout = 12, .refs = 13, .nums = 14};
    bool is_so = true;
    uint64_t value = 15;
    makes_heap();
    SAME(pauseless_look(&heap, 2, 3, &object), PAUSELESS_NULL);
    SAME(object.birth == 11 && object.layout == 12 && object.refs == 13 && object.nums == 14, true);
    SAME(pauseless_same(&heap, 2, 3, 5, &is_so), PAUSELESS_NO_REGISTER);
    SAME(is_so, true);
    SAME(pauseless_is_null(&heap, 2, 5, &is_so), PAUSELESS_NO_REGISTER);
    SAME(is_so, true);
    is_so = false;
    SAME(pauseless_same(&heap, 3, 0, 0, &is_so), PAUSELESS_NO_ACTOR);
    SAME(is_so, false);
    SAME(pauseless_is_null(&heap, 3, 0, &is_so), PAUSELESS_NO_ACTOR);
    SAME(is_so, false);
    SAME(pauseless_get(&heap, 2, 3, 0, &value), PAUSELESS_NULL);
    SAME(value, 15);
    pauseless_free(&heap);
}

/* Calls that write something for C, of a handle without a heap. */
static void unwritten_without_heap(void) {
    pauseless_object object = {.birth = 11};
    pauseless_collected done = {.live = 12, .emptied = 13};
    pauseless_counts counts = {.births = 14, .words = 15, .frames = 16, .free = 17};
    bool is_so = true;
    uint64_t value = 18, loaded = 19;
    char text[] = "-";
    SAME(pauseless_look(&heap, 0, 0, &object), PAUSELESS_NO_HEAP);
    SAME(pauseless_same(&heap, 0, 0, 0, &is_so), PAUSELESS_NO_HEAP);
    SAME(pauseless_is_null(&heap, 0, 0, &is_so), PAUSELESS_NO_HEAP);
    SAME(pauseless_get(&heap, 0, 0, 0, &value), PAUSELESS_NO_HEAP);
    SAME(pauseless_collect(&heap, 75, &done), PAUSELESS_NO_HEAP);
    SAME(pauseless_collect_some(&heap, 75, 9, &is_so), PAUSELESS_NO_HEAP);
    SAME(pauseless_count(&heap, &counts), PAUSELESS_NO_HEAP);
    SAME(pauseless_report(&heap, text, 1, &value), PAUSELESS_NO_HEAP);
    SAME(pauseless_loads(&heap, 0, 0, &(pauseless_field_load){.target = 0}, 1, &loaded), PAUSELESS_NO_HEAP);
    SAME(pauseless_get_many(&heap, 0, 0, 0, &value, 1), PAUSELESS_NO_HEAP);
    SAME(pauseless_set_many(&heap, 0, 0, 0, &value, 1), PAUSELESS_NO_HEAP);
    SAME(pauseless_copy_data(&heap, 0, 0, 0, 0, 0, 1), PAUSELESS_NO_HEAP);
    SAME(pauseless_read_bytes(&heap, 0, 0, 0, &value, 1), PAUSELESS_NO_HEAP);
    SAME(pauseless_write_bytes(&heap, 0, 0, 0, &value, 1), PAUSELESS_NO_HEAP);
    SAME(loaded, 0);
    SAME(object.birth, 11);
    SAME(done.live == 12 && done.emptied == 13, true);
    SAME(counts.births == 14 && counts.words == 15 && counts.frames == 16 && counts.free == 17, true);
    SAME(is_so, true);
    SAME(value, 18);
    SAME(text[0], '-');
}

/* The other calls, of a handle without a heap. */
static void without_heap(void) {
    const pauseless_policy policy = {.words = 32, .free = 1, .percent = 75};
    SAME(pauseless_take(&heap, 0, 16), PAUSELESS_NO_HEAP);
    SAME(pauseless_give_back(&heap, 0), PAUSELESS_NO_HEAP);
    SAME(pauseless_new_object(&heap, 0, 0, 0), PAUSELESS_NO_HEAP);
    SAME(pauseless_make(&heap, &policy, 0, 0, 0), PAUSELESS_NO_HEAP);
    SAME(pauseless_make_with(&heap, &policy, 0, 0, 0, &(uint32_t){0}, 1, &(uint64_t){0}, 1), PAUSELESS_NO_HEAP);
    SAME(pauseless_refill(&heap, &policy, 0), PAUSELESS_NO_HEAP);
    SAME(pauseless_load(&heap, 0, 0, 0, 0), PAUSELESS_NO_HEAP);
    SAME(pauseless_store(&heap, 0, 0, 0, 0), PAUSELESS_NO_HEAP);
    SAME(pauseless_load_global(&heap, 0, 0, 0), PAUSELESS_NO_HEAP);
    SAME(pauseless_store_global(&heap, 0, 0, 0), PAUSELESS_NO_HEAP);
    SAME(pauseless_copy(&heap, 0, 0, 0), PAUSELESS_NO_HEAP);
    SAME(pauseless_clear(&heap, 0, 0), PAUSELESS_NO_HEAP);
    SAME(pauseless_set(&heap, 0, 0, 0, 0), PAUSELESS_NO_HEAP);
    SAME(pauseless_empty_at_most(&heap, 1), PAUSELESS_NO_HEAP);
    SAME(pauseless_verify(&heap), PAUSELESS_NO_HEAP);
    pauseless_free(&heap);
}

int main(void) {
    usual_sizes();
    ranges();
    buffers();
    fresh_buffers();
    frames_that_are_low();
    references();
    several_loads();
    several_data();
    bytes_of_data();
    parts_for_buffers(false);
    parts_for_buffers(true);
    loads_on_the_way();
    globals();
    registers();
    data();
    filled();
    not_filled();
    collections();
    parts();
    few_at_once();
    reports();
    unwritten();
    unwritten_without_heap();
    without_heap();
    return differences > 0;
}
