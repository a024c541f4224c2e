/* Which number of a call names nothing: of each call each number in turn; and policies that are out of their range, of
 * which nothing is done. Each code's class is the code that says less. */
#include "same.h"

/* Two threads of three registers, two globals, and four frames of 16 words. */
static const pauseless_sizes sizes = {.words = 16, .frames = 4, .pages = 12, .threads = 2, .workers = 1,
                                      .registers = 3, .globals = 2, .births = 1000};

/* Objects of 4 and 16 words. */
static const pauseless_layout layouts[] = {{.refs = 1, .nums = 2}, {.refs = 0, .nums = 15}};
static const pauseless_policy policy = {.words = 16, .free = 1, .percent = 75};

static pauseless_heap heap = PAUSELESS_NONE;

/* The call has this code, whose class is another one. */
#define SAYS(call, code, of_class) \
    do { \
        SAME(call, code); \
        SAME(pauseless_class(code), of_class); \
    } while (0)

#define NO_REGISTER(call) SAYS(call, PAUSELESS_NO_REGISTER, PAUSELESS_BAD_INDEX)
#define NO_GLOBAL(call) SAYS(call, PAUSELESS_NO_GLOBAL, PAUSELESS_BAD_INDEX)
#define NO_LAYOUT(call) SAYS(call, PAUSELESS_NO_LAYOUT, PAUSELESS_BAD_INDEX)
#define NO_FIELD(call) SAYS(call, PAUSELESS_NO_FIELD, PAUSELESS_BAD_INDEX)
#define NO_DATUM(call) SAYS(call, PAUSELESS_NO_DATUM, PAUSELESS_BAD_INDEX)
#define BAD_WORDS(call) SAYS(call, PAUSELESS_BAD_WORDS, PAUSELESS_BAD_INDEX)

/* Register 0 of thread 1 has an object of layout 0. */
static void makes_heap(void) {
    DONE(pauseless_new(&heap, &sizes, layouts, 2));
    DONE(pauseless_make(&heap, &policy, 1, 0, 0));
}

static void of_references(void) {
    const pauseless_field_load loads[] = {{.target = 1, .field = 0}, {.target = 2, .field = 1},
                                          {.target = 3, .field = 0}};
    uint64_t done = 9;
    NO_REGISTER(pauseless_load(&heap, 1, 3, 0, 0));
    NO_REGISTER(pauseless_load(&heap, 1, 1, 3, 0));
    NO_REGISTER(pauseless_load(&heap, 1, 3, 0, 1));
    NO_FIELD(pauseless_load(&heap, 1, 1, 0, 1));
    NO_REGISTER(pauseless_loads(&heap, 1, 3, loads, 1, &done));
    SAME(done, 0);
    NO_FIELD(pauseless_loads(&heap, 1, 0, loads, 3, &done));
    SAME(done, 1);
    NO_REGISTER(pauseless_loads(&heap, 1, 0, loads + 2, 1, &done));
    SAME(done, 0);
    NO_REGISTER(pauseless_store(&heap, 1, 3, 0, 0));
    NO_REGISTER(pauseless_store(&heap, 1, 0, 0, 3));
    NO_FIELD(pauseless_store(&heap, 1, 0, 1, 0));
    NO_REGISTER(pauseless_load_global(&heap, 1, 3, 0));
    NO_GLOBAL(pauseless_load_global(&heap, 1, 1, 2));
    NO_REGISTER(pauseless_store_global(&heap, 1, 0, 3));
    NO_GLOBAL(pauseless_store_global(&heap, 1, 2, 0));
    SAME(pauseless_load(&heap, 2, 1, 0, 0), PAUSELESS_NO_ACTOR);
    SAME(pauseless_class(PAUSELESS_NO_ACTOR), PAUSELESS_NO_ACTOR);
}

static void of_registers(void) {
    pauseless_object object;
    bool is_so;
    NO_REGISTER(pauseless_copy(&heap, 1, 3, 0));
    NO_REGISTER(pauseless_copy(&heap, 1, 0, 3));
    NO_REGISTER(pauseless_clear(&heap, 1, 3));
    NO_REGISTER(pauseless_same(&heap, 1, 3, 0, &is_so));
    NO_REGISTER(pauseless_same(&heap, 1, 0, 3, &is_so));
    NO_REGISTER(pauseless_is_null(&heap, 1, 3, &is_so));
    NO_REGISTER(pauseless_look(&heap, 1, 3, &object));
    SAME(pauseless_look(&heap, 2, 0, &object), PAUSELESS_NO_ACTOR);
    SAME(pauseless_look(&heap, 0, 0, &object), PAUSELESS_NULL);
}

static void of_data(void) {
    uint64_t values[3] = {1, 2, 3};
    NO_REGISTER(pauseless_get(&heap, 1, 3, 0, values));
    NO_DATUM(pauseless_get(&heap, 1, 0, 2, values));
    NO_REGISTER(pauseless_set(&heap, 1, 3, 0, 1));
    NO_DATUM(pauseless_set(&heap, 1, 0, 2, 1));
    NO_REGISTER(pauseless_get_many(&heap, 1, 3, 0, values, 1));
    NO_DATUM(pauseless_get_many(&heap, 1, 0, 0, values, 3));
    NO_REGISTER(pauseless_set_many(&heap, 1, 3, 0, values, 1));
    NO_DATUM(pauseless_set_many(&heap, 1, 0, 1, values, 2));
    NO_REGISTER(pauseless_copy_data(&heap, 1, 3, 0, 0, 0, 1));
    NO_REGISTER(pauseless_copy_data(&heap, 1, 0, 0, 3, 0, 1));
    NO_DATUM(pauseless_copy_data(&heap, 1, 0, 1, 0, 0, 2));
    NO_DATUM(pauseless_copy_data(&heap, 1, 0, 0, 0, 1, 2));
    NO_REGISTER(pauseless_read_bytes(&heap, 1, 3, 0, values, 1));
    NO_DATUM(pauseless_read_bytes(&heap, 1, 0, 9, values, 8));
    NO_REGISTER(pauseless_write_bytes(&heap, 1, 3, 0, values, 1));
    NO_DATUM(pauseless_write_bytes(&heap, 1, 0, 16, values, 1));
}

static void of_objects(void) {
    const uint32_t sources[] = {0, 3, 0};
    const uint64_t numbers[] = {1, 2, 3};
    NO_REGISTER(pauseless_new_object(&heap, 1, 3, 0));
    NO_LAYOUT(pauseless_new_object(&heap, 1, 1, 2));
    BAD_WORDS(pauseless_take(&heap, 0, 0));
    BAD_WORDS(pauseless_take(&heap, 0, 17));
    NO_REGISTER(pauseless_make(&heap, &policy, 1, 3, 2));
    NO_LAYOUT(pauseless_make(&heap, &policy, 1, 1, 2));
    NO_REGISTER(pauseless_make_with(&heap, &policy, 1, 3, 0, sources, 1, numbers, 1));
    NO_REGISTER(pauseless_make_with(&heap, &policy, 1, 1, 0, sources + 1, 1, numbers, 1));
    NO_LAYOUT(pauseless_make_with(&heap, &policy, 1, 1, 2, sources, 1, numbers, 1));
    NO_FIELD(pauseless_make_with(&heap, &policy, 1, 1, 1, sources, 1, numbers, 1));
    NO_DATUM(pauseless_make_with(&heap, &policy, 1, 1, 0, sources, 1, numbers, 3));
}

/* Objects of 16 words, in buffers of 15; and a buffer that another object has left too small. */
static void of_sizes(void) {
    const pauseless_policy small = {.words = 15, .free = 1, .percent = 75};
    const pauseless_layout large[] = {{.refs = 8, .nums = 8}};
    pauseless_heap other = PAUSELESS_NONE;
    SAYS(pauseless_make(&heap, &small, 1, 1, 1), PAUSELESS_OBJECT_TOO_LARGE, PAUSELESS_NO_ROOM);
    SAYS(pauseless_make_with(&heap, &small, 1, 1, 1, NULL, 0, NULL, 0), PAUSELESS_OBJECT_TOO_LARGE,
         PAUSELESS_NO_ROOM);
    SAME(pauseless_new_object(&heap, 1, 1, 1), PAUSELESS_NO_ROOM);
    SAYS(pauseless_new(&other, &sizes, large, 1), PAUSELESS_LAYOUT_TOO_LARGE, PAUSELESS_RANGE_OF_LAYOUTS);
    SAME(pauseless_new(&other, &sizes, large, 0), PAUSELESS_RANGE_OF_LAYOUTS);
}

/* The policy's field is out of its range, and nothing is done. */
static void is_refused(const pauseless_policy *wrong, pauseless_code code) {
    pauseless_counts before, after;
    DONE(pauseless_count(&heap, &before));
    SAYS(pauseless_make(&heap, wrong, 1, 1, 0), code, PAUSELESS_BAD_POLICY);
    SAYS(pauseless_make_with(&heap, wrong, 1, 1, 0, NULL, 0, NULL, 0), code, PAUSELESS_BAD_POLICY);
    SAYS(pauseless_refill(&heap, wrong, 1), code, PAUSELESS_BAD_POLICY);
    DONE(pauseless_count(&heap, &after));
    SAME(before.births == after.births && before.free == after.free, true);
}

static void of_policies(void) {
    is_refused(&(pauseless_policy){.words = 0, .free = 1, .percent = 75}, PAUSELESS_POLICY_WORDS);
    is_refused(&(pauseless_policy){.words = 17, .free = 5, .percent = 101}, PAUSELESS_POLICY_WORDS);
    is_refused(&(pauseless_policy){.words = 16, .free = 5, .percent = 101}, PAUSELESS_POLICY_FREE);
    is_refused(&(pauseless_policy){.words = 1, .free = 4, .percent = 101, .budget = 9}, PAUSELESS_POLICY_PERCENT);
    DONE(pauseless_refill(&heap, &(pauseless_policy){.words = 1, .free = 4, .percent = 100}, 1));
    DONE(pauseless_refill(&heap, &(pauseless_policy){.words = 16, .free = 0, .percent = 0, .budget = UINT32_MAX}, 1));
}

static void of_percentages(void) {
    pauseless_collected done = {.live = 98, .emptied = 99};
    bool has_ended = true;
    SAYS(pauseless_collect(&heap, 101, &done), PAUSELESS_POLICY_PERCENT, PAUSELESS_BAD_POLICY);
    SAME(done.live == 98 && done.emptied == 99, true);
    SAYS(pauseless_collect_some(&heap, 101, 1, &has_ended), PAUSELESS_POLICY_PERCENT, PAUSELESS_BAD_POLICY);
    SAME(has_ended, true);
    DONE(pauseless_collect_some(&heap, 100, 0, &has_ended));
    SAME(has_ended, false);
    DONE(pauseless_collect(&heap, 0, &done));
}

int main(void) {
    makes_heap();
    of_references();
    of_registers();
    of_data();
    of_objects();
    of_sizes();
    of_policies();
    of_percentages();
    DONE(pauseless_verify(&heap));
    pauseless_free(&heap);
    return differences > 0;
}
