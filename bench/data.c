/* Many data words or bytes of an object by one call, for bench/data.py. Prints for each call its name and how many
 * gigabytes a second it moves of 1,023 words or 8,184 bytes: the most of some runs. */
#define _POSIX_C_SOURCE 200809L
#define PROGRAM "data"
#include "timed.h"

enum { WORDS = 1023, BYTES = 8 * WORDS, RUNS = 9, CALLS = 4000 };

static pauseless_heap heap = PAUSELESS_NONE;

static const pauseless_layout layouts[] = {{.refs = 0, .nums = WORDS}};

/* The bytes that a call moves in a nanosecond, in the fastest of RUNS runs. */
#define TIMED(name, bytes, call) \
    do { \
        double least = 1e18; \
        for (int run = 0; run < RUNS; run++) { \
            const double began = now(); \
            for (int i = 0; i < CALLS; i++) must(call); \
            const double took = (now() - began) / CALLS; \
            if (took < least) least = took; \
        } \
        printf("%s %.1f\n", name, (bytes) / least); \
    } while (0)

static pauseless_code get_each(uint64_t *words) {
    for (uint32_t index = 0; index < WORDS; index++) must(pauseless_get(&heap, 0, 0, index, words + index));
    return PAUSELESS_DONE;
}

static pauseless_code set_each(const uint64_t *words) {
    for (uint32_t index = 0; index < WORDS; index++) must(pauseless_set(&heap, 0, 0, index, words[index]));
    return PAUSELESS_DONE;
}

int main(void) {
    static uint64_t words[WORDS];
    pauseless_sizes sizes;
    pauseless_usual(4096, 8, &sizes);
    must(pauseless_new(&heap, &sizes, layouts, 1));
    const pauseless_policy policy = {.words = 4096, .free = 1, .percent = 75};
    for (uint32_t object = 0; object < 2; object++) must(pauseless_make(&heap, &policy, 0, object, 0));
    for (uint32_t index = 0; index < WORDS; index++) words[index] = UINT64_C(0x9e3779b97f4a7c15) * (index + 1);
    TIMED("pauseless_get, one call a word", BYTES, get_each(words));
    TIMED("pauseless_set, one call a word", BYTES, set_each(words));
    TIMED("pauseless_get_many", BYTES, pauseless_get_many(&heap, 0, 0, 0, words, WORDS));
    TIMED("pauseless_set_many", BYTES, pauseless_set_many(&heap, 0, 0, 0, words, WORDS));
    TIMED("pauseless_copy_data", BYTES, pauseless_copy_data(&heap, 0, 1, 0, 0, 0, WORDS));
    TIMED("pauseless_read_bytes", BYTES, pauseless_read_bytes(&heap, 0, 0, 0, words, BYTES));
    TIMED("pauseless_write_bytes", BYTES, pauseless_write_bytes(&heap, 0, 0, 0, words, BYTES));
    TIMED("pauseless_write_bytes, from byte 3 on", BYTES - 8, pauseless_write_bytes(&heap, 0, 0, 3, words, BYTES - 8));
    pauseless_free(&heap);
    return 0;
}
