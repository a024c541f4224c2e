/* Data words and bytes of objects, many by one call: words that are copied within an object and between two, as memmove
 * would, and bytes that are read and written from any byte on, as memcpy would, while collections in parts move the
 * objects. After each call that fails, and after each that is done, an object has the bytes that it should have. */
#include "below.h"
#include "same.h"
#include <string.h>

enum { OBJECTS = 3, MOST = 1023, STEPS = 30000, NULL_REGISTER = 3 };

static const pauseless_sizes sizes = {.words = 2048, .frames = 16, .pages = 64, .threads = 2, .workers = 1,
                                      .registers = 4, .globals = 1, .births = 1000000};
static const pauseless_layout layouts[OBJECTS] = {{.refs = 2, .nums = MOST}, {.nums = 40}, {.refs = 1, .nums = 1}};
static const pauseless_policy policy = {.words = 2048, .free = 1, .percent = 100};

static pauseless_heap heap = PAUSELESS_NONE;

/* What the objects in registers 0 to 2 have: as x86-64 has words in memory. */
static unsigned char plain[OBJECTS][8 * MOST];

static uint32_t size_of(uint32_t object) { return 8 * layouts[object].nums; }

/* An object has the bytes that it should have, read as bytes, as words, and each as a word of its own. */
static void is_plain(uint32_t object) {
    static unsigned char bytes[8 * MOST];
    static uint64_t words[MOST];
    uint64_t word = 0;
    const uint32_t nums = layouts[object].nums;
    DONE(pauseless_read_bytes(&heap, 0, object, 0, bytes, size_of(object)));
    SAME(memcmp(bytes, plain[object], size_of(object)), 0);
    DONE(pauseless_get_many(&heap, 0, object, 0, words, nums));
    SAME(memcmp(words, plain[object], size_of(object)), 0);
    for (uint32_t index = 0; index < nums; index += nums / 5 + 1) {
        DONE(pauseless_get(&heap, 0, object, index, &word));
        SAME(memcmp(&word, plain[object] + 8 * index, 8), 0);
    }
}

static void makes_objects(void) {
    DONE(pauseless_new(&heap, &sizes, layouts, OBJECTS));
    memset(plain, 0, sizeof plain);
    for (uint32_t object = 0; object < OBJECTS; object++) {
        DONE(pauseless_make(&heap, &policy, 0, object, object));
        for (uint32_t i = 0; i < size_of(object); i++) plain[object][i] = (unsigned char)below(256);
        DONE(pauseless_write_bytes(&heap, 0, object, 0, plain[object], size_of(object)));
        is_plain(object);
    }
}

/* Bytes from each byte of a word to each byte of another, and the last byte; no byte of any object. */
static void edges(void) {
    unsigned char bytes[24], read[24];
    for (uint32_t from = 0; from < 16; from++) {
        for (uint32_t size = 0; size <= 24; size++) {
            for (uint32_t i = 0; i < size; i++) plain[1][from + i] = bytes[i] = (unsigned char)below(256);
            DONE(pauseless_write_bytes(&heap, 0, 1, from, bytes, size));
            is_plain(1);
            DONE(pauseless_read_bytes(&heap, 0, 1, from, read, size));
            SAME(memcmp(read, bytes, size), 0);
        }
    }
    const uint32_t last = size_of(0) - 1;
    plain[0][last] ^= 0x5a;
    DONE(pauseless_write_bytes(&heap, 0, 0, last, plain[0] + last, 1));
    is_plain(0);
    DONE(pauseless_read_bytes(&heap, 0, 0, last, read, 1));
    SAME(read[0], plain[0][last]);
    DONE(pauseless_read_bytes(&heap, 0, NULL_REGISTER, 5, read, 0));
    DONE(pauseless_write_bytes(&heap, 0, NULL_REGISTER, UINT32_MAX, bytes, 0));
    DONE(pauseless_copy_data(&heap, 0, NULL_REGISTER, 7, NULL_REGISTER, 9, 0));
}

/* Each way in which a call fails, after which nothing is written. */
static void failures(void) {
    unsigned char bytes[16] = {0};
    uint64_t words[3] = {7, 8, 9};
    for (uint32_t first = 0; first < 3; first++) {
        SAME(pauseless_set_many(&heap, 0, 2, first, words, 3), PAUSELESS_NO_DATUM);
        SAME(pauseless_get_many(&heap, 0, 2, first, words, 3), PAUSELESS_NO_DATUM);
    }
    SAME(pauseless_set_many(&heap, 0, 0, UINT32_MAX, words, 3), PAUSELESS_NO_DATUM);
    SAME(pauseless_set_many(&heap, 0, NULL_REGISTER, 0, words, 1), PAUSELESS_NULL);
    SAME(pauseless_set_many(&heap, 0, 4, 0, words, 1), PAUSELESS_NO_REGISTER);
    SAME(pauseless_set_many(&heap, 2, 0, 0, words, 1), PAUSELESS_NO_ACTOR);
    DONE(pauseless_set_many(&heap, 0, NULL_REGISTER, 9, words, 0));
    DONE(pauseless_get_many(&heap, 0, NULL_REGISTER, 9, words, 0));
    SAME(pauseless_read_bytes(&heap, 0, 2, 0, bytes, 9), PAUSELESS_NO_DATUM);
    SAME(pauseless_read_bytes(&heap, 0, 2, 8, bytes, 1), PAUSELESS_NO_DATUM);
    SAME(pauseless_read_bytes(&heap, 0, 2, UINT32_MAX, bytes, 1), PAUSELESS_NO_DATUM);
    SAME(pauseless_write_bytes(&heap, 0, 2, 1, bytes, 8), PAUSELESS_NO_DATUM);
    SAME(pauseless_write_bytes(&heap, 0, 0, size_of(0) - 1, bytes, 2), PAUSELESS_NO_DATUM);
    SAME(pauseless_read_bytes(&heap, 0, NULL_REGISTER, 0, bytes, 1), PAUSELESS_NULL);
    SAME(pauseless_write_bytes(&heap, 0, NULL_REGISTER, 0, bytes, 1), PAUSELESS_NULL);
    SAME(pauseless_read_bytes(&heap, 0, 4, 0, bytes, 1), PAUSELESS_NO_REGISTER);
    SAME(pauseless_write_bytes(&heap, 2, 0, 0, bytes, 1), PAUSELESS_NO_ACTOR);
    SAME(pauseless_copy_data(&heap, 0, 1, 0, 0, 0, 41), PAUSELESS_NO_DATUM);
    SAME(pauseless_copy_data(&heap, 0, 1, 1, 0, 0, 40), PAUSELESS_NO_DATUM);
    SAME(pauseless_copy_data(&heap, 0, 0, 0, 1, 1, 40), PAUSELESS_NO_DATUM);
    SAME(pauseless_copy_data(&heap, 0, 0, 0, 1, UINT32_MAX, 1), PAUSELESS_NO_DATUM);
    SAME(pauseless_copy_data(&heap, 0, NULL_REGISTER, 0, 0, 0, 1), PAUSELESS_NULL);
    SAME(pauseless_copy_data(&heap, 0, 0, 0, NULL_REGISTER, 0, 1), PAUSELESS_NULL);
    SAME(pauseless_copy_data(&heap, 0, 4, 0, 0, 0, 1), PAUSELESS_NO_REGISTER);
    SAME(pauseless_copy_data(&heap, 0, 0, 0, 4, 0, 1), PAUSELESS_NO_REGISTER);
    SAME(pauseless_copy_data(&heap, 2, 0, 0, 1, 0, 1), PAUSELESS_NO_ACTOR);
    for (uint32_t object = 0; object < OBJECTS; object++) is_plain(object);
}

/* A write or a copy of a random range, of which some are past the end. */
static void changes(void) {
    static unsigned char bytes[8 * MOST + 8];
    const uint32_t target = below(OBJECTS), source = below(OBJECTS), most = size_of(target);
    if (below(2)) {
        const uint32_t from = below(most + 2), size = below(4) ? below(70) : below(most + 2);
        for (uint32_t i = 0; i < size; i++) bytes[i] = (unsigned char)below(256);
        const bool fits = size == 0 || from + size <= most;
        SAME(pauseless_write_bytes(&heap, 0, target, from, bytes, size), fits ? PAUSELESS_DONE : PAUSELESS_NO_DATUM);
        if (fits) memcpy(plain[target] + from, bytes, size);
    } else {
        const uint32_t to = below(most / 8 + 1), from = below(size_of(source) / 8 + 1);
        const uint32_t count = below(4) ? below(40) : below(MOST + 2);
        const bool fits = count == 0 || (8 * (to + count) <= most && 8 * (from + count) <= size_of(source));
        SAME(pauseless_copy_data(&heap, 0, target, to, source, from, count),
             fits ? PAUSELESS_DONE : PAUSELESS_NO_DATUM);
        if (fits) memmove(plain[target] + 8 * to, plain[source] + 8 * from, 8 * count);
    }
    is_plain(target);
}

int main(void) {
    bool has_ended;
    makes_objects();
    edges();
    failures();
    for (int step = 0; step < STEPS; step++) {
        changes();
        if (step % 10 == 0) DONE(pauseless_collect_some(&heap, 100, 1, &has_ended));
    }
    for (uint32_t object = 0; object < OBJECTS; object++) is_plain(object);
    DONE(pauseless_verify(&heap));
    pauseless_free(&heap);
    return differences != 0;
}
