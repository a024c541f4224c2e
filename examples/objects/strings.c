/* Strings: a length, and the bytes in data words. Equal strings have equal words, as the last one is filled with 0. */
#include "objects.h"

#include <string.h>

static uint64_t words_of(uint64_t length) { return (length + 7) / 8; }

handle string_new(const char *bytes, size_t length) {
    uint64_t data[1 + LONGEST / 8];
    if (length > LONGEST) fail("a string is too long");
    const uint64_t words = words_of(length);
    data[BYTES + words - 1] = 0;
    data[LENGTH] = length;
    memcpy(data + BYTES, bytes, length);
    const handle string = handle_new(&handles);
    make_string(string, data, BYTES + words);
    return string;
}
uint64_t string_length(handle string) { return word(string, LENGTH); }

/* Reads the words of a string's bytes, and returns how many bytes they are. */
static uint64_t read_words(handle string, uint64_t data[LONGEST / 8]) {
    const uint64_t length = string_length(string);
    words(string, BYTES, data, words_of(length));
    return length;
}
size_t string_read(handle string, char *bytes) {
    uint64_t data[LONGEST / 8];
    const uint64_t length = read_words(string, data);
    memcpy(bytes, data, length);
    return length;
}

int string_compare(handle left, handle right) {
    uint64_t data[2][LONGEST / 8];
    const uint64_t lengths[] = {read_words(left, data[0]), read_words(right, data[1])};
    const int order = memcmp(data[0], data[1], lengths[0] < lengths[1] ? lengths[0] : lengths[1]);
    return order != 0 ? order : (lengths[0] > lengths[1]) - (lengths[0] < lengths[1]);
}
bool string_equal(handle left, handle right) {
    return string_length(left) == string_length(right) && string_compare(left, right) == 0;
}

handle string_concat(handle left, handle right) {
    char bytes[2 * LONGEST];
    size_t length = string_read(left, bytes);
    length += string_read(right, bytes + length);
    return string_new(bytes, length);
}

handle string_slice(handle string, uint64_t from, uint64_t to) {
    char bytes[LONGEST];
    if (from > to || to > string_read(string, bytes)) fail("a string has no such slice");
    return string_new(bytes + from, to - from);
}

/* FNV-1a, by words. */
uint64_t string_hash(handle string) {
    uint64_t data[LONGEST / 8];
    const uint64_t length = read_words(string, data);
    uint64_t hash = 0xcbf29ce484222325 ^ length;
    for (uint64_t i = 0; i < words_of(length); i++) {
        hash = (hash ^ data[i]) * 0x100000001b3;
        hash ^= hash >> 32;
    }
    return hash;
}
