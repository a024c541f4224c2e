/* The object model of examples/objects, compared with arrays in C, while its heap is collected and verified: strings,
 * symbols, arrays and tables, also of more keys than a body has references; and how many handles each function takes.
 * With an argument, a fault that ends the program with a message. */
#include "../../examples/objects/objects.h"
#include "same.h"

#include <stdlib.h>
#include <string.h>

enum { LARGEST = 1023, KEYS = 3 * LARGEST, MOST_HANDLES = 7 };

static uint32_t most_handles;

static uint64_t random_below(uint64_t bound) {
    static uint64_t state = 7;
    state = state * 6364136223846793005 + 1442695040888963407;
    return (state >> 33) % bound;
}

/* Does a call, and counts how many handles there were at once in it, with the one that it returns. */
#define TAKES(call) \
    do { \
        const uint32_t next = handles.next; \
        handles.most = next; \
        call; \
        if (handles.most - next > most_handles) most_handles = handles.most - next; \
    } while (0)

/* Numbers as objects: strings of eight bytes. */
static uint64_t value_of(handle number) {
    char bytes[LONGEST];
    uint64_t value;
    SAME(string_read(number, bytes), sizeof value);
    memcpy(&value, bytes, sizeof value);
    return value;
}
static handle number_new(uint64_t value) { return string_new((const char *)&value, sizeof value); }

static int sign(int order) { return (order > 0) - (order < 0); }

static int order_of(const char *left, size_t length, const char *right, size_t other) {
    const int order = memcmp(left, right, length < other ? length : other);
    return order ? sign(order) : (length > other) - (length < other);
}

/* Two strings of few different bytes, 0 among them, which are often alike. */
static void strings_are_bytes(void) {
    char texts[2][40], found[LONGEST];
    size_t lengths[2];
    const struct scope scope = scope_begin(&handles);
    handle strings[2];
    for (int i = 0; i < 2; i++) {
        lengths[i] = random_below(3) ? random_below(20) : i ? lengths[0] : random_below(40);
        for (size_t k = 0; k < lengths[i]; k++) texts[i][k] = (char)(random_below(12) ? 'a' : random_below(3) * 127);
        strings[i] = string_new(texts[i], lengths[i]);
    }
    const int order = order_of(texts[0], lengths[0], texts[1], lengths[1]);
    SAME(sign(string_compare(strings[0], strings[1])) - order, 0);
    SAME(string_equal(strings[0], strings[1]), order == 0);
    if (order == 0) SAME(string_hash(strings[0]), string_hash(strings[1]));
    const struct scope part = scope_begin(&handles);
    handle both, symbol, other;
    TAKES(both = string_concat(strings[0], strings[1]));
    SAME(string_read(both, found), lengths[0] + lengths[1]);
    SAME(memcmp(found, texts[0], lengths[0]), 0);
    SAME(memcmp(found + lengths[0], texts[1], lengths[1]), 0);
    SAME(string_equal(string_slice(both, lengths[0], lengths[0] + lengths[1]), strings[1]), true);
    TAKES(symbol = symbol_of(strings[0]));
    TAKES(other = symbol_of(strings[1]));
    SAME(identity(symbol) == identity(other), order == 0);
    SAME(string_equal(symbol_name(symbol), strings[0]), true);
    scope_end(&handles, part);
    scope_end(&handles, scope);
}
static void longest_string(void) {
    static char text[LONGEST], found[LONGEST];
    const struct scope scope = scope_begin(&handles);
    memset(text, 'x', LONGEST);
    SAME(string_read(string_new(text, LONGEST), found), LONGEST);
    SAME(memcmp(text, found, LONGEST), 0);
    scope_end(&handles, scope);
}

/* Two names of the same hash: their second words make the difference of the first ones good. */
static uint64_t hash_after(uint64_t first) {
    const uint64_t hash = (0xcbf29ce484222325 ^ 16 ^ first) * 0x100000001b3;
    return hash ^ hash >> 32;
}
static void hashes_collide(void) {
    const uint64_t names[2][2] = {{1, 2}, {3, 2 ^ hash_after(1) ^ hash_after(3)}};
    const struct scope scope = scope_begin(&handles);
    const handle left = string_new((const char *)names[0], 16), right = string_new((const char *)names[1], 16);
    const handle symbols[] = {symbol_of(left), symbol_of(right), symbol_of(left)};
    SAME(string_hash(left), string_hash(right));
    SAME(identity(symbols[0]) == identity(symbols[1]), false);
    SAME(identity(symbols[0]), identity(symbols[2]));
    scope_end(&handles, scope);
}

static int by_value(handle left, handle right) {
    const uint64_t values[] = {value_of(left), value_of(right)};
    return (values[0] > values[1]) - (values[0] < values[1]);
}
static int in_c(const void *left, const void *right) {
    const uint64_t values[] = {*(const uint64_t *)left, *(const uint64_t *)right};
    return (values[0] > values[1]) - (values[0] < values[1]);
}

/* A random step of an array, and of the one in C. */
static void array_step(handle array, uint64_t *model, uint64_t *length) {
    const struct scope scope = scope_begin(&handles);
    const uint64_t choice = random_below(100);
    if (choice < 55 && *length < LARGEST) {
        model[*length] = random_below(1000);
        const handle number = number_new(model[(*length)++]);
        TAKES(array_push(array, number));
    } else if (choice < 85 && *length > 0) {
        handle number;
        TAKES(number = array_pop(array));
        SAME(value_of(number), model[--*length]);
    } else if (choice < 95 && *length > 0) {
        const uint64_t index = random_below(*length), value = random_below(1000);
        array_set(array, index, number_new(model[index] = value));
    } else if (choice < 97) {
        TAKES(array_reverse(array));
        for (uint64_t i = 0; i < *length / 2; i++) {
            const uint64_t kept = model[i];
            model[i] = model[*length - 1 - i];
            model[*length - 1 - i] = kept;
        }
    } else if (choice == 98) {
        TAKES(array_sort(array, by_value));
        qsort(model, *length, sizeof *model, in_c);
    }
    scope_end(&handles, scope);
}
static void array_has(handle array, const uint64_t *model, uint64_t length) {
    SAME(array_length(array), length);
    for (uint64_t i = 0; i < length; i++) {
        const struct scope scope = scope_begin(&handles);
        SAME(value_of(array_get(array, i)), model[i]);
        scope_end(&handles, scope);
    }
}
static void arrays_are_arrays(void) {
    static uint64_t model[LARGEST];
    uint64_t length = 0;
    const struct scope scope = scope_begin(&handles);
    const handle array = array_new();
    for (int i = 0; i < 2000; i++) {
        array_step(array, model, &length);
        if (i % 500 == 0) array_has(array, model, length);
    }
    for (; length < LARGEST; length++) {
        const struct scope turn = scope_begin(&handles);
        array_push(array, number_new(model[length] = random_below(1000)));
        scope_end(&handles, turn);
    }
    const struct scope part = scope_begin(&handles);
    array_sort(array, by_value);
    qsort(model, length, sizeof *model, in_c);
    array_has(array, model, length);
    scope_end(&handles, part);
    scope_end(&handles, scope);
}

/* An array doesn't keep what was popped. */
static void popped_are_garbage(void) {
    const struct scope scope = scope_begin(&handles);
    const handle array = array_new();
    uint64_t live = 0;
    for (int i = 0; i < 4; i++) {
        const struct scope turn = scope_begin(&handles);
        array_push(array, number_new(5));
        scope_end(&handles, turn);
    }
    live = objects_collect();
    for (uint64_t i = 0; i < 4; i++) {
        const struct scope turn = scope_begin(&handles);
        array_pop(array);
        scope_end(&handles, turn);
        SAME(objects_collect(), live - 1 - i);
    }
    scope_end(&handles, scope);
}

/* What a table in C has of a key. */
static struct {
    bool is_there, has_value;
    uint64_t value, number;
} kept[KEYS];

/* A random step of a table, whose key has a number, or a look at the key. */
static void table_step(handle table, handle key, uint64_t number) {
    const struct scope scope = scope_begin(&handles);
    const uint64_t choice = random_below(6);
    if (choice == 0) {
        bool was_there;
        TAKES(was_there = table_remove(table, key));
        SAME(was_there, kept[number].is_there);
        memset(&kept[number], 0, sizeof kept[number]);
    } else if (choice < 3) {
        kept[number].is_there = kept[number].has_value = true;
        const handle value = number_new(kept[number].value = random_below(1000));
        TAKES(table_put(table, key, value));
    } else if (choice < 5) {
        kept[number].is_there = true;
        TAKES(table_add(table, key, 3));
        kept[number].number += 3;
    } else {
        SAME(table_has(table, key), kept[number].is_there);
        SAME(table_number(table, key), kept[number].number);
        const handle value = table_get(table, key);
        SAME(is_null(value), !kept[number].has_value);
        if (kept[number].has_value) SAME(value_of(value), kept[number].value);
    }
    scope_end(&handles, scope);
}

/* A table of the largest class makes an entry for a new key, and nothing else. */
static void table_is_largest(handle table) {
    const struct scope scope = scope_begin(&handles);
    const handle key = number_new(5);
    table_add(table, key, 1);
    SAME(identity(number_new(5)) - identity(key), 2);
    SAME(table_remove(table, key), true);
    scope_end(&handles, scope);
}

/* Three arrays have the keys, which are equal by their bytes and differ as objects. */
static void tables_are_tables(void) {
    const struct scope scope = scope_begin(&handles);
    const handle table = table_new(), keys[] = {array_new(), array_new(), array_new()};
    uint64_t count = 0;
    for (int i = 0; i < KEYS; i++) {
        const struct scope turn = scope_begin(&handles);
        array_push(keys[i / LARGEST], number_new(5));
        scope_end(&handles, turn);
    }
    for (int i = 0; i < 15000; i++) {
        const struct scope turn = scope_begin(&handles);
        const uint64_t number = i < KEYS ? (uint64_t)i : random_below(KEYS);
        table_step(table, array_get(keys[number / LARGEST], number % LARGEST), number);
        scope_end(&handles, turn);
        if (i % 5000 == 0) objects_collect();
    }
    for (int i = 0; i < KEYS; i++) count += kept[i].is_there;
    SAME(table_count(table), count);
    table_is_largest(table);
    for (int i = 0; i < KEYS - 500; i++) {
        const struct scope turn = scope_begin(&handles);
        SAME(table_remove(table, array_get(keys[i / LARGEST], (uint64_t)i % LARGEST)), kept[i].is_there);
        count -= kept[i].is_there;
        scope_end(&handles, turn);
    }
    const struct scope part = scope_begin(&handles);
    handle left;
    TAKES(left = table_keys(table));
    SAME(array_length(left), count);
    SAME(table_count(table), count);
    for (uint64_t i = 0; i < count; i++) {
        const struct scope turn = scope_begin(&handles);
        SAME(table_has(table, array_get(left, i)), true);
        scope_end(&handles, turn);
    }
    scope_end(&handles, part);
    scope_end(&handles, scope);
}

/* Calls that end the program. */
static void fault(int which) {
    static const char text[LONGEST + 1];
    const handle array = array_new();
    if (which == 1) string_new(text, LONGEST + 1);
    if (which == 2) array_pop(array);
    if (which == 3) array_get(array, 0);
    if (which == 4) string_slice(string_new("ab", 2), 1, 3);
    for (int i = 0; which == 5 && i <= LARGEST; i++) array_push(array, array);
    if (which == 6) table_get(table_new(), handle_new(&handles));
    while (which == 7) handle_new(&handles);
    while (which == 8) array_new();
}

int main(int count, char **words) {
    const struct options options = {.words = 1024, .frames = 96, .check = 20000};
    objects_open(&options);
    if (count > 1) {
        fault(atoi(words[1]));
        return 0;
    }
    for (int i = 0; i < 1000; i++) strings_are_bytes();
    longest_string();
    hashes_collide();
    popped_are_garbage();
    arrays_are_arrays();
    tables_are_tables();
    SAME(most_handles, MOST_HANDLES);
    objects_close(false);
    return differences > 0;
}
