/* A small object model: strings, symbols, arrays that grow, and hash tables. A program has its objects by the handles
 * of examples/c/scopes.h, and ends with a message if there is no memory or no such thing.
 *
 * A function that returns a handle takes a register of the caller's scope for it. No function has more than seven
 * registers at once, with that one, so a caller may have nine handles. */
#ifndef OBJECTS_H
#define OBJECTS_H

#include "../c/scopes.h"
#include "../c/sizes.h"

/* The layouts of objects. From SHAPES on there are those of size classes: as many for bodies, which have references
 * alone, and then as many for strings, which have data words alone. */
enum layout { ARRAY, TABLE, ENTRY, SYMBOL, SHAPES };

/* The references of arrays and tables, of symbols and entries, which are links of chains, and of one of them alone. */
enum { BODY };
enum { NAME, KEY = NAME, NEXT, VALUE };

/* The data words. A string's bytes follow its length, eight in a word, the last word filled with zeros; after an
 * array's length there is how many references its body has. */
enum { LENGTH, BYTES, CAPACITY = 1 };
enum { COUNT, BUCKETS };
enum { HASH, NUMBER };

/* memory.c: the heap, and its calls for the one thread. */

struct options {
    uint32_t words, frames; /* of a page; how many pages may have memory at once */
    uint64_t check;         /* every N objects the heap is verified; 0: never */
};

extern struct handles handles;

/* The globals that hold objects: the table of symbols. */
enum { SYMBOLS };

/* Prints a message and ends the program with status 1. */
_Noreturn void fail(const char *what);

/* Makes the heap; and frees it at the end, verified if objects were, and prints what it has done if that is wanted. */
void objects_open(const struct options *options);
void objects_close(bool prints_what_it_did);

/* Collects the heap, and returns how many objects live. */
uint64_t objects_collect(void);

/* Makes an object in a handle, whose first references are those of the sources, and whose first data words are given;
 * the others are null and 0. */
void make(handle target, uint32_t layout, const handle *sources, size_t count, const uint64_t *data, size_t size);

/* Makes a body of at least size references, all null, and returns how many it has; and a string's object of size data
 * words at least. Both fail if no class is that large. */
uint32_t make_body(handle target, uint64_t size);
void make_string(handle target, const uint64_t *data, size_t size);

/* Returns how many references the smallest body has that has room for size; the largest one if none has. */
uint32_t room_for(uint64_t size);

/* A reference of an object: loads it into a handle, and stores what a handle names. Fails if the object is null. */
void load(handle target, handle object, uint64_t field);
void store(handle object, uint64_t field, handle source);

/* A data word of an object; peek returns false if the object is null. */
uint64_t word(handle object, uint64_t index);
void words(handle object, uint64_t index, uint64_t *values, size_t size);
void set_word(handle object, uint64_t index, uint64_t value);
bool peek(handle object, uint64_t index, uint64_t *value);

/* A global, likewise. */
void load_global(handle target, uint32_t global);
void store_global(uint32_t global, handle source);

bool is_null(handle object);
void copy(handle target, handle source);

/* The number of an object, which no other one ever has, and which stays when the object moves. */
uint64_t identity(handle object);

/* strings.c: strings of up to LONGEST bytes, which don't change. */

enum { LONGEST = 8 * 1022 };

handle string_new(const char *bytes, size_t length);
uint64_t string_length(handle string);

/* Writes the bytes to where bytes leads, which has space for LONGEST, and returns how many they are. */
size_t string_read(handle string, char *bytes);

/* Less than, equal to or greater than 0, as the bytes of left come before, with or after those of right. */
int string_compare(handle left, handle right);
bool string_equal(handle left, handle right);

handle string_concat(handle left, handle right);
handle string_slice(handle string, uint64_t from, uint64_t to);

/* A hash of the bytes. */
uint64_t string_hash(handle string);

/* arrays.c: arrays of references, up to as many as the largest body has. Fail if there is no such element. */

handle array_new(void);
uint64_t array_length(handle array);
handle array_get(handle array, uint64_t index);
void array_set(handle array, uint64_t index, handle value);
void array_push(handle array, handle value);
handle array_pop(handle array);
void array_reverse(handle array);

/* Sorts by an order, which takes up to three handles. */
void array_sort(handle array, int (*compare)(handle left, handle right));

/* tables.c: hash tables, from objects to a value and a number each. Keys are the same if they are the same object. */

handle table_new(void);
uint64_t table_count(handle table);

/* Whether a table has a key. */
bool table_has(handle table, handle key);

/* The value of a key, null if it has none; and what sets it. */
handle table_get(handle table, handle key);
void table_put(handle table, handle key, handle value);

/* The number of a key, 0 if it has none; and what adds to it. */
uint64_t table_number(handle table, handle key);
void table_add(handle table, handle key, uint64_t amount);

/* Takes a key out, and returns whether it was there. */
bool table_remove(handle table, handle key);

/* An array of all keys. */
handle table_keys(handle table);

/* The chains of a table, whose links are entries or symbols: finds the first link that has a hash, and the next one,
 * and returns false if there is none; and adds a link, which has its hash. */
bool links_find(handle link, handle table, uint64_t hash);
bool links_next(handle link, uint64_t hash);
void links_add(handle table, handle link);

/* symbols.c: the one symbol of a name, and its name. */

handle symbol_of(handle name);
handle symbol_name(handle symbol);

#endif
