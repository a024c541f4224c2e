/* The heap of Click, Tene and Wolf, "The Pauseless GC Algorithm" (VEE 2005), for C. docs/C.md describes how to build
 * and link it, with the smallest program, and which parts are proved.
 *
 * One call at a time: the library takes no lock. The caller has one system thread, or holds its own lock during each
 * call; the threads of a heap are numbers, whichever thread calls for them. Make no call from a signal handler, or in
 * the forked child of a program with threads.
 *
 * The library can't check that a pointer leads where its type says, that a handle is the only copy of itself, or that
 * its words are those that the library wrote. Copy no handle, and write nothing to one but PAUSELESS_NONE before its
 * first use. A handle without a heap, as one that was freed, is recognized by its mark: calls return
 * PAUSELESS_NO_HEAP.
 *
 * Threads, registers, globals, layouts, references and data words are numbers from 0. Objects have no address here: a
 * register names one, and registers and globals are all the roots. An object's references come first, then its data
 * words, each counted from 0. Each call returns a code. If it isn't PAUSELESS_DONE, the requested operation did not
 * happen, and nothing is written through the call's pointers, except as described at pauseless_loads, of which a part
 * may be done, pauseless_get_many and pauseless_read_bytes. No call ends the program. */
#ifndef PAUSELESS_H
#define PAUSELESS_H

/* The version of the library, by https://semver.org. */
#define PAUSELESS_VERSION "5.3.0"

#include <stdbool.h>
#include <stddef.h>
#include <stdint.h>

#ifdef __cplusplus
extern "C" {
#endif

/* A handle: a mark, and a pointer to the heap. */
typedef struct pauseless_heap {
    uint64_t mark;
    void *held;
} pauseless_heap;

/* A handle without a heap: pauseless_heap heap = PAUSELESS_NONE; */
#define PAUSELESS_NONE {0, NULL}

/* The codes, each with its text; the texts are those of pauseless_text. The codes from 256 on are more specific than
 * their class, which pauseless_class returns: NO_REGISTER, NO_GLOBAL, NO_LAYOUT, NO_FIELD, NO_DATUM and BAD_WORDS are
 * of the class BAD_INDEX, OBJECT_TOO_LARGE of NO_ROOM, LAYOUT_TOO_LARGE of RANGE_OF_LAYOUTS, and POLICY_WORDS,
 * POLICY_FREE and POLICY_PERCENT of BAD_POLICY. A program that only tests the class still works if a later version is
 * more specific.
 *
 * A program that uses a heap by these calls alone should expect NO_HEAP, HAS_HEAP, NO_ACTOR, BAD_INDEX and its class,
 * NULL, NO_ROOM and its class, HAS_BUFFER, NO_FRAMES, NO_PAGES, BIRTHS, MEMORY and the class BAD_POLICY; and
 * RANGE_OF_.. and LAYOUT_TOO_LARGE when it makes a heap. Tests met no other code (docs/C.md). */
#define PAUSELESS_CODES(CODE) \
    CODE(DONE, 0, "done") \
    CODE(NO_HEAP, 1, "the handle has no heap") \
    CODE(HAS_HEAP, 2, "the handle has a heap already") \
    CODE(NO_ACTOR, 3, "there is no such thread") \
    CODE(BAD_INDEX, 4, "a number names nothing") \
    CODE(PARKED, 5, "the thread is parked") \
    CODE(NOT_PARKED, 6, "the thread isn't parked") \
    CODE(BUSY, 7, "a load isn't finished") \
    CODE(NOT_BUSY, 8, "no load has begun") \
    CODE(NULL, 9, "the register is null") \
    CODE(STALL, 10, "the register names a page whose objects can't be copied yet") \
    CODE(STALE, 11, "the register names a protected page") \
    CODE(NO_ROOM, 12, "there is no buffer, or it is too small") \
    CODE(HAS_BUFFER, 13, "the thread has a buffer") \
    CODE(NO_FRAMES, 14, "there are too few free frames") \
    CODE(NO_PAGES, 15, "there are too few unused page numbers") \
    CODE(PHASE, 16, "the collector's phase has no such step") \
    CODE(ALREADY_CROSSED, 17, "the thread has crossed already") \
    CODE(NOT_CROSSED, 18, "a thread hasn't crossed") \
    CODE(NOT_TODO, 19, "nothing there is to be scanned") \
    CODE(TAKEN, 20, "a worker has it") \
    CODE(TODO_LEFT, 21, "something is still to be scanned") \
    CODE(PENDING, 22, "a thread's load isn't finished") \
    CODE(UNRIPE, 23, "a page isn't closed") \
    CODE(UNCOPIED, 24, "a page has an object that isn't copied") \
    CODE(COPIED, 25, "the object is copied already") \
    CODE(LENT, 26, "a page has a buffer that is lent") \
    CODE(BIRTHS, 27, "no more objects may be born") \
    CODE(HISTORY_FULL, 28, "the history is full") \
    CODE(MEMORY, 29, "memory was refused") \
    CODE(RANGE_OF_WORDS, 30, "words of a page out of range") \
    CODE(RANGE_OF_FRAMES, 31, "frames out of range") \
    CODE(RANGE_OF_PAGES, 32, "page numbers out of range") \
    CODE(RANGE_OF_THREADS, 33, "threads out of range") \
    CODE(RANGE_OF_WORKERS, 34, "workers out of range") \
    CODE(RANGE_OF_REGISTERS, 35, "registers out of range") \
    CODE(RANGE_OF_GLOBALS, 36, "globals out of range") \
    CODE(RANGE_OF_LAYOUTS, 37, "layouts out of range") \
    CODE(RANGE_OF_BIRTHS, 38, "births out of range") \
    CODE(RANGE_OF_HISTORY, 39, "history out of range") \
    CODE(UNSOUND, 40, "the heap is not sound") \
    CODE(BAD_POLICY, 41, "a policy out of range") \
    CODE(NO_REGISTER, 260, "there is no such register") \
    CODE(NO_GLOBAL, 516, "there is no such global") \
    CODE(NO_LAYOUT, 772, "there is no such layout") \
    CODE(NO_FIELD, 1028, "the object has no such reference") \
    CODE(NO_DATUM, 1284, "the object has no such data word") \
    CODE(BAD_WORDS, 1540, "no page has a buffer of so many words") \
    CODE(OBJECT_TOO_LARGE, 268, "the object is larger than the policy's buffers") \
    CODE(LAYOUT_TOO_LARGE, 293, "an object of a layout is larger than a page") \
    CODE(POLICY_WORDS, 297, "words of a policy out of range") \
    CODE(POLICY_FREE, 553, "free frames of a policy out of range") \
    CODE(POLICY_PERCENT, 809, "percent out of range")

#define PAUSELESS_CODE(name, number, text) PAUSELESS_##name = number,
typedef enum pauseless_code { PAUSELESS_CODES(PAUSELESS_CODE) } pauseless_code;
#undef PAUSELESS_CODE

/* Returns the text of a code. */
static inline const char *pauseless_text(uint32_t code) {
    switch (code) {
#define PAUSELESS_CODE(name, number, text) \
    case number: return text;
        PAUSELESS_CODES(PAUSELESS_CODE)
#undef PAUSELESS_CODE
    default: return "no code of pauseless";
    }
}

/* Returns the class of a code: for a code from 256 on the less specific code, else the code itself. */
static inline pauseless_code pauseless_class(uint32_t code) { return (pauseless_code)(code & 255); }

/* The sizes and limits of a heap. */
typedef struct pauseless_sizes {
    uint32_t words;     /* the words of 64 bits of a page: 16 to 32,768, a power of two */
    uint32_t frames;    /* the frames, each the memory of one page: 1 to 1,048,575 */
    uint32_t pages;     /* the page numbers: at least as many as frames, to 1,048,575 */
    uint32_t threads;   /* 1 to 1,024 */
    uint32_t workers;   /* of the collector: 1 to 16; these calls use only the first */
    uint32_t registers; /* of each thread: 1 to 65,535 */
    uint32_t globals;   /* 0 to 65,535 */
    uint64_t births;    /* how many objects may be born: 1 to 2^56 */
} pauseless_sizes;

/* How many references, and how many data words of 64 bits, an object has: 0 to 1,023 each. It also has a header, and
 * has to fit into a page. */
typedef struct pauseless_layout {
    uint16_t refs, nums;
} pauseless_layout;

/* When a heap is collected for a fresh allocation buffer. A call with a policy returns POLICY_WORDS, POLICY_FREE or
 * POLICY_PERCENT for the first field that is out of its range, and does nothing. */
typedef struct pauseless_policy {
    uint32_t words;   /* of a fresh buffer: 1 to the words of a page, and at least those of any object that is made */
    uint32_t free;    /* the heap is collected if at most this many frames are free, and enough pages were opened since
                       * the last mark, half as many as frames are free or a sixteenth of those in use: 0 to the
                       * frames */
    uint32_t percent; /* pages of which at most this many words of a hundred are live are emptied: 0 to 100 */
    uint32_t budget;  /* 0: the heap is collected by one call; else pauseless_make and pauseless_make_with collect it in
                       * parts, each of which scans at most this many objects: a fresh buffer does its share of them,
                       * which grows as frames run out, and all that are left if a quarter of free are free */
} pauseless_policy;

/* One of several loads: a register that gets a reference of an object. */
typedef struct pauseless_field_load {
    uint32_t target; /* the register */
    uint32_t field;  /* the reference's number */
} pauseless_field_load;

/* An object that a register names. */
typedef struct pauseless_object {
    uint64_t birth;  /* how many objects were born before it; it stays when the object moves */
    uint32_t layout; /* the number of its layout */
    uint16_t refs, nums;
} pauseless_object;

/* The result of a collection. */
typedef struct pauseless_collected {
    uint64_t live;       /* the live objects that it found, */
    uint64_t live_words; /* and their words, right after its mark */
    uint64_t emptied;    /* the pages that it emptied, */
    uint64_t copied;     /* and the words that it copied: those of their live objects */
} pauseless_collected;

/* The sizes of a heap, and its births and free frames. */
typedef struct pauseless_counts {
    uint64_t births; /* the objects that were born */
    uint32_t words;  /* of a page */
    uint32_t frames;
    uint32_t free; /* the frames without a page */
} pauseless_counts;

/* The counters of a heap since it was made. Each number stops at the greatest of its type. A call has collected if
 * the sum of by_calls, by_policy, by_room and parts has grown. */
typedef struct pauseless_statistics {
    uint64_t births; /* the objects that were born */
    uint64_t live;   /* the live ones that the last complete collection has found */
    uint64_t live_words; /* the words that live objects had after the mark of the last collection, complete or in parts,
                          * that has chosen pages */
    uint64_t by_calls;  /* complete collections that have begun: requested by pauseless_collect; */
    uint64_t by_policy; /* for a fresh buffer, as at most policy.free frames were free; */
    uint64_t by_room;   /* for a fresh buffer, as there was no space for one */
    uint64_t ended;     /* how many of all these have ended; the others were out of MEMORY, or a load was open */
    uint64_t by_parts;  /* collections in parts that have begun */
    uint64_t parts;     /* the parts that were done, by pauseless_collect_some or for a fresh buffer */
    uint64_t ended_in_parts; /* collections in parts that have ended */
    uint64_t emptied;        /* the pages that collections have emptied */
    uint64_t copied; /* the words that collections have copied; those of a collection in parts count once its pages are
                      * protected */
    uint64_t loads;  /* loads of references that have begun, by all threads; */
    uint64_t moved;  /* of these, how many got an object's new place; */
    uint64_t marked; /* how many marked their object; */
    uint64_t healed; /* and how many wrote that back to where they had loaded; */
    uint64_t changed; /* or found another reference there */
    uint32_t used;      /* the frames in use */
    uint32_t most_used; /* the most that were in use after a call that may collect */
} pauseless_statistics;

/* Making and freeing a heap */

/* Writes the sizes that serve most heaps: twice as many page numbers as frames, one thread of 16 registers, one
 * worker, 64 globals, and the most births. */
void pauseless_usual(uint32_t words, uint32_t frames, pauseless_sizes *sizes);

/* Makes a heap with layouts numbered from 0: 1 to 256 of them. Its registers, globals and a record for each page number
 * are allocated here, by malloc; the words of a page, and some bits for each of them, when the page is opened.
 * RANGE_OF_.. for the first size that is out of its range, LAYOUT_TOO_LARGE for a layout, HAS_HEAP, MEMORY. */
pauseless_code pauseless_new(pauseless_heap *heap, const pauseless_sizes *sizes, const pauseless_layout *layouts,
                             size_t count);

/* Frees the heap with all its memory; does nothing if the handle has none. */
void pauseless_free(pauseless_heap *heap);

/* Objects. Each of these, and each call below, returns NO_HEAP for a handle without a heap, NO_ACTOR for a thread that
 * isn't there, and for any other number that names nothing NO_REGISTER, NO_GLOBAL, NO_LAYOUT, NO_FIELD (a reference's
 * number) or NO_DATUM. If several numbers name nothing, a register comes first. */

/* Makes an object in a register, with null references and data words of 0. If the thread's buffer has no space for it,
 * it gets a fresh one first, for which the heap is collected by the policy. NO_FRAMES or NO_PAGES: the heap is full;
 * OBJECT_TOO_LARGE; BIRTHS; MEMORY, also if there is none for a fresh page; POLICY_... */
pauseless_code pauseless_make(pauseless_heap *heap, const pauseless_policy *policy, uint32_t thread, uint32_t target,
                              uint32_t layout);

/* Makes an object as pauseless_make does, stores count registers in its first references, and writes size words to its
 * first data words; the other references are null, and the other data words 0. If target is one of the registers, it
 * names the new object there. NO_FIELD or NO_DATUM if the layout has fewer references or data words; else as
 * pauseless_make. */
pauseless_code pauseless_make_with(pauseless_heap *heap, const pauseless_policy *policy, uint32_t thread,
                                   uint32_t target, uint32_t layout, const uint32_t *sources, size_t count,
                                   const uint64_t *nums, size_t size);

/* Makes an object in the buffer that the thread has. NO_ROOM: there is none, or it is too small; BIRTHS. */
pauseless_code pauseless_new_object(pauseless_heap *heap, uint32_t thread, uint32_t target, uint32_t layout);

/* Takes a buffer of words for a thread, without a collection. BAD_WORDS unless words is 1 to the words of a page;
 * HAS_BUFFER; NO_FRAMES, NO_PAGES; MEMORY if there is none for a fresh page. */
pauseless_code pauseless_take(pauseless_heap *heap, uint32_t thread, uint32_t words);

/* Gives back a thread's buffer, whose rest is unused until its page is emptied. NO_ROOM if there is none. */
pauseless_code pauseless_give_back(pauseless_heap *heap, uint32_t thread);

/* Gets a thread a fresh buffer, as pauseless_make does. NO_FRAMES, NO_PAGES, MEMORY, POLICY_... */
pauseless_code pauseless_refill(pauseless_heap *heap, const pauseless_policy *policy, uint32_t thread);

/* Writes which object a register names. NULL. */
pauseless_code pauseless_look(pauseless_heap *heap, uint32_t thread, uint32_t reg, pauseless_object *object);

/* References. NULL if the register of an object is null. */

/* Loads a reference of an object into a register, through the complete read barrier. */
pauseless_code pauseless_load(pauseless_heap *heap, uint32_t thread, uint32_t target, uint32_t object, uint32_t field);

/* Does several of these loads from one object, in order. A load into the object's own register comes last, as loads
 * after it are from the object that the register names then. Stops at the first load that fails, and returns its code;
 * *done is how many are done, and is always written. */
pauseless_code pauseless_loads(pauseless_heap *heap, uint32_t thread, uint32_t object,
                               const pauseless_field_load *fields, size_t count, uint64_t *done);

/* Stores a register's reference, which may be null, in a reference of an object. */
pauseless_code pauseless_store(pauseless_heap *heap, uint32_t thread, uint32_t object, uint32_t field, uint32_t source);

/* Load a global into a register, and store a register in a global. */
pauseless_code pauseless_load_global(pauseless_heap *heap, uint32_t thread, uint32_t target, uint32_t global);
pauseless_code pauseless_store_global(pauseless_heap *heap, uint32_t thread, uint32_t global, uint32_t source);

/* Copy a register to another one, and make a register null. */
pauseless_code pauseless_copy(pauseless_heap *heap, uint32_t thread, uint32_t target, uint32_t source);
pauseless_code pauseless_clear(pauseless_heap *heap, uint32_t thread, uint32_t target);

/* Write whether two registers name the same object, or both none; and whether one names none. */
pauseless_code pauseless_same(pauseless_heap *heap, uint32_t thread, uint32_t left, uint32_t right, bool *is_so);
pauseless_code pauseless_is_null(pauseless_heap *heap, uint32_t thread, uint32_t reg, bool *is_so);

/* Data words. NULL if the register of the object is null. */

pauseless_code pauseless_get(pauseless_heap *heap, uint32_t thread, uint32_t object, uint32_t index, uint64_t *value);
pauseless_code pauseless_set(pauseless_heap *heap, uint32_t thread, uint32_t object, uint32_t index, uint64_t value);

/* Read and write several data words of an object, from number first on: as a call of pauseless_get or pauseless_set for
 * each, but the object is looked up once. NO_DATUM if the object has fewer: pauseless_set_many has written nothing
 * then, and after pauseless_get_many values is unspecified. */
pauseless_code pauseless_get_many(pauseless_heap *heap, uint32_t thread, uint32_t object, uint32_t first,
                                  uint64_t *values, size_t size);
pauseless_code pauseless_set_many(pauseless_heap *heap, uint32_t thread, uint32_t object, uint32_t first,
                                  const uint64_t *values, size_t size);

/* Copies count data words of the source, from number first_of_source on, to the target, from number first on: as
 * pauseless_get_many and then pauseless_set_many, so the two may be one object and overlap, as in memmove. NO_DATUM if
 * one of them has fewer. If the call fails, nothing is written. */
pauseless_code pauseless_copy_data(pauseless_heap *heap, uint32_t thread, uint32_t target, uint32_t first,
                                   uint32_t source, uint32_t first_of_source, size_t count);

/* Read and write bytes of an object's data words, from byte offset on: 0 to 8 times the data words. Byte i is byte
 * i % 8 of data word i / 8, the lowest byte of a word first. pauseless_write_bytes keeps the other bytes of the words
 * that it writes. NO_DATUM if the object has fewer: pauseless_write_bytes has written nothing then, and after
 * pauseless_read_bytes bytes is unspecified. */
pauseless_code pauseless_read_bytes(pauseless_heap *heap, uint32_t thread, uint32_t object, uint32_t offset,
                                    void *bytes, size_t size);
pauseless_code pauseless_write_bytes(pauseless_heap *heap, uint32_t thread, uint32_t object, uint32_t offset,
                                     const void *bytes, size_t size);

/* Collections. pauseless_make and pauseless_refill collect by themselves. */

/* Does a complete collection, which empties pages of which at most percent words of a hundred are live: 0 to 100.
 * MEMORY, POLICY_PERCENT. */
pauseless_code pauseless_collect(pauseless_heap *heap, uint32_t percent, pauseless_collected *done);

/* Does the next part of a collection, for a caller that can't stop for a complete one; budget is how many objects it
 * may scan. *has_ended if it was the last one, and the next part begins another. MEMORY, POLICY_PERCENT. */
pauseless_code pauseless_collect_some(pauseless_heap *heap, uint32_t percent, uint32_t budget, bool *has_ended);

/* From now on a collection in parts, by pauseless_collect_some or a policy with a budget, empties at most this many
 * pages with live objects, those with the fewest live words, and all that have none. So the part that protects them
 * is shorter: with 128 pages it took less than a millisecond in heaps of 1 GiB. What is left is emptied by later
 * collections, each of which marks the heap. At first any number is allowed. NO_HEAP alone. */
pauseless_code pauseless_empty_at_most(pauseless_heap *heap, uint32_t pages);

/* Reading the complete heap without steps, in any phase of a collection. An object is read by its place, which is
 * valid until a call other than these is made; 0 is the place of null. These calls write nothing to the heap. NULL if
 * the place of an object is 0, and BAD_INDEX for a number that isn't an object's place. */

/* Write the place of the object that a register, a global or a reference of an object names. */
pauseless_code pauseless_view_register(pauseless_heap *heap, uint32_t thread, uint32_t reg, uint64_t *place);
pauseless_code pauseless_view_global(pauseless_heap *heap, uint32_t global, uint64_t *place);
pauseless_code pauseless_view_load(pauseless_heap *heap, uint64_t object, uint32_t field, uint64_t *place);

/* Read a data word of an object, and write which object is at a place. */
pauseless_code pauseless_view_get(pauseless_heap *heap, uint64_t object, uint32_t index, uint64_t *value);
pauseless_code pauseless_view_look(pauseless_heap *heap, uint64_t place, pauseless_object *object);

/* Counts, statistics and reports */

pauseless_code pauseless_count(pauseless_heap *heap, pauseless_counts *counts);

/* Writes the counters of the heap and its collections. The time is linear in the threads. */
pauseless_code pauseless_get_statistics(pauseless_heap *heap, pauseless_statistics *statistics);

/* Memory of frames that became free, or that a collection in parts has prepared, is kept for the next pages. Writes of
 * how many frames: at most as many as are free. */
pauseless_code pauseless_kept(pauseless_heap *heap, uint64_t *frames);

/* Releases kept memory to malloc, except that of the given number of frames. The state of the heap stays. */
pauseless_code pauseless_trim(pauseless_heap *heap, uint32_t frames);

/* Lets the heap's memory follow what lives in it. From now on pauseless_make, pauseless_make_with and pauseless_refill
 * also collect if N frames are used. N is the frames that were used after the last collection and growth percent more,
 * at least one more and at least least; before a first collection, least. Memory of free frames beyond that is released
 * after a collection. 100 lets a heap double; least keeps a small one from being collected too often. */
pauseless_code pauseless_set_growth(pauseless_heap *heap, uint32_t least, uint32_t growth);

/* Verifies that the heap is sound in its current state, in time linear in the words of all frames and pages. DONE by
 * contract, or MEMORY: UNSOUND means that memory was overwritten from outside, or that a proof doesn't hold. */
pauseless_code pauseless_verify(pauseless_heap *heap);

/* Writes the state of the heap, in lines of ASCII text: the phase, each page in use, each thread, each global, and the
 * barrier counters of each thread. docs/SCRIPT.md describes the lines, under 'The report'. The first size bytes of the
 * text are written to text, with no byte 0 after them; *length is that of the complete text, so a caller may call with
 * a size of 0 first. MEMORY. */
pauseless_code pauseless_report(pauseless_heap *heap, char *text, size_t size, uint64_t *length);

#ifdef __cplusplus
}
#endif

#endif
