/* The memory of the Lisp on the heap of this repository: all its calls of the library. */
#include "../c/scopes.h"
#include "lisp.h"

#include <pauseless_shared.h>
#include <stdio.h>
#include <stdlib.h>

static pauseless_heap heap = PAUSELESS_NONE;
static pauseless_policy policy;
static uint64_t made, check;
_Thread_local uint64_t words[REGISTERS];
uint64_t global_words[GLOBALS];
static _Thread_local struct handles handles;
static _Thread_local uint32_t me; /* the number of this thread; that of the first one is 0 */

/* Until the first thread is started the heap isn't shared, and the one thread runs without a portion or a lock. From
 * one rest to the next there are some five calls of the library. */
static pauseless_shared shared;
static _Thread_local pauseless_portion portion;
enum { RESTS = 200, BUDGET = 1000 }; /* rests of a portion; objects that a part of a collection scans */

/* The threads that were started, by their numbers. */
static struct seat {
    bool is_taken;
    pthread_t id;
    void (*work)(unsigned number);
} seats[THREADS];
static uint32_t threads;

static void must(pauseless_code code) {
    if (code) fail(pauseless_text(code));
}

/* An object has a reference and a data word for each field. Its layout is the number of its fields, less one. */
void memory_open(const struct memory_options *options) {
    pauseless_sizes sizes;
    pauseless_layout layouts[CHUNK_SIZE];
    for (uint16_t i = 0; i < CHUNK_SIZE; i++) layouts[i] = (pauseless_layout){i + 1, i + 1};
    pauseless_usual(options->words, options->frames, &sizes);
    sizes.threads = threads = options->threads;
    sizes.registers = REGISTERS;
    sizes.globals = GLOBALS;
    must(pauseless_new(&heap, &sizes, layouts, CHUNK_SIZE));
    policy = (pauseless_policy){
        .words = options->words, .free = options->frames / 8 > 0 ? options->frames / 8 : 1, .percent = 75,
        .budget = options->budget};
    check = options->check;
    handles_open(&handles, &heap, me, FIRST_HANDLE, HANDLES, fail);
}

/* All threads that were started have been joined. */
void memory_close(bool prints_what_it_did) {
    pauseless_counts counts;
    pauseless_statistics seen;
    if (portion.shared) {
        pauseless_leave(&portion);
        pauseless_unshare(&shared);
        must(shared.failed);
    }
    must(pauseless_count(&heap, &counts));
    must(pauseless_get_statistics(&heap, &seen));
    if (check) must(pauseless_verify(&heap));
    if (prints_what_it_did)
        fprintf(stderr, "%llu objects, %llu collections, %llu collections between portions, %llu bytes for objects\n",
                (unsigned long long)seen.births, (unsigned long long)(seen.by_policy + seen.by_room + seen.by_parts),
                (unsigned long long)shared.collections, 8ULL * counts.words * counts.frames);
    pauseless_free(&heap);
}

/* The sources of references end with the last object; before that, what is no object is null. A new object that
 * is made in the register of a source would name itself there. */
void memory_make(unsigned target, uint64_t word, const uint32_t *sources, unsigned size) {
    uint32_t references[CHUNK_SIZE];
    uint64_t data[CHUNK_SIZE];
    unsigned i = 0, count = 0, place = target;
    do {
        data[i] = words[sources[i]];
        references[i] = has_object(data[i]) ? sources[i] : NOTHING;
        if (has_object(data[i])) count = i + 1;
        if (references[i] == target) place = SPARE;
    } while (++i < size);
    must(pauseless_make_with(&heap, &policy, me, place, size - 1, references, count, data, size));
    if (place != target) {
        must(pauseless_copy(&heap, me, target, place));
        must(pauseless_clear(&heap, me, place));
    }
    words[target] = word;
    if (check && ++made % check == 0) must(pauseless_verify(&heap));
}

/* The word tells whether there is a reference to load. */
void memory_get(unsigned target, unsigned object, unsigned field) {
    uint64_t word;
    must(pauseless_get(&heap, me, object, field, &word));
    if (has_object(word)) {
        must(pauseless_load(&heap, me, target, object, field));
        words[target] = word;
    } else memory_set(target, word);
}
void memory_get_all(const uint32_t *targets, unsigned object, unsigned size) {
    pauseless_field_load loads[CHUNK_SIZE];
    uint64_t data[CHUNK_SIZE], done;
    unsigned count = 0;
    must(pauseless_get_many(&heap, me, object, 0, data, size));
    for (unsigned i = size; i > 0; i--)
        if (has_object(data[i - 1])) loads[count++] = (pauseless_field_load){targets[i - 1], i - 1};
    must(pauseless_loads(&heap, me, object, loads, count, &done));
    for (unsigned i = 0; i < size; i++) {
        if (has_object(data[i])) words[targets[i]] = data[i];
        else memory_set(targets[i], data[i]);
    }
}
void memory_put(unsigned object, unsigned field, unsigned source) {
    must(pauseless_store(&heap, me, object, field, has_object(words[source]) ? source : NOTHING));
    must(pauseless_set(&heap, me, object, field, words[source]));
}
void memory_set(unsigned target, uint64_t word) {
    if (has_object(words[target])) must(pauseless_clear(&heap, me, target));
    words[target] = word;
}
void memory_copy(unsigned target, unsigned source) {
    const uint64_t word = words[source];
    if (has_object(word)) {
        must(pauseless_copy(&heap, me, target, source));
        words[target] = word;
    } else memory_set(target, word);
}
bool memory_same(unsigned left, unsigned right) {
    bool is_so = words[left] == words[right];
    if (is_so && has_object(words[left])) must(pauseless_same(&heap, me, left, right, &is_so));
    return is_so;
}
void memory_get_global(unsigned target, unsigned global) {
    const uint64_t word = global_words[global];
    if (has_object(word)) {
        must(pauseless_load_global(&heap, me, target, global));
        words[target] = word;
    } else memory_set(target, word);
}
void memory_put_global(unsigned global, unsigned source) {
    const uint64_t word = words[source];
    if (has_object(word) || has_object(global_words[global]))
        must(pauseless_store_global(&heap, me, global, has_object(word) ? source : NOTHING));
    global_words[global] = word;
}
struct memory_scope memory_begin_scope(void) { return (struct memory_scope){scope_begin(&handles).first}; }
unsigned memory_handle(void) { return handle_new(&handles); }
void memory_end_scope(struct memory_scope scope) {
    for (uint32_t i = scope.first; i < handles.next; i++) words[i] = NIL;
    scope_end(&handles, (struct scope){scope.first});
}

/* Shares the heap when the first thread is started. The collector's thread collects when at most half of the frames
 * are free; a thread collects for its own buffer when at most an eighth are. */
static void share(void) {
    const pauseless_policy early = {.free = 4 * policy.free, .percent = policy.percent};
    if (portion.shared) return;
    policy.budget = 0;
    if (!pauseless_share(&shared, &heap, RESTS)) fail("the heap can't be shared");
    portion = pauseless_enter(&shared);
    if (!pauseless_start_collector(&shared, &early, BUDGET)) fail("the system starts no thread");
}

/* A thread of the system: at its end its registers are empty, and it has no buffer. */
static void *run_seat(void *argument) {
    const struct seat *seat = argument;
    me = (uint32_t)(seat - seats);
    handles_open(&handles, &heap, me, FIRST_HANDLE, HANDLES, fail);
    portion = pauseless_enter(&shared);
    seat->work(me);
    for (unsigned i = 0; i < REGISTERS; i++) memory_set(i, NIL);
    pauseless_code code = pauseless_give_back(&heap, me);
    if (code != PAUSELESS_NO_ROOM) must(code);
    pauseless_leave(&portion);
    return NULL;
}
unsigned memory_start(void (*work)(unsigned number)) {
    uint32_t number = 1;
    while (number < threads && seats[number].is_taken) number++;
    if (number >= threads) fail("there are too many threads");
    share();
    seats[number].is_taken = true;
    seats[number].work = work;
    if (pthread_create(&seats[number].id, NULL, run_seat, &seats[number]) != 0) fail("the system starts no thread");
    return number;
}
void memory_join(unsigned number) {
    const pthread_t id = seats[number].id;
    pauseless_leave(&portion);
    const int error = pthread_join(id, NULL);
    portion = pauseless_enter(&shared);
    if (error) fail("a thread waits for itself");
    seats[number].is_taken = false;
}
void memory_rest(void) {
    if (portion.shared) pauseless_rest(&portion);
}
