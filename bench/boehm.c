/* Shapes of objects that are collected, and objects that are made one behind another, on the collector of Boehm,
   Demers and Weiser. The words of a command are those of a work of crates/bench_collections, which has the same on this
   heap:

     collect-SHAPE COUNT WORDS HEAPS TIMES   so many times a shape is made, and collected so many times
     keep WORDS COUNT                        so many objects are made, and each becomes the head of a list
     drop WORDS COUNT                        so many objects are made that nobody keeps
     timed waves-SHAPE COUNT WORDS MARKERS TIMES
                                             a shape is made, and collected TIMES times by MARKERS markers: prints the
                                             objects, and the median and the longest of these in nanoseconds

   A shape is list, half, tree, forest or graph. An object of WORDS words has a reference and data; one of a tree, a
   forest or a graph two references and a datum. All but 'timed' have one marker. Nothing is collected while a shape
   is made. Two runs of the same numbers but for the
   last one differ in one loop alone. 'keep' and 'drop' begin with as much memory as the heap of
   crates/bench_collections has.

   With the word 'exact' before these the collector is told that references lead to where an object begins. It then adds
   no byte behind an object, so that one of 2 words takes 16 bytes and not 32. */
#define _POSIX_C_SOURCE 200809L
#define GC_THREADS /* for the count of markers */
#include <gc/gc.h>
#include <inttypes.h>
#include <stdint.h>
#include <stdio.h>
#include <stdlib.h>
#include <string.h>
#include <time.h>

/* The bytes of 1,024 frames of 4,096 words. */
#define MEMORY ((size_t)1024 * 4096 * 8)

/* The words of an object of a tree or a graph. */
#define BRANCH 3

/* The objects of a tree of a forest. */
#define TREE ((size_t)1023)

/* Collections before those that are timed, and the most of these. */
#define SETTLED 2
#define MOST_TIMES 100

typedef struct object {
    struct object *references[1];
} object;

/* What is reached first, and an object that was made last. */
static object *head, *last;

static object *make(size_t words) {
    object *made = GC_MALLOC(words * sizeof(object *));
    if (!made) {
        fputs("out of memory\n", stderr);
        exit(1);
    }
    return made;
}

static void push(size_t words) {
    last = make(words);
    last->references[0] = head;
    head = last;
}

static void make_list(size_t count, size_t words, int with_lost) {
    for (size_t number = 0; number < count; number++) {
        push(words);
        if (with_lost) last = make(words);
    }
}

/* So many objects, in memory that the collector doesn't look at. */
static object **make_all(size_t count) {
    object **all = malloc((count + 1) * sizeof(object *));
    if (!all) exit(1);
    for (size_t number = 0; number < count; number++) all[number] = make(BRANCH);
    return all;
}

static void make_tree(size_t count) {
    object **all = make_all(count);
    for (size_t number = 1; number < count; number++) all[(number - 1) / 2]->references[(number - 1) % 2] = all[number];
    head = count ? all[0] : NULL;
    free(all);
}

static void make_forest(size_t count) {
    object **all = make_all(count);
    head = make(count / TREE + 1);
    for (size_t number = 0; number < count; number++) {
        size_t place = number % TREE, root = number - place;
        if (place)
            all[root + (place - 1) / 2]->references[(place - 1) % 2] = all[number];
        else
            head->references[number / TREE] = all[number];
    }
    free(all);
}

/* The number of the object behind another one in the cycle of a graph. */
static size_t next(size_t number, size_t count) {
    return ((uint32_t)number * 1664525u + 1013904223u) % count;
}

static void make_graph(size_t count) {
    object **all = make_all(count);
    uint64_t state = 1;
    for (size_t number = 0; number < count; number++) {
        state = state * 6364136223846793005u + 1442695040888963407u;
        all[number]->references[0] = all[next(number, count)];
        all[number]->references[1] = all[(state >> 32) % count];
    }
    head = count ? all[0] : NULL;
    free(all);
}

static int make_shape(const char *shape, size_t count, size_t words) {
    if (!strcmp(shape, "list"))
        make_list(count, words, 0);
    else if (!strcmp(shape, "half"))
        make_list(count, words, 1);
    else if (!strcmp(shape, "tree"))
        make_tree(count);
    else if (!strcmp(shape, "forest"))
        make_forest(count);
    else if (!strcmp(shape, "graph"))
        make_graph(count);
    else
        return 0;
    return 1;
}

static int collect(const char *shape, size_t count, size_t words, size_t heaps, size_t times) {
    for (size_t heap = 0; heap < heaps; heap++) {
        head = last = NULL;
        GC_disable();
        if (!make_shape(shape, count, words)) return 0;
        last = NULL;
        GC_enable();
        for (size_t turn = 0; turn < times; turn++) GC_gcollect();
    }
    return 1;
}

static uint64_t now(void) {
    struct timespec time;
    clock_gettime(CLOCK_MONOTONIC, &time);
    return (uint64_t)time.tv_sec * 1000000000u + (uint64_t)time.tv_nsec;
}

static int by_size(const void *one, const void *other) {
    uint64_t left = *(const uint64_t *)one, right = *(const uint64_t *)other;
    return (left > right) - (left < right);
}

static int timed(const char *name, size_t count, size_t words, size_t times) {
    uint64_t took[MOST_TIMES];
    if (strncmp(name, "waves-", 6) || !times || times > MOST_TIMES) return 0;
    GC_disable();
    if (!make_shape(name + 6, count, words)) return 0;
    last = NULL;
    GC_enable();
    for (int turn = 0; turn < SETTLED; turn++) GC_gcollect();
    for (size_t turn = 0; turn < times; turn++) {
        uint64_t began = now();
        GC_gcollect();
        took[turn] = now() - began;
    }
    qsort(took, times, sizeof *took, by_size);
    printf("%s %zu %" PRIu64 " %" PRIu64 "\n", name, count, took[times / 2], took[times - 1]);
    return 1;
}

static int work(const char *name, const size_t numbers[4]) {
    if (!strncmp(name, "collect-", 8)) return collect(name + 8, numbers[0], numbers[1], numbers[2], numbers[3]);
    if (!GC_expand_hp(MEMORY)) return 0;
    if (!strcmp(name, "keep")) {
        make_list(numbers[1], numbers[0], 0);
        return 1;
    }
    if (strcmp(name, "drop")) return 0;
    for (size_t number = 0; number < numbers[1]; number++) last = make(numbers[0]);
    return 1;
}

/* The numbers of a command, from a word on. */
static void read_numbers(int count, char **words, int from, size_t numbers[4]) {
    for (int place = from; place < count && place < from + 4; place++)
        numbers[place - from] = strtoul(words[place], NULL, 10);
}

static int usage(void) {
    fputs("boehm [exact] collect-SHAPE COUNT WORDS HEAPS TIMES | keep WORDS COUNT | drop WORDS COUNT |"
          " timed waves-SHAPE COUNT WORDS MARKERS TIMES\n", stderr);
    return 2;
}

int main(int count, char **words) {
    size_t numbers[4] = {0};
    int exact = count > 1 && !strcmp(words[1], "exact");
    int is_timed = count > 2 + exact && !strcmp(words[1 + exact], "timed");
    int name = 1 + exact + is_timed;
    if (count <= name) return usage();
    read_numbers(count, words, name + 1, numbers);
    GC_set_markers_count(is_timed ? (unsigned)numbers[2] : 1);
    if (exact) GC_set_all_interior_pointers(0);
    GC_INIT();
    if (is_timed) {
        GC_start_mark_threads();
        return timed(words[name], numbers[0], numbers[1], numbers[3]) ? 0 : usage();
    }
    if (!work(words[name], numbers)) return usage();
    printf("%lu collections, %lu bytes\n", (unsigned long)GC_get_gc_no(), (unsigned long)GC_get_heap_size());
    return 0;
}
