/* That the memory of the process follows what lives in the heap: a heap of 1 GiB is made, holds 1 MiB, 500 MiB, and
 * 1 MiB again, and at each end the process has at most 1.5 times as much, and 32 MiB. If the system doesn't
 * tell how much memory a process has, this is passed over. */
#include "same.h"
#include <malloc.h>
#include <stdlib.h>
#include <time.h>
#include <unistd.h>

enum {
    WORDS = 32768,         /* a page: 256 KiB */
    FRAMES = 4096,         /* 1 GiB */
    OBJECT_WORDS = 16,     /* a header, a reference, and 14 data words */
    MIB_OBJECTS = 1048576 / 8 / OBJECT_WORDS,
    LEAST = 32,            /* 8 MiB */
    GROWTH = 25
};

enum { HEAD, NODE, NEW, ROOTS };

static pauseless_heap heap;

static const pauseless_policy policy = {.words = WORDS, .free = 64, .percent = 75};

/* The memory of the process in MiB; 0 if that isn't told. */
static double resident(void) {
    long pages = 0, present = 0;
    FILE *file = fopen("/proc/self/statm", "r");
    if (file == NULL) return 0;
    if (fscanf(file, "%ld %ld", &pages, &present) != 2) present = 0;
    fclose(file);
    return (double)present * (double)sysconf(_SC_PAGESIZE) / 1048576;
}

/* The memory that malloc has given in MiB. The process has more: also of the program's code, as it is first run. */
static double given(void) {
    const struct mallinfo2 info = mallinfo2();
    return (double)(info.uordblks + info.hblkhd) / 1048576;
}

static double now(void) {
    struct timespec at;
    clock_gettime(CLOCK_MONOTONIC, &at);
    return (double)at.tv_sec * 1000 + (double)at.tv_nsec / 1e6;
}

static void at_most(const char *what, double found, double most) {
    if (found <= most) return;
    differences++;
    printf("%s: %.1f, more than %.1f\n", what, found, most);
}

/* Puts N objects before those of the list. */
static void lengthen(unsigned long objects) {
    for (unsigned long i = 0; i < objects; i++) {
        DONE(pauseless_make(&heap, &policy, 0, NEW, 0));
        DONE(pauseless_store(&heap, 0, NEW, 0, HEAD));
        DONE(pauseless_copy(&heap, 0, HEAD, NEW));
    }
    DONE(pauseless_clear(&heap, 0, NEW));
}

/* Keeps the first objects of the list alone. */
static void shorten(unsigned long objects) {
    DONE(pauseless_copy(&heap, 0, NODE, HEAD));
    for (unsigned long i = 1; i < objects; i++) DONE(pauseless_load(&heap, 0, NODE, NODE, 0));
    DONE(pauseless_store(&heap, 0, NODE, 0, NEW));
    DONE(pauseless_clear(&heap, 0, NODE));
}

static void collects(double live) {
    pauseless_collected done;
    DONE(pauseless_collect(&heap, 75, &done));
    SAME(done.live, live * MIB_OBJECTS);
}

/* The heap is collected, and the process has at most 1.5 times what lives in the heap and 32 MiB. The bits of a page
 * that was emptied go back with the next collection. */
static void settles(const char *what, double live) {
    collects(live);
    malloc_trim(0);
    const double found = resident();
    printf("%s: %.1f MiB\n", what, found);
    at_most(what, found, 1.5 * live + 32);
}

int main(void) {
    const pauseless_layout layout = {.refs = 1, .nums = OBJECT_WORDS - 2};
    pauseless_sizes sizes;
    /* So that memory of a page goes back to the system as the heap gives it back; for small blocks malloc is told. */
    mallopt(M_MMAP_THRESHOLD, 65536);
    pauseless_usual(WORDS, FRAMES, &sizes);
    const double before = given(), began = now();
    DONE(pauseless_new(&heap, &sizes, &layout, 1));
    const double took = now() - began, made = given() - before;
    printf("a new heap: %.1f ms, %.1f MiB\n", took, made);
    at_most("MiB of a new heap", made, 6);
    DONE(pauseless_set_growth(&heap, LEAST, GROWTH));
    lengthen(MIB_OBJECTS);
    settles("1 MiB at first", 1);
    lengthen(499 * MIB_OBJECTS);
    settles("500 MiB", 500);
    shorten(MIB_OBJECTS);
    collects(1);
    settles("1 MiB again", 1);
    DONE(pauseless_verify(&heap));
    pauseless_free(&heap);
    return differences != 0;
}
