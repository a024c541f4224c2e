/* A cache under load: a table of entries, of which each operation replaces one. cache FRAMES FREE BUDGET OPERATIONS
 *
 * The heap has pages of 4,096 words. The table has 64 objects of 512 references, and each entry 8 words: 295,000 words
 * live, which are 72 pages. So many operations are done twice, first without a clock for each. Prints the pages that are
 * live, nanoseconds of a processor for an operation, milliseconds of a processor for the longest, the complete collections,
 * the collections in parts that have ended, the parts, the most parts of one operation, and 1 if one was refused. */
#define _POSIX_C_SOURCE 199309L
#include "pauseless.h"
#include <stdint.h>
#include <stdio.h>
#include <stdlib.h>
#include <time.h>

enum { NODES = 64, WIDTH = 512, WORDS = 4096, ENTRY_WORDS = 8, PERCENT = 90 };
enum { ROOT, NODE, ENTRY };                      /* registers */
enum { TABLE_LAYOUT, NODE_LAYOUT, ENTRY_LAYOUT }; /* layouts */

static pauseless_heap heap = PAUSELESS_NONE;
static pauseless_policy policy;
static int refused;

static void must(pauseless_code code) {
    if (code != PAUSELESS_DONE) {
        fprintf(stderr, "cache: %s\n", pauseless_text(code));
        exit(1);
    }
}

static double now(clockid_t clock) {
    struct timespec time;
    clock_gettime(clock, &time);
    return (double)time.tv_sec * 1e9 + (double)time.tv_nsec;
}

static uint32_t random_below(uint32_t bound) {
    static uint64_t state = 88172645463325252;
    state ^= state << 13;
    state ^= state >> 7;
    state ^= state << 17;
    return (uint32_t)(state >> 32) % bound;
}

/* A new entry in a slot of the table, in place of the one that was there. */
static void replace(uint32_t node, uint32_t slot) {
    uint64_t value[] = {node, slot};
    pauseless_code code = pauseless_make_with(&heap, &policy, 0, ENTRY, ENTRY_LAYOUT, NULL, 0, value, 2);
    if (code != PAUSELESS_DONE) {
        refused = 1;
        return;
    }
    must(pauseless_load(&heap, 0, NODE, ROOT, node));
    must(pauseless_store(&heap, 0, NODE, slot, ENTRY));
}

static void fill(void) {
    must(pauseless_make(&heap, &policy, 0, ROOT, TABLE_LAYOUT));
    for (uint32_t node = 0; node < NODES; node++) {
        must(pauseless_make(&heap, &policy, 0, NODE, NODE_LAYOUT));
        must(pauseless_store(&heap, 0, ROOT, node, NODE));
        for (uint32_t slot = 0; slot < WIDTH; slot++) replace(node, slot);
    }
}

static void replace_some(long operations) {
    for (long operation = 0; operation < operations && !refused; operation++)
        replace(random_below(NODES), random_below(WIDTH));
}

static uint64_t parts(void) {
    pauseless_statistics statistics;
    must(pauseless_get_statistics(&heap, &statistics));
    return statistics.parts;
}

/* The longest of some operations, in nanoseconds of a processor, so that other work counts little; the system's call for
 * these takes as long as most operations. And the most parts of one. */
static double longest_of(long operations, uint64_t *most) {
    double longest = 0;
    for (long operation = 0; operation < operations && !refused; operation++) {
        uint64_t done = parts();
        double before = now(CLOCK_PROCESS_CPUTIME_ID);
        replace_some(1);
        double took = now(CLOCK_PROCESS_CPUTIME_ID) - before;
        if (took > longest) longest = took;
        done = parts() - done;
        if (done > *most) *most = done;
    }
    return longest;
}

int main(int count, char **words) {
    if (count != 5) return 2;
    uint32_t frames = (uint32_t)atol(words[1]);
    policy = (pauseless_policy){WORDS, (uint32_t)atol(words[2]), PERCENT, (uint32_t)atol(words[3])};
    long operations = atol(words[4]);
    pauseless_sizes sizes;
    pauseless_usual(WORDS, frames, &sizes);
    pauseless_layout layouts[] = {{NODES, 0}, {WIDTH, 0}, {1, ENTRY_WORDS - 2}};
    must(pauseless_new(&heap, &sizes, layouts, 3));
    fill();
    double began = now(CLOCK_PROCESS_CPUTIME_ID);
    replace_some(operations);
    uint64_t most = 0;
    double all = now(CLOCK_PROCESS_CPUTIME_ID) - began, longest = longest_of(operations, &most);
    pauseless_statistics statistics;
    must(pauseless_get_statistics(&heap, &statistics));
    long live = (NODES * (1 + WIDTH) + NODES * WIDTH * ENTRY_WORDS + 1 + NODES) / WORDS;
    printf("%ld %.1f %.3f %lu %lu %lu %lu %d\n", live, all / (double)operations, longest / 1e6,
           (unsigned long)(statistics.by_policy + statistics.by_room), (unsigned long)statistics.ended_in_parts,
           (unsigned long)statistics.parts, (unsigned long)most, refused);
    pauseless_free(&heap);
    return 0;
}
