/* Heaps near their limits, for bench/large.py. Each work prints one line of numbers.
 *
 * large registers COUNT: a thread has COUNT registers, each of which names an object. Prints the longest part of a
 *     collection in parts, and the same where all registers are null, in microseconds.
 * large objects FRAMES WORDS: makes a list that fills half of the frames, of at most 2,000,000 objects of four words.
 *     Prints nanoseconds an object.
 * large heap FRAMES WORDS BUDGET: fills three quarters of the frames with objects of 64 words, of which each second one
 *     lives, and collects the heap in parts. Prints the milliseconds of making the heap, the objects, the nanoseconds an
 *     object, the parts, the milliseconds of the longest one and of all, and the MiB that the process has.
 * large verify FRAMES WORDS: fills the heap in the same way. Prints the milliseconds of a verification. */
#define _POSIX_C_SOURCE 200809L
#define PROGRAM "large"
#include "timed.h"

#include <string.h>

static pauseless_heap heap;

static const pauseless_layout layouts[] = {{.refs = 1, .nums = 2}, {.refs = 1, .nums = 62}};

static void open_heap(uint32_t words, uint32_t frames, uint32_t registers) {
    pauseless_sizes sizes;
    pauseless_usual(words, frames, &sizes);
    sizes.registers = registers;
    must(pauseless_new(&heap, &sizes, layouts, words < 64 ? 1 : 2));
}

/* Makes a list of count objects of a layout in register 0, of which each step-th one is kept in it. */
static void make_list(uint32_t words, uint32_t layout, uint64_t count, uint64_t step) {
    const pauseless_policy policy = {.words = words, .free = 0, .percent = 0};
    for (uint64_t i = 0; i < count; i++) {
        must(pauseless_make(&heap, &policy, 0, 1, layout));
        if (i % step != 0) continue;
        must(pauseless_store(&heap, 0, 1, 0, 0));
        must(pauseless_copy(&heap, 0, 0, 1));
    }
    must(pauseless_clear(&heap, 0, 1));
}

/* A collection in parts: how many there were, the nanoseconds of the longest one, and of all. */
struct parts {
    uint64_t count;
    double longest, all;
};

static struct parts collect(uint32_t budget) {
    struct parts parts = {0};
    for (bool has_ended = false; !has_ended; parts.count++) {
        const double begin = now();
        must(pauseless_collect_some(&heap, 50, budget, &has_ended));
        const double time = now() - begin;
        parts.all += time;
        if (time > parts.longest) parts.longest = time;
    }
    return parts;
}

static void registers(uint32_t count) {
    const pauseless_policy policy = {.words = 512, .free = 0, .percent = 0};
    open_heap(512, count / 64 + 16, count);
    collect(1000);
    const struct parts null = collect(1000);
    for (uint32_t reg = 0; reg < count; reg++) must(pauseless_make(&heap, &policy, 0, reg, 0));
    collect(1000);
    const struct parts used = collect(1000);
    printf("%.0f %.0f\n", used.longest / 1e3, null.longest / 1e3);
}

static void objects(uint32_t frames, uint32_t words) {
    const uint64_t room = (uint64_t)frames * (words / 4) / 2, count = room < 2000000 ? room : 2000000;
    open_heap(words, frames, 2);
    const double begin = now();
    make_list(words, 0, count, 1);
    printf("%.1f\n", (now() - begin) / (double)count);
}

static uint64_t fill(uint32_t frames, uint32_t words) {
    const uint64_t count = (uint64_t)frames * (words / 64) / 4 * 3;
    make_list(words, 1, count, 2);
    return count;
}

static double resident(void) {
    unsigned long all = 0, used = 0;
    FILE *file = fopen("/proc/self/statm", "r");
    if (file == NULL || fscanf(file, "%lu %lu", &all, &used) != 2) return 0;
    fclose(file);
    return (double)used * 4096 / (1 << 20);
}

static void parts(uint32_t frames, uint32_t words, uint32_t budget) {
    double begin = now();
    open_heap(words, frames, 2);
    const double made = now() - begin;
    begin = now();
    const uint64_t count = fill(frames, words);
    const double filled = (now() - begin) / (double)count;
    const struct parts parts = collect(budget);
    printf("%.0f %llu %.1f %llu %.2f %.0f %.0f\n", made / 1e6, (unsigned long long)count, filled,
           (unsigned long long)parts.count, parts.longest / 1e6, parts.all / 1e6, resident());
}

static void verify(uint32_t frames, uint32_t words) {
    open_heap(words, frames, 2);
    fill(frames, words);
    const double begin = now();
    must(pauseless_verify(&heap));
    printf("%.0f\n", (now() - begin) / 1e6);
}

int main(int argc, char **argv) {
    const char *work = argc > 1 ? argv[1] : "";
    uint32_t numbers[3] = {0};
    for (int i = 2; i < argc && i < 5; i++) numbers[i - 2] = (uint32_t)strtoul(argv[i], NULL, 10);
    if (strcmp(work, "registers") == 0) registers(numbers[0]);
    else if (strcmp(work, "objects") == 0) objects(numbers[0], numbers[1]);
    else if (strcmp(work, "heap") == 0) parts(numbers[0], numbers[1], numbers[2]);
    else if (strcmp(work, "verify") == 0) verify(numbers[0], numbers[1]);
    else return 2;
    pauseless_free(&heap);
    return 0;
}
