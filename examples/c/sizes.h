/* Size classes: layouts for arrays and strings, whose sizes a program learns as it runs.
 *
 * An object has the size of its layout, and a heap has 256 layouts at most. So an array gets the layout of the smallest
 * class that has room for it. Each doubling of the size is cut in parts: with two the classes are 1, 2, 3, 4, 6, 8, 12,
 * 16 and so on to the largest, and at most a third of an object is unused. docs/RUNTIMES.md says what others waste.
 *
 *     const struct size_classes classes = {.parts = 2, .largest = 1023};
 *     pauseless_layout layouts[STRING + 20] = {[NODE] = {2, 1}};
 *     for (uint32_t i = 0; i < class_count(&classes); i++) layouts[STRING + i].nums = class_size(&classes, i);
 *     ..
 *     pauseless_make(&heap, &policy, ME, string, STRING + class_for(&classes, words));
 *
 * An array that grows gets the class of one element more: it grows by a factor, so each element moves a few times.
 * Nothing here calls the library. */
#ifndef SIZES_H
#define SIZES_H

#include <stdint.h>

/* In how many parts each doubling is cut: 1, 2, 4 or 8; and the size of the largest class: 1 to 1,023, which is as many
 * references or data words as a layout has at most, and less than a page has words, since an object has a header. */
struct size_classes {
    uint32_t parts, largest;
};

/* The number of the smallest class that has room for size; that of the largest class if none has. Numbers begin with
 * 0, that of size 1. */
static inline uint32_t class_for(const struct size_classes *classes, uint64_t size) {
    uint32_t doublings = 0;
    if (size > classes->largest) size = classes->largest;
    if (size == 0) return 0;
    while ((uint64_t)2 * classes->parts << doublings < size) doublings++;
    const uint64_t unit = (uint64_t)1 << doublings;
    return (uint32_t)(doublings * classes->parts + (size + unit - 1) / unit - 1);
}

/* How many classes there are. */
static inline uint32_t class_count(const struct size_classes *classes) {
    return class_for(classes, classes->largest) + 1;
}

/* The size of a class, whose number is less than class_count. */
static inline uint32_t class_size(const struct size_classes *classes, uint32_t number) {
    const uint32_t parts = classes->parts;
    const uint32_t doublings = number < 2 * parts ? 0 : number / parts - 1;
    const uint32_t size = (number - doublings * parts + 1) << doublings;
    return size < classes->largest ? size : classes->largest;
}

#endif
