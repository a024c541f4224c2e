/* Size classes: for each number of parts and each largest size, that they ascend to the largest one, and that each size
 * gets the smallest class that has room for it; and for the largest layouts, how many they are and what they waste, as
 * docs/RUNTIMES.md has it. */
#include "../../examples/c/sizes.h"

#include "same.h"

enum { LARGEST = 1023 };

static void smallest_with_room(const struct size_classes *classes) {
    const uint32_t count = class_count(classes);
    uint32_t number = 0;
    SAME(class_size(classes, 0), 1);
    SAME(class_size(classes, count - 1), classes->largest);
    SAME(class_for(classes, 0), 0);
    for (uint32_t size = 1; size <= classes->largest; size++) {
        if (size > class_size(classes, number)) number++;
        SAME(class_for(classes, size), number);
        SAME(class_size(classes, number) >= size, true);
    }
    SAME(number, count - 1);
    SAME(class_for(classes, classes->largest + 1), number);
    SAME(class_for(classes, UINT64_MAX), number);
}

/* Prints a row of the table of docs/RUNTIMES.md: the numbers of parts and classes, and the share of an object that is
 * unused, at most and on average over all sizes, in percent. */
static void print_row(const struct size_classes *classes) {
    double most = 0, sum = 0;
    for (uint32_t size = 1; size <= LARGEST; size++) {
        const double unused = 1 - (double)size / class_size(classes, class_for(classes, size));
        if (unused > most) most = unused;
        sum += unused;
    }
    printf("%u %u %.0f %.0f\n", classes->parts, class_count(classes), 100 * most, 100 * sum / LARGEST);
}

int main(void) {
    for (uint32_t parts = 1; parts <= 8; parts *= 2) {
        struct size_classes classes = {.parts = parts};
        for (classes.largest = 1; classes.largest <= LARGEST; classes.largest++) smallest_with_room(&classes);
        classes.largest = LARGEST;
        print_row(&classes);
    }
    return differences != 0;
}
