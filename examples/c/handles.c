/* What a handle answers that has no heap, or has one already; and sizes that are out of range. */
#include <pauseless.h>
#include <stdio.h>

static void tell(const char *what, pauseless_code code) { printf("%s: %s\n", what, pauseless_text(code)); }

int main(void) {
    pauseless_heap heap = PAUSELESS_NONE;
    pauseless_sizes sizes;
    pauseless_layout layout = {1, 1};
    pauseless_object object;
    uint64_t value = 7;
    tell("none yet", pauseless_clear(&heap, 0, 0));
    pauseless_usual(48, 2, &sizes);
    tell("48 words", pauseless_new(&heap, &sizes, &layout, 1));
    pauseless_usual(16, 2, &sizes);
    tell("no layout", pauseless_new(&heap, &sizes, &layout, 0));
    tell("made", pauseless_new(&heap, &sizes, &layout, 1));
    tell("made twice", pauseless_new(&heap, &sizes, &layout, 1));
    tell("thread 1", pauseless_clear(&heap, 1, 0));
    tell("null", pauseless_look(&heap, 0, 0, &object));
    tell("no buffer", pauseless_new_object(&heap, 0, 0, 0));
    tell("datum of null", pauseless_get(&heap, 0, 0, 0, &value));
    printf("not written: %llu\n", (unsigned long long)value);
    pauseless_free(&heap);
    tell("let go", pauseless_verify(&heap));
    pauseless_free(&heap);
    return 0;
}
