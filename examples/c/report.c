/* The report of a heap: its length first, then its text. */
#include <pauseless.h>
#include <stdio.h>
#include <stdlib.h>

static const pauseless_layout pair = {.refs = 2, .nums = 0};
static const pauseless_policy policy = {.words = 32, .free = 1, .percent = 75};

/* Three pairs, each the first reference of the next one; the last stands in global 0, and nothing names the first in a
 * register. */
static pauseless_code fill(pauseless_heap *heap) {
    pauseless_code code = PAUSELESS_DONE;
    for (int i = 0; !code && i < 3; i++) {
        code = pauseless_make(heap, &policy, 0, 1, 0);
        if (!code) code = pauseless_store(heap, 0, 1, 0, 0);
        if (!code) code = pauseless_copy(heap, 0, 0, 1);
    }
    if (!code) code = pauseless_store_global(heap, 0, 0, 0);
    return code;
}

static pauseless_code tell(pauseless_heap *heap) {
    char none;
    uint64_t length;
    pauseless_code code = pauseless_report(heap, &none, 0, &length);
    if (code) return code;
    char *text = malloc(length);
    if (text == NULL) return PAUSELESS_MEMORY;
    code = pauseless_report(heap, text, length, &length);
    if (!code) fwrite(text, 1, length, stdout);
    free(text);
    return code;
}

int main(void) {
    pauseless_heap heap = PAUSELESS_NONE;
    const pauseless_sizes sizes = {.words = 64, .frames = 2, .pages = 4, .threads = 1, .workers = 1,
                                   .registers = 2, .globals = 1, .births = 100};
    pauseless_code code = pauseless_new(&heap, &sizes, &pair, 1);
    if (!code) code = fill(&heap);
    if (!code) code = tell(&heap);
    if (code) fprintf(stderr, "report: %s\n", pauseless_text(code));
    pauseless_free(&heap);
    return code != PAUSELESS_DONE;
}
