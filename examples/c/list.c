/* The smallest program: a list that is pushed to, collected and summed. docs/C.md says how to build it. */
#include <pauseless.h>
#include <stdio.h>

/* The registers of thread 0, and the one layout: a reference to the next node, and a datum. */
enum { ME, HEAD = 0, NODE = 1, HERE = 2 };
static const pauseless_layout node = {.refs = 1, .nums = 1};
static const pauseless_policy policy = {.words = 64, .free = 1, .percent = 75};

/* A node of this key becomes the head of the list. */
static pauseless_code push(pauseless_heap *heap, uint64_t key) {
    pauseless_code code = pauseless_make(heap, &policy, ME, NODE, 0);
    if (!code) code = pauseless_set(heap, ME, NODE, 0, key);
    if (!code) code = pauseless_store(heap, ME, NODE, 0, HEAD);
    if (!code) code = pauseless_copy(heap, ME, HEAD, NODE);
    return code;
}

/* The sum of the keys, from the head on. */
static pauseless_code sum(pauseless_heap *heap, uint64_t *total) {
    bool ends = false;
    uint64_t key;
    pauseless_code code = pauseless_copy(heap, ME, HERE, HEAD);
    for (*total = 0; !code && !(code = pauseless_is_null(heap, ME, HERE, &ends)) && !ends; *total += key) {
        code = pauseless_get(heap, ME, HERE, 0, &key);
        if (!code) code = pauseless_load(heap, ME, HERE, HERE, 0);
        if (code) break;
    }
    return code;
}

/* Pushes the keys below 20, makes 50 nodes beside each that nobody keeps, collects, and sums. */
static pauseless_code run(pauseless_heap *heap, pauseless_collected *collected, uint64_t *total) {
    pauseless_code code = PAUSELESS_DONE;
    for (uint64_t key = 0; !code && key < 20; key++) {
        code = push(heap, key);
        for (int i = 0; !code && i < 50; i++) code = pauseless_make(heap, &policy, ME, NODE, 0);
    }
    if (!code) code = pauseless_clear(heap, ME, NODE);
    if (!code) code = pauseless_collect(heap, 75, collected);
    if (!code) code = sum(heap, total);
    if (!code) code = pauseless_verify(heap);
    return code;
}

int main(void) {
    pauseless_heap heap = PAUSELESS_NONE;
    pauseless_sizes sizes;
    pauseless_collected collected;
    uint64_t total;
    pauseless_usual(64, 8, &sizes);
    pauseless_code code = pauseless_new(&heap, &sizes, &node, 1);
    if (!code) code = run(&heap, &collected, &total);
    if (!code) printf("live %llu sum %llu\n", (unsigned long long)collected.live, (unsigned long long)total);
    else fprintf(stderr, "list: %s\n", pauseless_text(code));
    pauseless_free(&heap);
    return code != PAUSELESS_DONE;
}
