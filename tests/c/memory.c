/* The library's memory: that it is all given back, that a call which lacks some says so and writes nothing, that a
 * verification looks at it, and that what the heap keeps for later is freed. The program is linked with malloc, realloc
 * and free wrapped by the functions below. */
#include "same.h"
#include <stdlib.h>

void *__real_malloc(size_t size);
void *__real_realloc(void *block, size_t size);
void __real_free(void *block);

enum { MOST_BLOCKS = 4096, FRAMES = 4, BITMAPS = 4 };

/* The blocks that are in use. */
static struct {
    void *at;
    size_t size;
} blocks[MOST_BLOCKS];

static unsigned in_use;

/* The requests for memory so far; and the number of the one to be refused, or 0. */
static unsigned long requests, refused;

static bool is_refused(void) { return ++requests == refused; }

static void note(void *at, size_t size) {
    if (at == NULL) return;
    if (in_use == MOST_BLOCKS) abort();
    blocks[in_use].at = at;
    blocks[in_use++].size = size;
}

static void forget(void *at) {
    for (unsigned i = 0; i < in_use; i++) {
        if (blocks[i].at == at) {
            blocks[i] = blocks[--in_use];
            return;
        }
    }
}

void *__wrap_malloc(size_t size) {
    void *at = is_refused() ? NULL : __real_malloc(size);
    note(at, size);
    return at;
}

void *__wrap_realloc(void *block, size_t size) {
    void *at = is_refused() ? NULL : __real_realloc(block, size);
    if (at == NULL) return NULL;
    forget(block);
    note(at, size);
    return at;
}

void __wrap_free(void *block) {
    forget(block);
    __real_free(block);
}

static const pauseless_sizes sizes = {.words = 64, .frames = FRAMES, .pages = 12, .threads = 1, .workers = 1,
                                      .registers = 3, .globals = 1, .births = 1000};
static const pauseless_layout layouts[] = {{.refs = 1, .nums = 1}, {.refs = 0, .nums = 30}};
static const pauseless_policy policy = {.words = 64, .free = 0, .percent = 75};

static pauseless_heap heap = PAUSELESS_NONE;

/* What is asked of a heap. */
typedef pauseless_code call(void);

/* What the calls write. */
static pauseless_collected done;
static bool has_ended;
static uint64_t length;
static char text[1000];

static pauseless_code makes(void) { return pauseless_new(&heap, &sizes, layouts, 2); }
static pauseless_code collects(void) { return pauseless_collect(&heap, 100, &done); }
static pauseless_code reports(void) { return pauseless_report(&heap, text, sizeof text, &length); }
static pauseless_code verifies(void) { return pauseless_verify(&heap); }

static pauseless_code refills(void) {
    const pauseless_policy always = {.words = 64, .free = 4, .percent = 100};
    return pauseless_refill(&heap, &always, 0);
}

/* All parts of a collection, to its end. */
static pauseless_code collects_in_parts(void) {
    pauseless_code code;
    do {
        has_ended = true;
        code = pauseless_collect_some(&heap, 100, 1, &has_ended);
    } while (!code && !has_ended);
    return code;
}

/* What the calls write has these values before. */
static void unwrite(void) {
    done = (pauseless_collected){.live = 98, .emptied = 99};
    has_ended = true;
    length = 97;
    text[0] = '-';
}

static void is_unwritten(void) {
    SAME(done.live == 98 && done.emptied == 99, true);
    SAME(has_ended, true);
    SAME(length, 97);
    SAME(text[0], '-');
}

/* Two sparse pages, to be emptied by a collection. */
static void makes_sparse(void) {
    DONE(makes());
    for (int page = 0; page < 2; page++) {
        DONE(pauseless_refill(&heap, &policy, 0));
        DONE(pauseless_make(&heap, &policy, 0, page, 0));
        DONE(pauseless_make(&heap, &policy, 0, 2, 1));
    }
    DONE(pauseless_clear(&heap, 0, 2));
    DONE(pauseless_give_back(&heap, 0));
}

/* The call, of which the request of this number is refused. It says so and has written nothing, and is done when it is
 * asked again; or it is done, as it could do with less. True if there was such a request. */
static bool is_refused_once(call *asks, unsigned long number) {
    unwrite();
    requests = 0;
    refused = number;
    const pauseless_code code = asks();
    const bool was_refused = requests >= number;
    refused = 0;
    if (code == PAUSELESS_MEMORY) {
        SAME(was_refused, true);
        is_unwritten();
        SAME(pauseless_verify(&heap), asks == makes ? PAUSELESS_NO_HEAP : PAUSELESS_DONE);
        DONE(asks());
    } else {
        DONE(code);
    }
    return was_refused;
}

/* Each request of a call is refused in turn; there are so many at least. Then all memory is given back. */
static void lacks(call *asks, unsigned long least) {
    unsigned long number = 0;
    bool was_refused = true;
    while (was_refused) {
        if (asks != makes) makes_sparse();
        was_refused = is_refused_once(asks, ++number);
        DONE(pauseless_verify(&heap));
        pauseless_free(&heap);
        SAME(in_use, 0);
    }
    SAME(number > least, true);
}

/* The number of the first request without which a collection fails: it does without what it would keep to be faster. */
static unsigned long first_needed(void) {
    unsigned long number = 0;
    pauseless_code code = PAUSELESS_DONE;
    while (code == PAUSELESS_DONE && number < 1000) {
        makes_sparse();
        requests = 0;
        refused = ++number;
        code = collects();
        refused = 0;
        pauseless_free(&heap);
    }
    SAME(code, PAUSELESS_MEMORY);
    return number;
}

/* A collection that lacks memory has begun, and has not ended. */
static void counts_what_has_begun(void) {
    const unsigned long needed = first_needed();
    pauseless_statistics statistics;
    makes_sparse();
    DONE(pauseless_get_statistics(&heap, &statistics));
    SAME(statistics.by_calls == 0 && statistics.ended == 0, true);
    requests = 0;
    refused = needed;
    SAME(collects(), PAUSELESS_MEMORY);
    refused = 0;
    DONE(pauseless_get_statistics(&heap, &statistics));
    SAME(statistics.by_calls == 1 && statistics.ended == 0, true);
    DONE(collects());
    DONE(pauseless_get_statistics(&heap, &statistics));
    SAME(statistics.by_calls == 2 && statistics.ended == 1 && statistics.emptied == 2, true);
    pauseless_free(&heap);
    SAME(in_use, 0);
}

/* The place of the one word that has this value; NULL where none has. */
static uint64_t *find(uint64_t wanted) {
    uint64_t *place = NULL;
    for (unsigned i = 0; i < in_use; i++) {
        uint64_t *words = blocks[i].at;
        for (size_t j = 0; j < blocks[i].size / sizeof *words; j++) {
            if (words[j] == wanted) place = &words[j];
        }
    }
    return place;
}

/* A verification sees that some bits of a word are turned, and that they are as they were again. */
static void sees(uint64_t *word, uint64_t bits) {
    *word ^= bits;
    SAME(pauseless_verify(&heap), PAUSELESS_UNSOUND);
    *word ^= bits;
    DONE(pauseless_verify(&heap));
}

/* An object has its header, its reference and its datum, one word behind another. */
static void verification_looks(void) {
    const uint64_t mark = UINT64_C(0x5eed0123456789ab);
    makes_sparse();
    DONE(pauseless_store(&heap, 0, 0, 0, 1));
    DONE(pauseless_set(&heap, 0, 0, 0, mark));
    requests = 0;
    DONE(pauseless_verify(&heap));
    SAME(requests > 10, true);
    uint64_t *datum = find(mark);
    SAME(datum != NULL, true);
    if (datum != NULL) {
        sees(datum - 2, UINT64_C(7) << 32); /* a layout that isn't there */
        sees(datum - 2, 2);                 /* the birth of another object */
        sees(datum - 1, 8);                 /* a reference to no object */
        sees(datum - 1, UINT64_C(1) << 40); /* and to no page */
    }
    pauseless_free(&heap);
    SAME(in_use, 0);
}

/* How many blocks are freed if the memory of at most this many free frames is kept. */
static unsigned frees(uint32_t frames) {
    const unsigned before = in_use;
    DONE(pauseless_trim(&heap, frames));
    return before - in_use;
}

/* Two sparse pages, which a collection has emptied. */
static void makes_emptied(void) {
    makes_sparse();
    DONE(collects());
}

/* How many parts of the next collection are done until its mark has ended, and leaves the forwarding tables of the
 * emptied pages to be freed; 0 if it leaves none. */
static unsigned parts_of_mark(void) {
    unsigned parts = 0, last = 0;
    makes_emptied();
    for (has_ended = false; !has_ended;) {
        DONE(pauseless_collect_some(&heap, 100, 1, &has_ended));
        parts++;
        if (frees(FRAMES) > 0) last = parts;
    }
    pauseless_free(&heap);
    return last;
}

/* A buffer that is taken after the mark frees them too. */
static void buffer_frees(unsigned parts) {
    makes_emptied();
    for (unsigned done = 0; done < parts; done++) DONE(pauseless_collect_some(&heap, 100, 1, &has_ended));
    DONE(pauseless_refill(&heap, &policy, 0));
    SAME(frees(FRAMES), 0);
    pauseless_free(&heap);
}

/* So does a collection by one call, before it protects pages again. At its end, what is kept is the memory of free
 * frames, each with the place where it keeps objects, and the bitmaps of one page: those of the other are the new
 * page's. */
static void collection_frees(void) {
    uint64_t kept = 0;
    makes_emptied();
    DONE(collects());
    SAME(frees(FRAMES), 0);
    DONE(pauseless_kept(&heap, &kept));
    SAME(kept, 2);
    SAME(frees(0), 2 * kept + BITMAPS);
    SAME(frees(0), 0);
    pauseless_free(&heap);
}

static void memory_is_freed(void) {
    const unsigned parts = parts_of_mark();
    SAME(parts > 0, true);
    buffer_frees(parts);
    collection_frees();
    SAME(in_use, 0);
}

int main(void) {
    lacks(makes, 20);
    lacks(collects, 5);
    lacks(collects_in_parts, 5);
    lacks(refills, 5);
    lacks(reports, 1);
    lacks(verifies, 10);
    counts_what_has_begun();
    verification_looks();
    memory_is_freed();
    return differences > 0;
}
