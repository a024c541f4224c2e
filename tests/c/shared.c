/* Threads that share a heap, with a thread that collects: they move coins between the accounts of a bank, and keep
 * lists in their registers; two more threads look at all accounts by views. The sum and the lists stay, and the heap is
 * sound, at intervals and at the end. The first argument is how many turns each thread does. */
#include <pauseless_shared.h>
#include <stdlib.h>

#include "same.h"

enum { THREADS = 8, VIEWERS = 2, ACCOUNTS = 16, START = 1000, LENGTH = 50, VERIFIED = 5000, CELL = 0, BANK = 1 };

static const pauseless_layout layouts[] = {{.refs = 1, .nums = 1}, {.refs = ACCOUNTS}};
static const pauseless_policy policy = {.words = 64, .free = 8, .percent = 75};
static const pauseless_policy early = {.words = 64, .free = 24, .percent = 75};

static pauseless_heap heap = PAUSELESS_NONE;
static pauseless_shared shared;
static unsigned long turns = 40000;

/* What a thread has found. */
typedef struct worker {
    uint32_t thread;
    unsigned wrong; /* how often a call failed, or a sum wasn't what it is to be */
    pthread_t id;
} worker;

#define TRY(call) (w->wrong += (call) != PAUSELESS_DONE)

/* Moves a coin. */
static void transfer(worker *w, uint32_t from, uint32_t to) {
    uint64_t value = 0;
    TRY(pauseless_load_global(&heap, w->thread, 1, 0));
    TRY(pauseless_load(&heap, w->thread, 2, 1, from));
    TRY(pauseless_get(&heap, w->thread, 2, 0, &value));
    TRY(pauseless_set(&heap, w->thread, 2, 0, value - 1));
    TRY(pauseless_load(&heap, w->thread, 2, 1, to));
    TRY(pauseless_get(&heap, w->thread, 2, 0, &value));
    TRY(pauseless_set(&heap, w->thread, 2, 0, value + 1));
}

/* The sum of all accounts. */
static uint64_t total(worker *w) {
    uint64_t sum = 0, value = 0;
    TRY(pauseless_load_global(&heap, w->thread, 1, 0));
    for (uint32_t account = 0; account < ACCOUNTS; account++) {
        TRY(pauseless_load(&heap, w->thread, 2, 1, account));
        TRY(pauseless_get(&heap, w->thread, 2, 0, &value));
        sum += value;
    }
    return sum;
}

/* Puts a number in front of the list in register 0. */
static void push(worker *w, uint64_t value) {
    TRY(pauseless_make(&heap, &policy, w->thread, 3, CELL));
    TRY(pauseless_set(&heap, w->thread, 3, 0, value));
    TRY(pauseless_store(&heap, w->thread, 3, 0, 0));
    TRY(pauseless_copy(&heap, w->thread, 0, 3));
}

/* The sum of the list in register 0, which is empty then. */
static uint64_t pop_all(worker *w) {
    uint64_t sum = 0, value = 0;
    for (int count = 0; count < LENGTH; count++) {
        TRY(pauseless_get(&heap, w->thread, 0, 0, &value));
        TRY(pauseless_load(&heap, w->thread, 0, 0, 0));
        sum += value;
    }
    return sum;
}

static void *work(void *argument) {
    worker *w = argument;
    uint32_t random = w->thread + 1;
    pauseless_portion portion = pauseless_enter(&shared);
    for (unsigned long turn = 0; turn < turns; turn++) {
        random = random * 1103515245 + 12345;
        transfer(w, (random >> 8) % ACCOUNTS, (random >> 16) % ACCOUNTS);
        push(w, turn % LENGTH);
        if (turn % LENGTH == LENGTH - 1) {
            w->wrong += pop_all(w) != LENGTH * (LENGTH - 1) / 2;
            w->wrong += total(w) != ACCOUNTS * START;
        }
        if (turn % VERIFIED == 0 && w->thread == 0) TRY(pauseless_verify(&heap));
        pauseless_rest(&portion);
    }
    pauseless_leave(&portion);
    return NULL;
}

/* The sum of all accounts, by a view. */
static uint64_t viewed_total(worker *w) {
    uint64_t sum = 0, bank = 0, account = 0, value = 0;
    pauseless_begin_view(&shared);
    TRY(pauseless_view_global(&heap, 0, &bank));
    for (uint32_t number = 0; number < ACCOUNTS; number++) {
        TRY(pauseless_view_load(&heap, bank, number, &account));
        TRY(pauseless_view_get(&heap, account, 0, &value));
        sum += value;
    }
    pauseless_end_view(&shared);
    return sum;
}

/* Looks at all accounts, a view for each fortieth turn of the others. */
static void *look(void *argument) {
    worker *w = argument;
    for (unsigned long turn = 0; turn < turns; turn += 40) w->wrong += viewed_total(w) != ACCOUNTS * START;
    return NULL;
}

/* The bank, in global 0. */
static void found(void) {
    DONE(pauseless_make(&heap, &policy, 0, 0, BANK));
    for (uint32_t account = 0; account < ACCOUNTS; account++) {
        DONE(pauseless_make(&heap, &policy, 0, 1, CELL));
        DONE(pauseless_set(&heap, 0, 1, 0, START));
        DONE(pauseless_store(&heap, 0, 0, account, 1));
    }
    DONE(pauseless_store_global(&heap, 0, 0, 0));
    DONE(pauseless_clear(&heap, 0, 0));
}

int main(int count, char **words) {
    if (count > 1) turns = strtoul(words[1], NULL, 10);
    pauseless_sizes sizes;
    worker workers[THREADS + VIEWERS];
    pauseless_usual(64, 96, &sizes);
    sizes.threads = THREADS;
    DONE(pauseless_new(&heap, &sizes, layouts, 2));
    found();
    SAME(pauseless_share(&shared, &heap, 3), true);
    SAME(pauseless_start_collector(&shared, &early, 16), true);
    for (uint32_t thread = 0; thread < THREADS + VIEWERS; thread++) {
        workers[thread] = (worker){.thread = thread};
        SAME(pthread_create(&workers[thread].id, NULL, thread < THREADS ? work : look, &workers[thread]), 0);
    }
    for (uint32_t thread = 0; thread < THREADS + VIEWERS; thread++) {
        pthread_join(workers[thread].id, NULL);
        SAME(workers[thread].wrong, 0);
    }
    pauseless_unshare(&shared);
    SAME(shared.failed, PAUSELESS_DONE);
    DONE(pauseless_verify(&heap));
    pauseless_free(&heap);
    return differences != 0;
}
