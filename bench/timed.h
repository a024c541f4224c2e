/* What programs of the bench begin with: a clock, and a call that ends the program unless it is done. A program names
 * itself by PROGRAM first. */
#ifndef TIMED_H
#define TIMED_H

#include <pauseless.h>
#include <stdio.h>
#include <stdlib.h>
#include <time.h>

/* Nanoseconds by a clock that only rises. */
static inline double now(void) {
    struct timespec time;
    clock_gettime(CLOCK_MONOTONIC, &time);
    return (double)time.tv_sec * 1e9 + (double)time.tv_nsec;
}

static inline void must(pauseless_code code) {
    if (code == PAUSELESS_DONE) return;
    fprintf(stderr, "%s: %s\n", PROGRAM, pauseless_text(code));
    exit(1);
}

#endif
