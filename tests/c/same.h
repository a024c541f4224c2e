/* What the tests in C begin with: values are compared, and each difference is printed and counted. */
#ifndef SAME_H
#define SAME_H

#include <inttypes.h>
#include <pauseless.h>
#include <stdio.h>

static unsigned differences;

static void same_at(const char *what, int line, uint64_t found, uint64_t wanted) {
    if (found == wanted) return;
    differences++;
    printf("line %d: %s is %" PRIu64 ", not %" PRIu64 "\n", line, what, found, wanted);
}

/* Compares two numbers. */
#define SAME(found, wanted) same_at(#found, __LINE__, (uint64_t)(found), (uint64_t)(wanted))

/* The call is done. */
#define DONE(call) SAME(call, PAUSELESS_DONE)

#endif
