/* Numbers at random, the same in each run. */
#ifndef BELOW_H
#define BELOW_H

#include <stdint.h>

/* Returns the next number; it is below the limit. */
static uint32_t below(uint32_t limit) {
    static uint64_t state = UINT64_C(0x9e3779b97f4a7c15);
    state ^= state << 13;
    state ^= state >> 7;
    state ^= state << 17;
    return (uint32_t)(state >> 33) % limit;
}

#endif
