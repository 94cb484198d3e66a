/* Random numbers for the C tests. */
#ifndef RANDOM_H
#define RANDOM_H

#include <stdint.h>

/* xorshift32: the same numbers in every run */
static uint32_t next_random(void)
{
    static uint32_t x = 2463534242u;
    x ^= x << 13;
    x ^= x >> 17;
    x ^= x << 5;
    return x;
}

#endif
