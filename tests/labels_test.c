/* Links liblabels.a alone and compares it with a loop over the 32 bits: all singletons and what they leave, all pairs, the edges, and random sets. */
#include <inttypes.h>
#include <stdio.h>
#include <stdlib.h>

#include "labels.h"
#include "random.h"

static bool bit(uint32_t set, uint32_t endpoint)
{
    return endpoint < 32 && (set >> endpoint & 1u) == 1u;
}

static uint32_t missing_by_bits(uint32_t a, uint32_t b)
{
    for (uint32_t endpoint = 0; endpoint < 32; endpoint++) {
        if (bit(a, endpoint) && !bit(b, endpoint)) {
            return endpoint;
        }
    }
    return LABELS_NONE_MISSING;
}

static unsigned long compared;

static void expect_missing(uint32_t a, uint32_t b, uint32_t expected)
{
    compared++;
    if (labels_missing(a, b) != expected) {
        fprintf(stderr, "labels_missing(%08" PRIx32 ", %08" PRIx32 ") is %" PRIu32 ", expected %" PRIu32 "\n", a, b, labels_missing(a, b), expected);
        exit(EXIT_FAILURE);
    }
}

static void compare_missing(uint32_t a, uint32_t b)
{
    expect_missing(a, b, missing_by_bits(a, b));
}

static void compare_holds(uint32_t set, uint32_t endpoint)
{
    compared++;
    if (labels_holds(set, endpoint) != bit(set, endpoint)) {
        fprintf(stderr, "labels_holds(%08" PRIx32 ", %" PRIu32 ") is %d\n", set, endpoint, labels_holds(set, endpoint));
        exit(EXIT_FAILURE);
    }
}

static void compare_set(uint32_t set)
{
    for (uint32_t endpoint = 0; endpoint < 40; endpoint++) {
        compare_holds(set, endpoint);
    }
    compare_holds(set, UINT32_MAX);
    expect_missing(set, set, LABELS_NONE_MISSING);
    expect_missing(0, set, LABELS_NONE_MISSING);
    expect_missing(set, UINT32_MAX, LABELS_NONE_MISSING);
    compare_missing(set, 0);
    compare_missing(UINT32_MAX, set);
}

/* Worked out by hand: none, endpoint 0, endpoint 31, and of several the lowest. */
static void known(void)
{
    expect_missing(0, 0, LABELS_NONE_MISSING);
    expect_missing(0x00010001, 0x00010001, LABELS_NONE_MISSING);
    expect_missing(0x00010000, 0x00030000, LABELS_NONE_MISSING);
    expect_missing(UINT32_MAX, 0, 0);
    expect_missing(0x00000001, 0xfffffffe, 0);
    expect_missing(UINT32_MAX, 0xfffffffe, 0);
    expect_missing(0x80000000, 0, 31);
    expect_missing(UINT32_MAX, 0x7fffffff, 31);
    expect_missing(UINT32_MAX, 0x00010001, 1);
    expect_missing(0x00030000, 0x00010000, 17);
    expect_missing(0x80020000, 0x00010000, 17);
    expect_missing(0xc0000000, 0x40000000, 31);
}

/* The endpoints of a pair, alone and with all others beside them, where b has none of the two, the lower one, the higher one, or both. */
static void pair(uint32_t low, uint32_t high)
{
    const uint32_t both = 1u << low | 1u << high;
    const uint32_t last = low == high ? LABELS_NONE_MISSING : high;
    for (int k = 0; k < 2; k++) {
        const uint32_t others = k == 0 ? 0 : ~both;
        expect_missing(both | others, others, low);
        expect_missing(both | others, others | 1u << low, last);
        expect_missing(both | others, others | 1u << high, low == high ? LABELS_NONE_MISSING : low);
        expect_missing(both | others, others | both, LABELS_NONE_MISSING);
    }
}

/* Endpoints above 31 that a narrower parameter would turn into endpoints. */
static void compare_above(uint32_t set)
{
    for (uint32_t high = 32; high != 0; high <<= 1) {
        for (uint32_t low = 0; low < 32; low++) {
            compare_holds(set, high | low);
        }
    }
}

int main(void)
{
    known();
    compare_set(0);
    compare_set(UINT32_MAX);
    compare_above(UINT32_MAX);
    for (uint32_t a = 0; a < 32; a++) {
        compare_set(1u << a);
        for (uint32_t b = 0; b < 32; b++) {
            compare_missing(1u << a, 1u << b);
            compare_missing(1u << a, ~(1u << b));
            compare_missing(~(1u << a), 1u << b);
            compare_missing(~(1u << a), ~(1u << b));
        }
        for (uint32_t b = a; b < 32; b++) {
            pair(a, b);
        }
    }
    for (int i = 0; i < 200000; i++) {
        uint32_t a = next_random();
        uint32_t b = next_random();
        compare_set(a);
        compare_missing(a, b);
        compare_missing(a & b, b);
        compare_missing(a, a | b);
        compare_missing(a & ~(1u << (b & 31u)), a);
        compare_missing(a, a & ~(1u << (b & 31u)));
        /* only high endpoints are missing */
        compare_missing(a, b | UINT32_MAX >> (b & 31u));
    }
    printf("labels: %lu comparisons agree\n", compared);
    return 0;
}
