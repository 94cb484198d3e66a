/* Sets of endpoints: bit a (0 to 31) of a word stands for endpoint a.
 * Link with liblabels.a. Both functions are total: any argument is allowed. */
#ifndef LABELS_H
#define LABELS_H

#include <stdbool.h>
#include <stdint.h>

#ifdef __cplusplus
extern "C" {
#endif

/* What labels_missing gives where no endpoint is missing. */
enum {
    LABELS_NONE_MISSING = 32
};

/* The lowest endpoint of a that is not in b, 0 to 31, or LABELS_NONE_MISSING where every endpoint of a is in b. */
uint32_t labels_missing(uint32_t a, uint32_t b);

/* Whether endpoint is in set. An endpoint above 31 is in no set. */
bool labels_holds(uint32_t set, uint32_t endpoint);

#ifdef __cplusplus
}
#endif

#endif
