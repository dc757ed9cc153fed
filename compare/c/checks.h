/*
 * What the tests in C share: a count of what was tried and of what differs, random numbers from a fixed seed, and
 * terrains made of them. A test ends by finish(), which prints both counts.
 */
#ifndef CHECKS_H
#define CHECKS_H

#include <inttypes.h>
#include <stdio.h>
#include <stdlib.h>
#include <string.h>

static unsigned long tried, differ;

/* Counts one check, and says which it was if it fails. */
#define CHECK(holds)                                                                                                  \
    do {                                                                                                              \
        tried++;                                                                                                      \
        if (!(holds)) {                                                                                               \
            differ++;                                                                                                 \
            printf("differs: %s:%d: %s\n", __FILE__, __LINE__, #holds);                                               \
        }                                                                                                             \
    } while (0)

static inline int finish(const char *name) {
    printf("%s: %lu tried, %lu differ\n", name, tried, differ);
    return differ != 0 || tried == 0;
}

static uint64_t seed = 1;

static inline uint32_t below(uint32_t bound) {
    seed = seed * UINT64_C(6364136223846793005) + 1;
    return (uint32_t)(seed >> 33) % bound;
}

/* Fills a table with whole values up to 4. */
static inline void fill(double *values, size_t count) {
    for (size_t k = 0; k < count; k++) {
        values[k] = below(5);
    }
}

#endif
