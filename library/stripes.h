/* What the tests and the bench of the C library share: the codes' equations, products by shifts, random bytes, a count of tests. */
#ifndef STRIPES_H
#define STRIPES_H

#include <lrc.h>
#include <stdio.h>
#include <stdlib.h>

/* The coefficients of each parity, of the data fragments in their order. */
static const uint8_t narrow_rows[4][12] = {{1, 1, 1, 0, 0, 0}, {0, 0, 0, 1, 1, 1}, {4, 8, 12, 1, 2, 3}, {16, 64, 80, 1, 4, 5}};
static const uint8_t wide_rows[4][12] = {{1, 1, 1, 1, 1, 1, 0, 0, 0, 0, 0, 0},
                                         {0, 0, 0, 0, 0, 0, 1, 1, 1, 1, 1, 1},
                                         {16, 32, 48, 64, 80, 96, 1, 2, 3, 4, 5, 6},
                                         {29, 116, 105, 205, 208, 185, 1, 4, 5, 16, 17, 20}};

static inline uint8_t coefficient(enum lrc_code code, int row, size_t i)
{
    return code == LRC_6_2_2 ? narrow_rows[row][i] : wide_rows[row][i];
}

static inline uint8_t random_byte(void)
{
    static uint32_t state = 1;
    state = state * 1664525u + 1013904223u;
    return (uint8_t)(state >> 24);
}

static unsigned long tests;

/* Ends the program where something doesn't hold, and counts what does. */
static inline void test(int holds, const char *what)
{
    tests++;
    if (!holds) {
        printf("failed: %s\n", what);
        exit(1);
    }
}

/* The product in the field with the polynomial 11D. */
static inline uint8_t product(uint8_t a, uint8_t b)
{
    unsigned sum = 0, shifted = a;
    for (int bit = 0; bit < 8; bit++) {
        if (b >> bit & 1)
            sum ^= shifted;
        shifted <<= 1;
        if (shifted & 0x100)
            shifted ^= 0x11d;
    }
    return (uint8_t)sum;
}

#endif
