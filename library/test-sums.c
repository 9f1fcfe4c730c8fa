/* Tests the sums of bytes that the C library makes: known products, and by every scalar, added into a slice, and combined, at lengths
 * around the blocks in which sums are made, against products by shifts. Exits with 0 if all is as it must be. */
#include "stripes.h"
#include <string.h>

/* With SHORT, as under sanitizers and valgrind: no fragment of the greatest length. */
#ifdef SHORT
enum { MOST = 4100 };
#else
enum { MOST = 65536 };
#endif

static uint8_t first[MOST], second[MOST], sums[MOST], wanted[MOST];

/* The products of two elements that are known, by the call, and by shifts. */
static void known(void)
{
    static const uint8_t rows[][3] = {
        {0x02, 0x80, 0x1d}, {0x04, 0x80, 0x3a}, {0x10, 0x80, 0xe8}, {0x80, 0x80, 0x13}, {0x04, 0x08, 0x20}, {0x0c, 0x03, 0x14},
        {0xff, 0x02, 0xe3}, {0xff, 0xff, 0xe2}, {0x04, 0x61, 0x99}, {0x10, 0x61, 0x5e}, {0x02, 0x8e, 0x01}, {0x04, 0x47, 0x01},
        {0x04, 0x04, 0x10}, {0x08, 0x08, 0x40}, {0x0c, 0x0c, 0x50}, {0x00, 0xff, 0x00},
    };
    for (size_t i = 0; i < sizeof rows / sizeof *rows; i++) {
        uint8_t sum = 0;
        test(lrc_scale_add(&sum, 1, rows[i][0], &rows[i][1], 1) == LRC_OK && sum == rows[i][2], "a known product");
        test(product(rows[i][0], rows[i][1]) == rows[i][2], "a known product by shifts");
    }
}

/* The products of a scalar, by shifts. */
static void make_products(uint8_t products[256], uint8_t scalar)
{
    for (int b = 0; b < 256; b++)
        products[b] = product(scalar, (uint8_t)b);
}

/* A scalar times a slice, or the slice itself, added into another. */
static void scaled(size_t length, uint8_t scalar, int is_added)
{
    uint8_t products[256];
    make_products(products, scalar);
    memcpy(sums, second, length);
    for (size_t k = 0; k < length; k++)
        wanted[k] = (uint8_t)(second[k] ^ products[first[k]]);
    if (is_added)
        test(lrc_add(sums, length, first, length) == LRC_OK, "add");
    else
        test(lrc_scale_add(sums, length, scalar, first, length) == LRC_OK, "scale_add");
    test(memcmp(sums, wanted, length) == 0, "the sums of slices");
}

/* Three sources, of which the last isn't read, written over other bytes; and two equal ones, whose sum is 00. */
static void combined(size_t length)
{
    static const uint8_t coefficients[3] = {0x01, 0x53, 0x00}, equal[2] = {0x07, 0x07};
    const lrc_bytes sources[3] = {{first, length}, {second, length}, {second, length}}, twice[2] = {{first, length}, {first, length}};
    uint8_t products[256];
    make_products(products, 0x53);
    for (size_t k = 0; k < length; k++) {
        sums[k] = random_byte();
        wanted[k] = (uint8_t)(first[k] ^ products[second[k]]);
    }
    test(lrc_combine(coefficients, 3, sources, 3, sums, length) == LRC_OK, "combine");
    test(memcmp(sums, wanted, length) == 0, "the sums of terms");
    memset(wanted, 0, length);
    test(lrc_combine(equal, 2, twice, 2, sums, length) == LRC_OK, "combine");
    test(memcmp(sums, wanted, length) == 0, "the sums of equal terms");
}

int main(void)
{
    /* Around the blocks of 32 bytes, and those of 1,152 in which sums are tested. */
    static const size_t lengths[] = {0, 1, 31, 32, 33, 64, 1153, 4100,
#ifndef SHORT
                                     65536,
#endif
    };
    for (size_t k = 0; k < MOST; k++) {
        first[k] = random_byte();
        second[k] = random_byte();
    }
    known();
    for (size_t i = 0; i < sizeof lengths / sizeof *lengths; i++) {
        for (int scalar = 0; scalar < 256; scalar++)
            scaled(lengths[i], (uint8_t)scalar, 0);
        scaled(lengths[i], 0x01, 1);
        combined(lengths[i]);
    }
    printf("%lu tests passed\n", tests);
    return 0;
}
