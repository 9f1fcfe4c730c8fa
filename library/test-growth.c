/* Tests that the C library's time grows with the bytes and not faster, and that sums of products are made many at once: fragments four
 * times as long take less than ten times as long to encode, verify and rebuild, where work that is done anew for each window would take
 * sixteen times as long; and a sum of six products takes less than thirty times as long as one sum by lrc_add, where one made byte by
 * byte takes more than a hundred. Exits with 0 if all is as it must be. */
#include "stripes.h"
#include <string.h>
#include <time.h>

enum { LONG = 4 << 20, SHORT_LENGTH = LONG / 4, RUNS = 7, MOST_GROWTH = 10, MOST_PRODUCTS = 30, COMBINED = 1 << 16, TIMES = 64 };

static uint8_t store[LRC_PLACES][LONG];
static uint8_t outs[2][LONG];
static uint8_t *fragments[LRC_PLACES];
static enum lrc_code its_code;
static size_t its_length;

static void encode(void) { test(lrc_encode(its_code, fragments, its_length) == LRC_OK, "encode"); }

static void verify(void) { test(lrc_verify(its_code, LRC_READ(fragments), its_length) == LRC_OK, "verify"); }

/* With x0 and x1 lost: the pass tests what is left over, and writes both. */
static void rebuild(void)
{
    static const enum lrc_place targets[2] = {LRC_X0, LRC_X1};
    uint8_t *const rooms[2] = {outs[0], outs[1]};
    uint32_t statuses[2];
    const uint8_t *left[LRC_PLACES];
    for (int p = 0; p < LRC_PLACES; p++)
        left[p] = p == LRC_X0 || p == LRC_X1 ? NULL : fragments[p];
    test(lrc_rebuild_many(its_code, left, targets, rooms, statuses, 2, its_length) == LRC_OK, "rebuild");
}

static void add(void)
{
    for (int k = 0; k < TIMES; k++)
        test(lrc_add(outs[0], COMBINED, store[0], COMBINED) == LRC_OK, "add");
}

static void combine(void)
{
    static const uint8_t coefficients[6] = {2, 3, 4, 5, 6, 7};
    lrc_bytes sources[6];
    for (int p = 0; p < 6; p++)
        sources[p] = (lrc_bytes){store[p], COMBINED};
    for (int k = 0; k < TIMES; k++)
        test(lrc_combine(coefficients, 6, sources, 6, outs[0], COMBINED) == LRC_OK, "combine");
}

/* The least processor time of some runs. */
static double seconds(void (*run)(void))
{
    double least = 1e9;
    for (int k = 0; k < RUNS; k++) {
        clock_t before = clock();
        run();
        double used = (double)(clock() - before) / CLOCKS_PER_SEC;
        if (used < least)
            least = used;
    }
    return least;
}

static void grows(const char *what, void (*run)(void))
{
    its_length = SHORT_LENGTH;
    double part = seconds(run);
    its_length = LONG;
    double whole = seconds(run);
    if (whole > MOST_GROWTH * part)
        printf("%s: %d bytes take %.6f s, %d take %.6f s\n", what, SHORT_LENGTH, part, LONG, whole);
    test(whole <= MOST_GROWTH * part, "time grows with the bytes");
}

int main(void)
{
    for (unsigned c = LRC_6_2_2; c <= LRC_12_2_2; c++) {
        its_code = (enum lrc_code)c;
        for (int p = 0; p < LRC_PLACES; p++) {
            fragments[p] = lrc_has_place(its_code, (enum lrc_place)p) ? store[p] : NULL;
            for (size_t k = 0; k < LONG; k++)
                store[p][k] = random_byte();
        }
        its_length = LONG;
        encode();
        verify();
        rebuild();
        test(memcmp(outs[0], store[LRC_X0], LONG) == 0 && memcmp(outs[1], store[LRC_X1], LONG) == 0, "the rebuilt fragments");
        grows("rebuilding", rebuild);
        grows("verifying", verify);
        grows("encoding", encode);
        /* A shorter stripe's parities were written over the longer one's first bytes; they are the same. */
        verify();
    }
    double one = seconds(add), six = seconds(combine);
    if (six > MOST_PRODUCTS * one)
        printf("a sum takes %.6f s, a sum of six products %.6f s\n", one, six);
    test(six <= MOST_PRODUCTS * one, "sums of products are made many at once");
    printf("a sum of six products takes %.1f times as long as one sum, and %lu tests passed\n", six / one, tests);
    return 0;
}
