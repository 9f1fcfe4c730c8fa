/* Times encoding and rebuilding through the C library beside ISA-L on the same work, in one run: the shortest of many times,
 * taken in turn. ISA-L's tables are made before the time is taken, and it is given the coefficients. */
#include "stripes.h"
#include <isa-l.h>
#include <stdio.h>
#include <stdlib.h>
#include <string.h>
#include <time.h>

enum { MOST = 1 << 20, ROWS = 7 };

static uint8_t *store[LRC_PLACES], *outs[ROWS];
static size_t length;
static enum lrc_code code;

static double now(void)
{
    struct timespec t;
    clock_gettime(CLOCK_MONOTONIC, &t);
    return (double)t.tv_sec * 1e6 + (double)t.tv_nsec * 1e-3;
}

static void stop(const char *what)
{
    printf("%s\n", what);
    exit(1);
}

/* ---- encoding */

static void encode_ours(void)
{
    uint8_t *fragments[LRC_PLACES];
    for (int p = 0; p < LRC_PLACES; p++)
        fragments[p] = lrc_has_place(code, (enum lrc_place)p) ? store[p] : NULL;
    if (lrc_encode(code, fragments, length) != LRC_OK)
        stop("encode");
}

static uint8_t encode_tables[32 * 12 * 4], global_tables[32 * 12 * 2];
static uint8_t *encode_sources[12];

/* All four parities in one call, which multiplies by zeros too. */
static void encode_isal(void)
{
    ec_encode_data((int)length, (int)lrc_data_count(code), 4, encode_tables, encode_sources, outs);
}

/* The local parities by xor_gen, the global ones in one call. */
static void encode_isal_split(void)
{
    size_t half = lrc_data_count(code) / 2;
    void *group[7];
    for (size_t g = 0; g < 2; g++) {
        memcpy(group, encode_sources + g * half, half * sizeof *group);
        group[half] = outs[g];
        if (xor_gen((int)half + 1, (int)length, group) != 0)
            stop("xor_gen");
    }
    ec_encode_data((int)length, (int)(2 * half), 2, global_tables, encode_sources, outs + 2);
}

static void prepare_encoding(void)
{
    int k = (int)lrc_data_count(code);
    uint8_t dense[4 * 12];
    for (int r = 0; r < 4; r++)
        for (int i = 0; i < k; i++)
            dense[r * k + i] = coefficient(code, r, (size_t)i);
    for (int i = 0; i < k; i++)
        encode_sources[i] = store[lrc_data_place(code, (size_t)i)];
    ec_init_tables(k, 4, dense, encode_tables);
    ec_init_tables(k, 2, dense + 2 * k, global_tables);
}

/* ---- rebuilding */

static const uint8_t *left[LRC_PLACES];
static enum lrc_place lost[3];
static int lost_count, survivor_count, row_count;
static uint8_t rebuild_tables[32 * 16 * ROWS];
static uint8_t *rebuild_sources[16];

static void rebuild_ours(void)
{
    uint32_t statuses[3];
    uint32_t status = lost_count == 1 ? lrc_rebuild(code, left, lost[0], outs[0], length)
                                      : lrc_rebuild_many(code, left, lost, outs, statuses, (size_t)lost_count, length);
    if (status != LRC_OK)
        stop("rebuild");
}

/* The fragments and the checks in one call; the checks are compared with zeros. */
static void rebuild_isal(void)
{
    ec_encode_data((int)length, survivor_count, row_count, rebuild_tables, rebuild_sources, outs);
    for (int r = lost_count; r < row_count; r++)
        if (isal_zero_detect(outs[r], length) != 0)
            stop("a check that is not zero");
}

/* The rows of the lost fragments' plans and of their checks, over the survivors alone. */
static void prepare_rebuilding(int count)
{
    static const enum lrc_place places[3] = {LRC_X0, LRC_X1, LRC_PX};
    uint32_t survivors = 0;
    uint8_t coefficients[ROWS * 16];
    lrc_plan plan;
    survivor_count = row_count = 0;
    lost_count = count;
    memcpy(lost, places, sizeof lost);
    for (int p = 0; p < LRC_PLACES; p++) {
        left[p] = lrc_has_place(code, (enum lrc_place)p) ? store[p] : NULL;
        for (int i = 0; i < count; i++)
            if ((int)places[i] == p)
                left[p] = NULL;
        if (left[p] != NULL) {
            survivors |= UINT32_C(1) << p;
            rebuild_sources[survivor_count++] = store[p];
        }
    }
    for (int i = 0; i < count; i++) {
        if (lrc_plan_into((uint8_t)code, survivors, (uint8_t)places[i], &plan) != LRC_OK)
            stop("plan");
        for (int p = 0, s = 0; p < LRC_PLACES; p++)
            if (left[p] != NULL)
                coefficients[row_count * survivor_count + s++] = plan.value[p];
        row_count++;
    }
    for (int r = 0; r < 4; r++) {
        int any = 0;
        for (int p = 0, s = 0; p < LRC_PLACES; p++)
            if (left[p] != NULL) {
                any |= plan.checks[r][p];
                coefficients[row_count * survivor_count + s++] = plan.checks[r][p];
            }
        row_count += any != 0;
    }
    ec_init_tables(survivor_count, row_count, coefficients, rebuild_tables);
}

/* ---- the race */

static void race(const char *name, double bytes, int ways, void (*const run[])(void))
{
    static const char *const names[] = {"lrc", "ISA-L", "ISA-L with xor_gen"};
    double best[3] = {1e30, 1e30, 1e30};
    int turns = length <= 65536 ? 4000 : 200;
    for (int turn = 0; turn < turns; turn++)
        for (int w = 0; w < ways; w++) {
            double start = now();
            run[w]();
            double took = now() - start;
            if (took < best[w])
                best[w] = took;
        }
    printf("%-9s %-20s %8zu", code == LRC_6_2_2 ? "(6,2,2)" : "(12,2,2)", name, length);
    for (int w = 0; w < ways; w++)
        printf("  %s %6.2f", names[w], bytes / best[w] * 1e-3);
    printf("  ratio %.2f\n", best[1] / best[0]);
}

static void run_all(void)
{
    prepare_encoding();
    race("encode", (double)lrc_data_count(code) * (double)length, 3,
         (void (*const[])(void)){encode_ours, encode_isal, encode_isal_split});
    for (int r = 0; r < 4; r++)
        if (memcmp(outs[r], store[LRC_PX + r], length) != 0)
            stop("the parities differ");
    for (int count = 1; count <= 3; count += 2) {
        prepare_rebuilding(count);
        race(count == 1 ? "rebuild x0" : "rebuild x0, x1, px", (double)survivor_count * (double)length, 2,
             (void (*const[])(void)){rebuild_ours, rebuild_isal});
        for (int i = 0; i < count; i++)
            if (memcmp(outs[i], store[lost[i]], length) != 0)
                stop("a fragment differs");
    }
}

int main(void)
{
    static const size_t lengths[] = {4096, 65536, MOST};
    for (int p = 0; p < LRC_PLACES; p++) {
        store[p] = aligned_alloc(64, MOST);
        for (size_t k = 0; k < MOST; k++)
            store[p][k] = random_byte();
    }
    for (int r = 0; r < ROWS; r++) {
        outs[r] = aligned_alloc(64, MOST);
        memset(outs[r], 1, MOST);
    }
    for (unsigned c = LRC_6_2_2; c <= LRC_12_2_2; c++)
        for (size_t i = 0; i < sizeof lengths / sizeof *lengths; i++) {
            code = (enum lrc_code)c;
            length = lengths[i];
            run_all();
        }
    return 0;
}
