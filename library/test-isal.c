/* Compares the C library with ISA-L's own arithmetic over the same equations: every product of two bytes, the parities of random
 * stripes of both codes, and each set of four lost fragments, solved by inverting a matrix with ISA-L. Exits with 0 if all agree. */
#include "stripes.h"
#include <isa-l.h>
#include <string.h>

enum { LENGTH = 1024, STRIPES = 20 };

static uint8_t store[LRC_PLACES][LENGTH], outs[4][LENGTH], wanted[4][LENGTH];

static void products(void)
{
    for (unsigned a = 0; a < 256; a++)
        for (unsigned b = 0; b < 256; b++) {
            uint8_t sum = 0, other = (uint8_t)b;
            test(lrc_scale_add(&sum, 1, (uint8_t)a, &other, 1) == LRC_OK, "scale_add");
            test(sum == gf_mul((uint8_t)a, (uint8_t)b), "a product");
        }
}

/* The coefficients of the data fragments at a place. */
static void row_of(enum lrc_code code, enum lrc_place place, uint8_t row[12])
{
    size_t k = lrc_data_count(code);
    for (size_t i = 0; i < k; i++)
        row[i] = place >= LRC_PX && place <= LRC_P1 ? coefficient(code, (int)place - LRC_PX, i)
                                                     : lrc_data_place(code, i) == place;
}

static void encoding(enum lrc_code code)
{
    uint8_t *fragments[LRC_PLACES], *data[12], *parities[4] = {wanted[0], wanted[1], wanted[2], wanted[3]};
    uint8_t rows[4 * 12], tables[32 * 4 * 12];
    int k = (int)lrc_data_count(code);
    for (int p = 0; p < LRC_PLACES; p++) {
        fragments[p] = lrc_has_place(code, (enum lrc_place)p) ? store[p] : NULL;
        for (size_t i = 0; i < LENGTH; i++)
            store[p][i] = random_byte();
    }
    for (int i = 0; i < k; i++)
        data[i] = store[lrc_data_place(code, (size_t)i)];
    for (int r = 0; r < 4; r++)
        for (int i = 0; i < k; i++)
            rows[r * k + i] = coefficient(code, r, (size_t)i);
    test(lrc_encode(code, fragments, LENGTH) == LRC_OK, "encode");
    ec_init_tables(k, 4, rows, tables);
    ec_encode_data(LENGTH, k, 4, tables, data, parities);
    for (int r = 0; r < 4; r++)
        test(memcmp(wanted[r], store[LRC_PX + r], LENGTH) == 0, "a parity");
}

/* Chooses places that are left and whose rows can be inverted; 0 where there are none. The rest of the row reduction is ISA-L's. */
static int invert(enum lrc_code code, uint32_t lost, enum lrc_place chosen[12], uint8_t inverse[12 * 12])
{
    int k = (int)lrc_data_count(code), left = 0;
    enum lrc_place places[LRC_PLACES];
    for (int p = 0; p < LRC_PLACES; p++)
        if (lrc_has_place(code, (enum lrc_place)p) && !(lost >> p & 1))
            places[left++] = (enum lrc_place)p;
    for (uint32_t set = 0; set < UINT32_C(1) << left; set++) {
        uint8_t matrix[12 * 12];
        int n = 0;
        if (__builtin_popcount(set) != k)
            continue;
        for (int i = 0; i < left; i++)
            if (set >> i & 1) {
                row_of(code, places[i], matrix + n * k);
                chosen[n++] = places[i];
            }
        if (gf_invert_matrix(matrix, inverse, k) == 0)
            return 1;
    }
    return 0;
}

/* With four lost, as many are left as there are data fragments or more: the lost ones are all determined where the rows that are left
 * can be inverted. */
static void lose(enum lrc_code code, uint32_t lost)
{
    const uint8_t *left[LRC_PLACES];
    enum lrc_place targets[4], chosen[12];
    uint8_t *rooms[4] = {outs[0], outs[1], outs[2], outs[3]}, *parities[4] = {wanted[0], wanted[1], wanted[2], wanted[3]};
    uint8_t inverse[12 * 12], rows[4 * 12], tables[32 * 4 * 12], *sources[12];
    uint32_t statuses[4];
    int k = (int)lrc_data_count(code), count = 0;
    for (int p = 0; p < LRC_PLACES; p++) {
        left[p] = lrc_has_place(code, (enum lrc_place)p) && !(lost >> p & 1) ? store[p] : NULL;
        if (lost >> p & 1)
            targets[count++] = (enum lrc_place)p;
    }
    uint32_t all = lrc_rebuild_many(code, left, targets, rooms, statuses, 4, LENGTH);
    if (!invert(code, lost, chosen, inverse)) {
        test(all == LRC_SEVERAL, "not all are determined");
        return;
    }
    test(all == LRC_OK, "all are determined");
    for (int t = 0; t < 4; t++) {
        uint8_t row[12];
        row_of(code, targets[t], row);
        for (int j = 0; j < k; j++) {
            uint8_t sum = 0;
            for (int i = 0; i < k; i++)
                sum ^= gf_mul(row[i], inverse[i * k + j]);
            rows[t * k + j] = sum;
        }
    }
    for (int i = 0; i < k; i++)
        sources[i] = store[chosen[i]];
    ec_init_tables(k, 4, rows, tables);
    ec_encode_data(LENGTH, k, 4, tables, sources, parities);
    for (int t = 0; t < 4; t++)
        test(memcmp(outs[t], wanted[t], LENGTH) == 0, "a rebuilt fragment");
}

int main(void)
{
    products();
    for (unsigned c = LRC_6_2_2; c <= LRC_12_2_2; c++) {
        enum lrc_code code = (enum lrc_code)c;
        for (int i = 0; i < STRIPES; i++)
            encoding(code);
        for (uint32_t lost = 0; lost < UINT32_C(1) << (code == LRC_6_2_2 ? 10 : 16); lost++)
            if (__builtin_popcount(lost) == 4)
                lose(code, lost);
    }
    printf("%lu tests beside ISA-L passed\n", tests);
    return 0;
}
