/* Tests the calls that stores add to the C library: the layouts, lengths of fragments, parities after a change, and what to read.
 * What a set of places determines, and the least that has to be read, is worked out here from ranks over products by shifts. Exits
 * with 0 if all is as it must be. */
#include "stripes.h"
#include <string.h>

/* With SHORT, as under sanitizers and valgrind: shorter fragments, and one of STEP questions. */
#ifdef SHORT
enum { MOST = 5000, STEP = 97 };
#else
enum { MOST = 70000, STEP = 1 };
#endif

static uint8_t store[LRC_PLACES][MOST], before[4][MOST], difference[MOST];

/* ---- layouts and lengths */

static const enum lrc_place orders[2][2][LRC_PLACES] = {
    {{LRC_X0, LRC_X1, LRC_X2, LRC_Y0, LRC_Y1, LRC_Y2, LRC_PX, LRC_PY, LRC_P0, LRC_P1},
     {LRC_X0, LRC_X1, LRC_X2, LRC_PX, LRC_Y0, LRC_Y1, LRC_Y2, LRC_PY, LRC_P0, LRC_P1}},
    {{LRC_X0, LRC_X1, LRC_X2, LRC_X3, LRC_X4, LRC_X5, LRC_Y0, LRC_Y1, LRC_Y2, LRC_Y3, LRC_Y4, LRC_Y5, LRC_PX, LRC_PY, LRC_P0, LRC_P1},
     {LRC_X0, LRC_X1, LRC_X2, LRC_X3, LRC_X4, LRC_X5, LRC_PX, LRC_Y0, LRC_Y1, LRC_Y2, LRC_Y3, LRC_Y4, LRC_Y5, LRC_PY, LRC_P0, LRC_P1}},
};

static void layouts(enum lrc_code code)
{
    static const unsigned none[] = {2, 256, 257};
    size_t count = code == LRC_6_2_2 ? 10 : 16;
    test(lrc_fragment_count(code) == count, "how many fragments");
    for (unsigned l = LRC_PLAIN; l <= LRC_GROUPS; l++) {
        enum lrc_layout layout = (enum lrc_layout)l;
        for (size_t shard = 0; shard < count; shard++) {
            enum lrc_place place = orders[code][l][shard];
            test(lrc_shard_place(code, layout, shard) == place, "the place of a number");
            test(lrc_place_shard(code, layout, place) == shard, "the number of a place");
        }
        test(lrc_shard_place(code, layout, count) == LRC_PLACES, "no place of a number");
        test(lrc_shard_place(code, layout, SIZE_MAX) == LRC_PLACES, "no place of the greatest number");
        for (unsigned p = (unsigned)count; p < 300; p++)
            test(lrc_place_shard(code, layout, (enum lrc_place)p) == LRC_PLACES, "no number of a place");
        for (size_t i = 0; i < sizeof none / sizeof *none; i++) {
            test(lrc_shard_place((enum lrc_code)none[i], layout, 0) == LRC_PLACES, "a place of no code");
            test(lrc_place_shard((enum lrc_code)none[i], layout, LRC_X0) == LRC_PLACES, "a number of no code");
            test(lrc_shard_place(code, (enum lrc_layout)none[i], 0) == LRC_PLACES, "a place of no layout");
            test(lrc_place_shard(code, (enum lrc_layout)none[i], LRC_X0) == LRC_PLACES, "a number of no layout");
        }
    }
}

static void lengths(void)
{
    static const struct {
        enum lrc_code code;
        size_t bytes, alignment, length;
    } rows[] = {
        {LRC_6_2_2, 0, 32, 0},     {LRC_6_2_2, 1, 1, 1},         {LRC_6_2_2, 6, 1, 1},         {LRC_6_2_2, 7, 1, 2},
        {LRC_6_2_2, 1, 32, 32},    {LRC_6_2_2, 192, 32, 32},     {LRC_6_2_2, 193, 32, 64},     {LRC_6_2_2, 100, 7, 21},
        {LRC_6_2_2, 100, 0, 0},    {LRC_12_2_2, 12, 1, 1},       {LRC_12_2_2, 13, 1, 2},       {LRC_12_2_2, 1, 4096, 4096},
        {LRC_12_2_2, 0, 1, 0},     {LRC_12_2_2, 0, 0, 0},        {LRC_12_2_2, 49152, 4096, 4096}, {LRC_12_2_2, 49153, 4096, 8192},
        {LRC_6_2_2, 1, SIZE_MAX, SIZE_MAX},                      {LRC_6_2_2, SIZE_MAX, 1, SIZE_MAX / 6 + 1},
        {LRC_6_2_2, SIZE_MAX, SIZE_MAX / 6, 2 * (SIZE_MAX / 6)}, {LRC_6_2_2, SIZE_MAX, SIZE_MAX / 2 + 1, SIZE_MAX / 2 + 1},
    };
    for (size_t i = 0; i < sizeof rows / sizeof *rows; i++)
        test(lrc_fragment_length(rows[i].code, rows[i].bytes, rows[i].alignment) == rows[i].length, "the length of fragments");
    for (size_t bytes = 0; bytes < 1000; bytes++)
        for (size_t alignment = 1; alignment < 40; alignment++) {
            size_t wanted = 0;
            while (12 * wanted < bytes)
                wanted += alignment;
            test(lrc_fragment_length(LRC_12_2_2, bytes, alignment) == wanted, "the least length of fragments");
        }
}

/* ---- parities after a change */

/* Changes one data fragment and brings the parities in `given` up to date. */
static void change(enum lrc_code code, size_t i, unsigned given, size_t length)
{
    enum lrc_place place = lrc_data_place(code, i);
    uint8_t *parities[4];
    for (int r = 0; r < 4; r++) {
        memcpy(before[r], store[LRC_PX + r], length);
        parities[r] = given >> r & 1 ? store[LRC_PX + r] : NULL;
    }
    for (size_t k = 0; k < length; k++)
        difference[k] = random_byte();
    test(lrc_update(code, place, difference, parities, length) == LRC_OK, "an update");
    for (int r = 0; r < 4; r++) {
        uint8_t products[256];
        for (int b = 0; b < 256; b++)
            products[b] = given >> r & 1 ? product(coefficient(code, r, i), (uint8_t)b) : 0;
        for (size_t k = 0; k < length; k++)
            test(store[LRC_PX + r][k] == (before[r][k] ^ products[difference[k]]), "an updated parity");
    }
    if (given != 15)
        return;
    for (size_t k = 0; k < length; k++)
        store[place][k] ^= difference[k];
}

static void updates(enum lrc_code code)
{
    static const size_t sizes[] = {1, 31, 32, 33, 4096, MOST};
    uint8_t *fragments[LRC_PLACES];
    for (size_t s = 0; s < sizeof sizes / sizeof *sizes; s++) {
        size_t length = sizes[s];
        for (int p = 0; p < LRC_PLACES; p++) {
            fragments[p] = lrc_has_place(code, (enum lrc_place)p) ? store[p] : NULL;
            for (size_t k = 0; k < length; k++)
                store[p][k] = random_byte();
        }
        test(lrc_encode(code, fragments, length) == LRC_OK, "encode");
        for (size_t i = 0; i < lrc_data_count(code); i++)
            change(code, i, 15, length);
        test(lrc_verify(code, LRC_READ(fragments), length) == LRC_OK, "an updated stripe");
        for (unsigned given = 0; given < 16; given++)
            change(code, given % lrc_data_count(code), given, length < 100 ? length : 100);
    }
}

/* What is refused of an update, with nothing written. */
static void refused_updates(enum lrc_code code)
{
    enum { N = 100 };
    static const unsigned codes[] = {2, 256, 257}, places[] = {LRC_PX, LRC_PY, LRC_P0, LRC_P1, LRC_PLACES, 255, 256};
    uint8_t *parities[4], *const *p = parities;
    uint8_t number = (uint8_t)code;
    memset(before, 7, sizeof before);
    for (int r = 0; r < 4; r++)
        parities[r] = before[r];
    for (size_t i = 0; i < sizeof codes / sizeof *codes; i++)
        test(lrc_update((enum lrc_code)codes[i], LRC_X0, difference, p, N) == LRC_BAD_ARGUMENT, "an update of no code");
    test(lrc_update_into(2, LRC_X0, difference, N, p[0], N, p[1], N, p[2], N, p[3], N) == LRC_BAD_ARGUMENT, "an update of no code");
    for (size_t i = 0; i < sizeof places / sizeof *places; i++)
        test(lrc_update(code, (enum lrc_place)places[i], difference, p, N) == LRC_BAD_ARGUMENT, "an update of no data");
    test(lrc_update_into(number, 16, difference, N, p[0], N, p[1], N, p[2], N, p[3], N) == LRC_BAD_ARGUMENT, "an update of no place");
    for (unsigned x = LRC_X3; x <= LRC_Y5 && code == LRC_6_2_2; x++)
        test(lrc_update(code, (enum lrc_place)x, difference, p, N) == LRC_BAD_ARGUMENT, "an update of the other code");
    test(lrc_update(code, LRC_X0, NULL, p, N) == LRC_BAD_ARGUMENT, "no difference");
    for (int r = 0; r < 4; r++)
        for (size_t other = N - 1; other <= N + 1; other += 2) {
            size_t l[4] = {N, N, N, N};
            l[r] = other;
            test(lrc_update_into(number, LRC_Y0, difference, N, p[0], l[0], p[1], l[1], p[2], l[2], p[3], l[3]) == LRC_BAD_ARGUMENT,
                 "a parity of another length");
            l[r] = 1;
            test(lrc_update_into(number, LRC_Y0, difference, 0, p[0], r == 0, p[1], r == 1, p[2], r == 2, p[3], r == 3) == LRC_BAD_ARGUMENT,
                 "a parity beside no difference");
        }
    test(lrc_update(code, LRC_X0, difference, p, 0) == LRC_OK, "an update of no bytes");
    for (int r = 0; r < 4; r++)
        for (size_t k = 0; k < N + 1; k++)
            test(before[r][k] == 7, "nothing written");
}

/* ---- what to read */

static uint8_t ranks[65536];
static uint16_t determined[65536];
static uint8_t inverse[256];

/* A place's column of the four equations. */
static void column_of(enum lrc_code code, int place, uint8_t column[4])
{
    for (int r = 0; r < 4; r++)
        column[r] = place == LRC_PX + r;
    for (size_t i = 0; i < lrc_data_count(code); i++)
        for (int r = 0; r < 4 && (int)lrc_data_place(code, i) == place; r++)
            column[r] = coefficient(code, r, i);
}

/* The rank of the columns of a set. */
static int rank_of(uint8_t columns[LRC_PLACES][4], uint32_t set)
{
    uint8_t rows[4][4];
    int rank = 0;
    for (int p = 0; p < LRC_PLACES; p++) {
        uint8_t rest[4];
        int lead = 0;
        if ((set >> p & 1) == 0)
            continue;
        memcpy(rest, columns[p], sizeof rest);
        for (int i = 0; i < rank; i++) {
            int at = 0;
            while (rows[i][at] == 0)
                at++;
            uint8_t factor = product(rest[at], inverse[rows[i][at]]);
            for (int r = 0; r < 4; r++)
                rest[r] ^= product(factor, rows[i][r]);
        }
        while (lead < 4 && rest[lead] == 0)
            lead++;
        if (lead < 4)
            memcpy(rows[rank++], rest, sizeof rest);
    }
    return rank;
}

/* For each set of places, those that it determines: a lost one whose column is none of those that the other lost ones span. */
static void work_out(enum lrc_code code)
{
    uint32_t all = code == LRC_6_2_2 ? 0x3ff : 0xffff;
    uint8_t columns[LRC_PLACES][4];
    for (int a = 1; a < 256; a++)
        for (int b = 1; b < 256; b++)
            if (product((uint8_t)a, (uint8_t)b) == 1)
                inverse[a] = (uint8_t)b;
    for (int p = 0; p < LRC_PLACES; p++)
        column_of(code, p, columns[p]);
    for (uint32_t set = 0; set <= all; set++)
        ranks[set] = (uint8_t)rank_of(columns, set);
    for (uint32_t set = 0; set <= all; set++) {
        determined[set] = (uint16_t)set;
        for (int p = 0; p < LRC_PLACES; p++)
            if (all >> p & 1 && !(set >> p & 1) && ranks[all & ~set] == ranks[all & ~set & ~(UINT32_C(1) << p)] + 1)
                determined[set] |= (uint16_t)(1u << p);
    }
}

static uint64_t cost_of(uint32_t reads, const uint32_t costs[LRC_PLACES])
{
    uint64_t sum = 0;
    for (int p = 0; p < LRC_PLACES; p++)
        sum += reads >> p & 1 ? costs[p] : 0;
    return sum;
}

/* Asks what to read, and compares it with every set of available places that would do. */
static void ask(enum lrc_code code, uint32_t wanted, uint32_t available, const uint32_t costs[LRC_PLACES], int same)
{
    uint32_t all = code == LRC_6_2_2 ? 0x3ff : 0xffff, reads = 77, own = wanted & available;
    uint64_t least = UINT64_MAX;
    uint32_t status = same ? lrc_reads_into((uint8_t)code, wanted, available, &reads)
                           : lrc_cheapest_reads_into((uint8_t)code, wanted, available, costs, &reads);
    if ((wanted & ~(uint32_t)determined[available & all]) != 0) {
        test(status == LRC_SEVERAL && reads == 77, "what is not determined");
        return;
    }
    test(status == LRC_OK, "what to read");
    test((reads & ~available) == 0 && (own & ~reads) == 0, "what is read is available, and what is wanted of it is read");
    test((wanted & ~(uint32_t)determined[reads]) == 0, "what is read determines what is wanted");
    for (int p = 0; p < LRC_PLACES; p++)
        if (reads >> p & 1 && !(wanted >> p & 1))
            test((wanted & ~(uint32_t)determined[reads & ~(UINT32_C(1) << p)]) != 0, "none can be left out");
    for (uint32_t set = available;; set = (set - 1) & available) {
        if ((own & ~set) == 0 && (wanted & ~(uint32_t)determined[set]) == 0) {
            uint64_t cost = cost_of(set, costs);
            least = cost < least ? cost : least;
        }
        if (set == 0)
            break;
    }
    test(cost_of(reads, costs) == least, "the least is read");
}

static void dear(uint32_t costs[LRC_PLACES], uint32_t most)
{
    for (int p = 0; p < LRC_PLACES; p++)
        costs[p] = most != 0 ? random_byte() % most : (uint32_t)random_byte() << 24 | random_byte();
}

static unsigned questions;

/* All available places, and of wanted ones up to two, the data, or all that are lost. */
static void ask_all(void)
{
    uint32_t costs[LRC_PLACES], flat[LRC_PLACES];
    for (int p = 0; p < LRC_PLACES; p++)
        flat[p] = 1;
    for (uint32_t wanted = 0; wanted <= 0x3ff; wanted++)
        for (uint32_t available = 0; available <= 0x3ff; available++) {
            if ((__builtin_popcount(wanted) > 2 && wanted != 0x3f && wanted != (0x3ff & ~available)) || questions++ % STEP != 0)
                continue;
            ask(LRC_6_2_2, wanted, available, flat, 1);
            dear(costs, questions % 3 == 0 ? 0 : questions % 3 * 5);
            ask(LRC_6_2_2, wanted, available, costs, 0);
        }
}

/* One to four lost places: all of them wanted, each alone, and each with the data. */
static void ask_lost(void)
{
    uint32_t costs[LRC_PLACES], flat[LRC_PLACES], data = 0xfc3f;
    for (int p = 0; p < LRC_PLACES; p++)
        flat[p] = 1;
    for (uint32_t lost = 1; lost <= 0xffff; lost++) {
        if (__builtin_popcount(lost) > 4 || questions++ % (__builtin_popcount(lost) > 2 ? 13 * STEP : STEP) != 0)
            continue;
        for (int p = -1; p < LRC_PLACES; p++) {
            if (p >= 0 && !(lost >> p & 1))
                continue;
            uint32_t wanted = p < 0 ? lost : UINT32_C(1) << p;
            dear(costs, questions % 2 * 9);
            ask(LRC_12_2_2, wanted, 0xffff & ~lost, flat, 1);
            ask(LRC_12_2_2, wanted | data, 0xffff & ~lost, flat, 1);
            ask(LRC_12_2_2, wanted, 0xffff & ~lost, costs, 0);
        }
    }
}

/* What is refused, bits that play no part, and the group alone. */
static void reads(enum lrc_code code)
{
    uint32_t all = code == LRC_6_2_2 ? 0x3ff : 0xffff, costs[LRC_PLACES] = {1}, found = 77;
    uint8_t number = (uint8_t)code;
    test(lrc_reads_into(2, 1, all, &found) == LRC_BAD_ARGUMENT, "reads of no code");
    test(lrc_cheapest_reads_into(255, 1, all, costs, &found) == LRC_BAD_ARGUMENT, "cheapest reads of no code");
    for (int p = LRC_X3; p <= LRC_Y5 && code == LRC_6_2_2; p++) {
        test(lrc_reads_into(number, UINT32_C(1) << p, all, &found) == LRC_BAD_ARGUMENT, "a wanted place of the other code");
        test(lrc_cheapest_reads_into(number, UINT32_C(1) << p, all, costs, &found) == LRC_BAD_ARGUMENT, "a wanted place of the other code");
    }
    test(lrc_reads_into(number, 1, 0, &found) == LRC_SEVERAL && found == 77, "nothing available");
    for (size_t i = 0; i < lrc_data_count(code) + 2; i++) {
        size_t half = lrc_data_count(code) / 2;
        uint32_t group = 0, target = UINT32_C(1) << lrc_shard_place(code, LRC_GROUPS, i);
        for (size_t k = 0; k <= half; k++)
            group |= UINT32_C(1) << lrc_shard_place(code, LRC_GROUPS, (i <= half ? 0 : half + 1) + k);
        for (uint32_t other = 0; other <= all; other += STEP) {
            uint32_t available = (other | group) & all & ~target;
            test(lrc_reads_into(number, target, available, &found) == LRC_OK && found == (group & ~target), "the group alone");
        }
        test(lrc_reads_into(number, target | UINT32_C(0xabcd0000), UINT32_C(0xffffffff) & ~target, &found) == LRC_OK &&
                 found == (group & ~target), "bits that play no part");
    }
    test(lrc_reads_into(number, 0, all, &found) == LRC_OK && found == 0, "nothing wanted");
    test(lrc_reads_into(number, all, all, &found) == LRC_OK && found == all, "all wanted and available");
}

int main(void)
{
    lengths();
    for (unsigned c = LRC_6_2_2; c <= LRC_12_2_2; c++) {
        enum lrc_code code = (enum lrc_code)c;
        layouts(code);
        updates(code);
        refused_updates(code);
        work_out(code);
        reads(code);
        if (code == LRC_6_2_2)
            ask_all();
        else
            ask_lost();
    }
    printf("%lu tests of what stores add passed, with %u questions what to read\n", tests, (questions + STEP - 1) / STEP);
    return 0;
}
