/* Rebuilding one fragment by ISA-L: the coefficients by elimination, the fragment and its checks in one call. */
#include "stripe.h"
#include "places.h"
#include <isa-l.h>

enum { CHECK_ROWS = PLACES - DATA };

enum outcome { REBUILT, CONTRADICTION, SEVERAL };

/* A lost fragment, and the places of those that are given for it. */
struct repair_asked {
    int target, length, count, survivors[PLACES];
};

static unsigned char inverses[256];

static void make_inverses(void)
{
    make_products();
    for (int a = 1; a < 256; a++)
        for (int b = 1; b < 256; b++)
            if (products[a][b] == 1)
                inverses[a] = b;
}

/* The place with a name of two characters, or -1. */
static int place_of(const char *name)
{
    for (int place = 0; place < PLACES; place++)
        if (name[0] == place_names[place][0] && name[1] == place_names[place][1])
            return place;
    return -1;
}

/* Gives a row 1 at this place, and the others 0. */
static void clear_column(unsigned char rows[CHECK_ROWS][PLACES], int row, int place)
{
    const unsigned char *by = products[inverses[rows[row][place]]];
    for (int p = 0; p < PLACES; p++)
        rows[row][p] = by[rows[row][p]];
    for (int other = 0; other < CHECK_ROWS; other++) {
        const unsigned char *of = products[rows[other][place]];
        for (int p = 0; other != row && p < PLACES; p++)
            rows[other][p] ^= of[rows[row][p]];
    }
}

/* The coefficients over the survivors: first of the target, where they determine it, and then of the checks. Gives the
 * number of rows, and says whether the first is the target's. */
static int rows_of(const struct repair_asked *asked, unsigned char *matrix, int *has_value)
{
    unsigned char rows[CHECK_ROWS][PLACES] = {0};
    int used[CHECK_ROWS] = {0}, survives[PLACES] = {0}, order[PLACES], lost = 0, value = -1, count = 0;
    for (int row = 0; row < CHECK_ROWS; row++) {
        memcpy(rows[row], parities[row], DATA);
        rows[row][DATA + row] = 1;
    }
    for (int s = 0; s < asked->count; s++)
        survives[asked->survivors[s]] = 1;
    for (int place = 0; place < PLACES; place++)
        if (!survives[place] && place != asked->target)
            order[lost++] = place;
    order[lost++] = asked->target;
    for (int i = 0; i < lost; i++)
        for (int row = 0; row < CHECK_ROWS; row++)
            if (!used[row] && rows[row][order[i]] != 0) {
                clear_column(rows, row, order[i]);
                used[row] = 1;
                value = order[i] == asked->target ? row : value;
                break;
            }
    *has_value = value != -1;
    for (int turn = value == -1; turn <= CHECK_ROWS; turn++) {
        int row = turn == 0 ? value : turn - 1;
        if (turn != 0 && used[row])
            continue;
        for (int s = 0; s < asked->count; s++)
            matrix[count * asked->count + s] = rows[row][asked->survivors[s]];
        count++;
    }
    return count;
}

static int is_sum(const unsigned char *row, int count)
{
    for (int s = 0; s < count; s++)
        if (row[s] != 1)
            return 0;
    return 1;
}

/* Rebuilds into sums[0] from the sources, which are in the survivors' order. The other sums and one more source are
 * room to work in. */
static enum outcome rebuild(const struct repair_asked *asked, unsigned char **sources, unsigned char **sums)
{
    unsigned char matrix[PLACES * (CHECK_ROWS + 1)], tables[32 * PLACES * (CHECK_ROWS + 1)];
    int has_value, count = rows_of(asked, matrix, &has_value);
    if (asked->count == 0 || count == 0)
        return SEVERAL;
    if (has_value && count == 1 && is_sum(matrix, asked->count)) {
        sources[asked->count] = sums[0];
        if (xor_gen(asked->count + 1, asked->length, (void **)sources) != 0)
            stop("xor_gen failed");
        return REBUILT;
    }
    ec_init_tables(asked->count, count, matrix, tables);
    ec_encode_data(asked->length, asked->count, count, tables, sources, sums);
    for (int row = has_value; row < count; row++)
        if (isal_zero_detect(sums[row], asked->length) != 0)
            return CONTRADICTION;
    return has_value ? REBUILT : SEVERAL;
}
