/* Times of ISA-L on the same work, in memory as its word says: isal aligned|malloc. It chooses its instructions when it runs,
 * which may be wider than AVX2. The tables of the coefficients and the lists of vectors are made before the time is taken. */
#include "stripe.h"
#include <isa-l.h>

/* `sources` has the vectors to add up and then the place of their sum, as xor_gen wants them. */
struct prepared {
    const struct repair *repair;
    unsigned char tables[32 * PLACES * MOST_ROWS];
    unsigned char *sources[PLACES + 1];
};

static unsigned char *sums[MOST_ROWS];

static void sum_of(int count, int length, unsigned char **vectors)
{
    if (xor_gen(count + 1, length, (void **)vectors) != 0)
        stop("xor_gen failed");
}

/* Adds a fragment to the sum, in place. */
static void time_sum(void *with, int length)
{
    struct prepared *prepared = with;
    sum_of(2, length, prepared->sources);
}

static void time_scaled_sum(void *with, int length)
{
    struct prepared *prepared = with;
    gf_vect_mad(length, 1, 0, prepared->tables, fragments[0], sums[0]);
}

/* The fragment as the exclusive or of all survivors. */
static void time_sum_of_all(void *with, int length)
{
    struct prepared *prepared = with;
    sum_of(prepared->repair->survivor_count, length, prepared->sources);
}

/* The fragment and its checks in one call. */
static void time_rows(void *with, int length)
{
    struct prepared *prepared = with;
    const struct repair *repair = prepared->repair;
    ec_encode_data(length, repair->survivor_count, repair->row_count, prepared->tables, prepared->sources, sums);
    for (int row = 1; row < repair->row_count; row++)
        if (isal_zero_detect(sums[row], length) != 0)
            stop("a check that is not zero");
}

static int is_sum_of_all(const struct repair *repair)
{
    for (int s = 0; s < repair->survivor_count; s++)
        if (repair->rows[0][s] != 1)
            return 0;
    return repair->row_count == 1;
}

static void prepare(struct prepared *prepared, const struct repair *repair)
{
    unsigned char matrix[PLACES * MOST_ROWS];
    int count = repair->survivor_count;
    prepared->repair = repair;
    for (int s = 0; s < count; s++) {
        prepared->sources[s] = fragments[repair->survivors[s]];
        for (int row = 0; row < repair->row_count; row++)
            matrix[row * count + s] = repair->rows[row][s];
    }
    prepared->sources[count] = sums[0];
    ec_init_tables(count, repair->row_count, matrix, prepared->tables);
}

/* A fragment and the sum to which it is added, plain and scaled. */
static void prepare_sums(struct prepared *prepared)
{
    prepared->sources[0] = sums[0];
    prepared->sources[1] = fragments[0];
    prepared->sources[2] = sums[0];
    gf_vect_mul_init(0x1d, prepared->tables);
}

/* That the sum and the scaled sum are those of the plain loops, before they are timed. */
static void check_sums(struct prepared *prepared)
{
    memset(sums[0], 0x55, MOST_LENGTH);
    time_sum(prepared, MOST_LENGTH);
    for (int i = 0; i < MOST_LENGTH; i++)
        if (sums[0][i] != (0x55 ^ fragments[0][i]))
            stop("xor_gen made another sum");
    memset(sums[0], 0x55, MOST_LENGTH);
    time_scaled_sum(prepared, MOST_LENGTH);
    for (int i = 0; i < MOST_LENGTH; i++)
        if (sums[0][i] != (0x55 ^ products[0x1d][fragments[0][i]]))
            stop("gf_vect_mad made another sum");
}

int main(int words_count, char **words)
{
    struct repair repairs[MOST_CASES];
    static struct prepared prepared[MOST_CASES], kernels;
    int count = read_repairs(repairs);
    read_placing(words_count, words);
    make_stripe();
    for (int row = 0; row < MOST_ROWS; row++)
        sums[row] = fragment_memory();
    for (int i = 0; i < count; i++)
        prepare(&prepared[i], &repairs[i]);
    prepare_sums(&kernels);
    check_sums(&kernels);
    for (int size = 0; size < SIZES; size++) {
        int length = sizes[size].length, rounds = sizes[size].rounds;
        print_time("sum", length, rounds, time_sum, &kernels);
        print_time("scaled_sum", length, rounds, time_scaled_sum, &kernels);
        for (int i = 0; i < count; i++) {
            void (*work)(void *, int) = is_sum_of_all(&repairs[i]) ? time_sum_of_all : time_rows;
            print_time(repairs[i].name, length, rounds, work, &prepared[i]);
            if (memcmp(sums[0], fragments[0], length) != 0)
                stop("another fragment than x0");
        }
    }
    return 0;
}
