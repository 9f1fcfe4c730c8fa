/* Times of plain loops in C, in memory as its word says: plain aligned|malloc. They are exclusive or, and products looked up
 * in a table of 256 bytes for each coefficient. */
#include "stripe.h"

static unsigned char *sum;

__attribute__((noinline)) static void add(unsigned char *dst, const unsigned char *src, int length)
{
    for (int i = 0; i < length; i++)
        dst[i] ^= src[i];
}

__attribute__((noinline)) static void scale_add(unsigned char *dst, int c, const unsigned char *src, int length)
{
    const unsigned char *of = products[c];
    for (int i = 0; i < length; i++)
        dst[i] ^= of[src[i]];
}

static int are_zeros(const unsigned char *bytes, int length)
{
    unsigned char any = 0;
    for (int i = 0; i < length; i++)
        any |= bytes[i];
    return any == 0;
}

static void add_row(const struct repair *repair, int row, int length)
{
    for (int s = 0; s < repair->survivor_count; s++) {
        int c = repair->rows[row][s];
        const unsigned char *src = fragments[repair->survivors[s]];
        if (c == 1)
            add(sum, src, length);
        else if (c != 0)
            scale_add(sum, c, src, length);
    }
}

static void time_sum(void *unused, int length)
{
    (void)unused;
    add(sum, fragments[0], length);
}

static void time_scaled_sum(void *unused, int length)
{
    (void)unused;
    scale_add(sum, 0x1d, fragments[0], length);
}

/* As in `solve` the checks leave zeros, over which the fragment is added up. */
static void time_repair(void *with, int length)
{
    const struct repair *repair = with;
    memset(sum, 0, length);
    for (int row = 1; row < repair->row_count; row++) {
        add_row(repair, row, length);
        if (!are_zeros(sum, length))
            stop("a check that is not zero");
    }
    add_row(repair, 0, length);
}

int main(int words_count, char **words)
{
    struct repair repairs[MOST_CASES];
    int count = read_repairs(repairs);
    read_placing(words_count, words);
    make_stripe();
    sum = fragment_memory();
    for (int size = 0; size < SIZES; size++) {
        int length = sizes[size].length, rounds = sizes[size].rounds;
        print_time("sum", length, rounds, time_sum, NULL);
        print_time("scaled_sum", length, rounds, time_scaled_sum, NULL);
        for (int i = 0; i < count; i++) {
            print_time(repairs[i].name, length, rounds, time_repair, &repairs[i]);
            if (memcmp(sum, fragments[0], length) != 0)
                stop("another fragment than x0");
        }
    }
    return 0;
}
