/* What the C programs work on: the cases that the program of src/ prints, a stripe, and the shortest time. */
#include <stdio.h>
#include <stdlib.h>
#include <string.h>
#include <time.h>

enum { PLACES = 10, DATA = 6, MOST_ROWS = 4, MOST_CASES = 8, MOST_LENGTH = 65536, REPETITIONS = 40, SIZES = 2 };

/* Fragment lengths, each with the rounds of a repetition. */
static const struct {
    int length, rounds;
} sizes[SIZES] = {{4096, 1024}, {65536, 64}};

/* A repair of x0: the survivors' places in order, and for each row its coefficients in their order. The first row
 * gives x0, each other is zero in a stripe. */
struct repair {
    char name[32];
    int survivor_count, row_count;
    int survivors[PLACES];
    unsigned char rows[MOST_ROWS][PLACES];
};

static unsigned char products[256][256];

/* x0 x1 x2 y0 y1 y2 px py p0 p1. */
static unsigned char *fragments[PLACES];

/* Whether fragments are where malloc puts them; else they are at multiples of 64 bytes. */
static int placed_by_malloc;

static void stop(const char *message)
{
    fprintf(stderr, "%s\n", message);
    exit(1);
}

/* Fragments aren't at one offset in their pages. */
static unsigned char *fragment_memory(void)
{
    static size_t at;
    static _Alignas(64) unsigned char memory[(PLACES + MOST_ROWS + 2) * (MOST_LENGTH + 64)];
    unsigned char *here = placed_by_malloc ? malloc(MOST_LENGTH) : memory + at;
    at += MOST_LENGTH + 64;
    if (here == NULL || at > sizeof memory)
        stop("no memory for a fragment");
    return here;
}

/* The product by shifts, reduced by x^8 + x^4 + x^3 + x^2 + 1. */
static unsigned char product_by_shifts(unsigned a, unsigned b)
{
    unsigned sum = 0;
    for (; b != 0; b >>= 1) {
        if (b & 1)
            sum ^= a;
        a = a << 1 ^ (a & 0x80 ? 0x11d : 0);
    }
    return sum;
}

/* The parities' coefficients, p0's squared in p1. */
static const unsigned char parities[PLACES - DATA][DATA] = {
    {0x01, 0x01, 0x01, 0x00, 0x00, 0x00},
    {0x00, 0x00, 0x00, 0x01, 0x01, 0x01},
    {0x04, 0x08, 0x0c, 0x01, 0x02, 0x03},
    {0x10, 0x40, 0x50, 0x01, 0x04, 0x05},
};

static void make_products(void)
{
    for (int a = 0; a < 256; a++)
        for (int b = 0; b < 256; b++)
            products[a][b] = product_by_shifts(a, b);
}

/* Six fragments of a linear congruential generator, and the four that they give. */
static void fill_stripe(unsigned state)
{
    for (int i = 0; i < MOST_LENGTH; i++) {
        for (int d = 0; d < DATA; d++) {
            state = state * 1664525u + 1013904223u;
            fragments[d][i] = state >> 24;
        }
        for (int p = DATA; p < PLACES; p++) {
            fragments[p][i] = 0;
            for (int d = 0; d < DATA; d++)
                fragments[p][i] ^= products[parities[p - DATA][d]][fragments[d][i]];
        }
    }
}

static void make_stripe(void)
{
    make_products();
    for (int p = 0; p < PLACES; p++)
        fragments[p] = fragment_memory();
    fill_stripe(1);
}

static int read_repair(struct repair *repair)
{
    if (scanf(" case %31s %d", repair->name, &repair->row_count) != 2)
        return 0;
    if (repair->row_count < 1 || repair->row_count > MOST_ROWS)
        stop("a case with too many rows");
    repair->survivor_count = 0;
    for (int p = 0; p < PLACES; p++) {
        int survives;
        if (scanf("%d", &survives) != 1)
            stop("a case without survivors");
        if (survives)
            repair->survivors[repair->survivor_count++] = p;
    }
    for (int r = 0; r < repair->row_count; r++)
        for (int p = 0, s = 0; p < PLACES; p++) {
            int coefficient;
            if (scanf("%d", &coefficient) != 1)
                stop("a case without coefficients");
            if (s < repair->survivor_count && repair->survivors[s] == p)
                repair->rows[r][s++] = coefficient;
            else if (coefficient != 0)
                stop("a coefficient of a lost fragment");
        }
    return 1;
}

/* What a timing program's word says of its memory. */
static void read_placing(int count, char **words)
{
    placed_by_malloc = count == 2 && strcmp(words[1], "malloc") == 0;
    if (count != 2 || (!placed_by_malloc && strcmp(words[1], "aligned") != 0))
        stop("one word is wanted: aligned or malloc");
}

static int read_repairs(struct repair repairs[MOST_CASES])
{
    int count = 0;
    while (count < MOST_CASES && read_repair(&repairs[count]))
        count++;
    return count;
}

static long long nanoseconds(void)
{
    struct timespec now;
    clock_gettime(CLOCK_MONOTONIC, &now);
    return now.tv_sec * 1000000000LL + now.tv_nsec;
}

/* Prints the shortest of the repetitions, each of so many rounds of the work. */
static void print_time(const char *name, int length, int rounds, void (*work)(void *, int), void *with)
{
    long long shortest = 0;
    for (int repetition = 0; repetition < REPETITIONS; repetition++) {
        long long start = nanoseconds();
        for (int round = 0; round < rounds; round++)
            work(with, length);
        long long taken = nanoseconds() - start;
        if (repetition == 0 || taken < shortest)
            shortest = taken;
    }
    printf("time %s %d %d %lld\n", name, length, rounds, shortest);
}
